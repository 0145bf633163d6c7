# What of an LLVM module can't be carried to a target with other pointers, or isn't there: a line each. `names` has the C functions that it may declare.
# Every pointer must stay one: no number is made of it or it of a number, and every place is reached by bytes from another.
BEGIN {
    n = split(names, list, " ")
    for (i = 1; i <= n; i++) known[list[i]] = 1
    n = split("memcpy memmove memset memcmp llvm.memcpy.p0.p0.i64 llvm.memmove.p0.p0.i64 llvm.memset.p0.i64 llvm.trap llvm.cttz.i16 llvm.cttz.i64", list, " ")
    for (i = 1; i <= n; i++) known[list[i]] = 1
}

# says WORDS: a thing refused, with its line.
function says(words) { print words ": " $0 }

# a comment, and what stands in quotes, is no instruction
/^;/ { next }
{ name = $0; line = $0; gsub(/"[^"]*"/, "\"\"", line); sub(/;.*/, "", line) }

line ~ /(^|[^a-z0-9_.])(ptrtoint|ptrtoaddr)([^a-z0-9_.]|$)/ { says("a pointer made a number") }
line ~ /(^|[^a-z0-9_.])inttoptr([^a-z0-9_.]|$)/ { says("a number made a pointer") }
line ~ /(^|[^a-z0-9_.])asm([^a-z0-9_.]|$)/ { says("assembly") }
line ~ /(^|[^a-z0-9_.])addrspacecast([^a-z0-9_.]|$)/ { says("another address space") }
line ~ /(^|[^a-z0-9_.])getelementptr / && line !~ /getelementptr (inbounds |nuw |nusw )*\(?i8, / { says("a place not told in bytes") }
# a small number beside a pointer lies elsewhere where pointers are shorter
!told && line ~ /\{ i(1|8|16|32), ptr/ { says("padding that isn't written out"); told = 1 }
# bytes that nothing alters are the same everywhere
line ~ /^@/ && line !~ /^@static\.[0-9]+ = private unnamed_addr constant \[[0-9]+ x i8\] (c""|zeroinitializer), align 1$/ { says("a variable, or another name") }
line ~ /^define / && line !~ /^define internal / && line ~ /^define ([a-z_]+ )*i(1|8|16) @/ && line !~ /^define [^@]*(zeroext|signext) / { says("a small number returned, and not extended") }
line ~ /^define / && line !~ /^define internal / { head = line; sub(/ *\{$/, "", head); if (head ~ /byval|sret|inreg|[{<]/) says("a struct passed as x86-64 passes it") }

/^declare / {
    if (!match(name, /@("[^"]*"|[A-Za-z0-9_.$]+)\(/)) { says("a declaration that isn't understood"); next }
    name = substr(name, RSTART + 1, RLENGTH - 2)
    gsub(/"/, "", name)
    if (!(name in known)) says("a function of somebody else's")
}
