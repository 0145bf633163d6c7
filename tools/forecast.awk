# Tells how many of the console's crates have to be proved, and how many it has: crates.txt first, then lines `proved NAME` and `changed ./NAME/..`.

# A crate counts once, after those that it uses. It has to be proved if it never was, has changed, or uses one that has.
function visit(name,    used, n, i) {
    if (name in seen || !(name in uses)) return
    seen[name] = 1
    total++
    n = split(uses[name], used, " ")
    for (i = 1; i <= n; i++) {
        visit(used[i])
        if (used[i] in changed) changed[name] = 1
    }
    if (!(name in proved) || name in changed) needed++
}

NR == FNR {
    sub(/#.*/, "")
    if (split($0, part, ":") == 2) { split(part[1], word, " "); uses[word[1]] = part[2] }
    next
}
$1 == "proved" { proved[$2] = 1 }
$1 == "changed" && split($2, part, "/") > 2 && part[3] ~ /^(src|specs|proofs|stdin|stdout)$/ { changed[part[2]] = 1 }
END { visit("console"); print needed + 0, total + 0 }
