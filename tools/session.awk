# What happened in a session, column by column, for the tools that draw it. The console's answers to shows.awk's script come in; ENVIRON has
# the script's name (SCRIPT), and the trim key's press code if undo groups are wanted (TRIM). words.awk comes before it.
# A column is a look, a reset, a write of KBDSIZE or a list that was played; the looks of a `press`, `release` or `wait` are one column, with the number
# of the last, since a contact that stays as it is makes its key change once at most. A declined look takes a column too, marked x, but no
# number: nothing has happened to the panel. Each look of a block has its own column, up to the declined one.
# Of what `show` draws, the lines of rows and the codes that wait are read: # and - are signs of a held key. A change whose code
# doesn't wait after its look was dropped.
# The codes that reached the queue are kept in lists, in their order and each with its column. A reset, a write of KBDSIZE and a list that was
# played begin a new one; what they emptied, so that no host fetched it, stays in the old one. What a list that was played has fetched can't be
# seen: the new list begins with a press of each key that it left held, in its column.

BEGIN {
    script = ENVIRON["SCRIPT"]; expected = "answer"; bounce = 3
    trim = ENVIRON["TRIM"]; rules = trim == "" ? 0 : 1
    lists = 1; first_column[lists] = 1
}

# the keys of a row that is drawn, and which are held: a sign for each column, then that of the special-function key
function read_row(    col, key) {
    for (col = 0; col <= NF - 2; col++) {
        key = 13 * $1 + (col == NF - 2 ? 12 : col)
        in_size[key] = 1
        if ($(col + 2) ~ /^[#-]$/) now[key] = 1
    }
}

# the codes that wait after the call
function read_waiting(    i) {
    waits = NF - 1
    for (i = 1; i <= waits; i++) code_at[i] = $(i + 1)
}

# has the line that is answered one answer more? shows.awk makes a block of each look that was done, and a last one of what is left
function goes_on() { return is_block(asked) && answer == "0 1" }

# how many looks a command asks for; 0 if it is no command of looks, or a block of none
function looks_of(word) {
    if (word[1] == "look") return 1
    if (word[1] == "looks") return answer != "0 0"
    if (word[1] == "press" || word[1] == "release") return bounce > 0 ? bounce : 1
    return word[1] == "wait" ? word[2] + 0 : 0
}

# the special-function contacts as eight samples have them, from a word on: is that of a row closed?
function sampled(word, first,    row) {
    for (row = 0; row < 8; row++) closed[row] = value(word[first + row]) >= 4096
}

# the special-function contacts in the looks that a line asks for; a `wait` leaves them
function contacts_of(word) {
    if (word[1] == "look") sampled(word, 2)
    if (word[1] == "looks") sampled(word, 8 * part + 2)
    if (word[1] ~ /^(press|release)$/ && (toupper(word[3]) == "SF" || word[3] + 0 == 12)) closed[word[2] + 0] = word[1] == "press"
}

# the number in so many bits of a packed list, from one on; the first is bit 0
function bits_at(digits, from, count,    i, all) {
    for (i = from; i < from + count; i++) all = 2 * all + int(value(substr(digits, int(i / 4) + 1, 1)) / 2 ^ (3 - i % 4)) % 2
    return all + 0
}

# how many bits the record has that begins at one
function record_bits(digits, from,    kind) {
    kind = bits_at(digits, from, 2)
    if (kind == 0) return 106
    if (kind == 1) return 15 + 8 * (bits_at(digits, from + 10, 5) + 1)
    return kind == 2 ? 15 : 2
}

# the special-function contacts as the last look of a packed list has them; if there is none they stay
function contacts_played(digits,    from, row) {
    sub(/^[ \t]*play/, "", digits)
    gsub(/[ \t\r]/, "", digits)
    for (from = 0; from + 106 <= 4 * length(digits); from += record_bits(digits, from)) {
        if (bits_at(digits, from, 2) > 0) continue
        for (row = 0; row < 8; row++) closed[row] = bits_at(digits, from + 13 * row + 2, 1)
    }
}

# could the look not read this key?
function is_hidden(key) { return key in in_size && key % 13 < 12 && closed[int(key / 13)] }

# the press code of a key
function code_of(key) { return sprintf("%02X", 16 * int(key / 13) + key % 13) }
function release_of(key) { return sprintf("%02X", 128 + 16 * int(key / 13) + key % 13) }

# the code of a change as it is drawn: stars if it was dropped
function drawn(code) {
    if (code in came) return code
    dropped[width]++
    return "**"
}

# a code goes to the list that is kept
function to_list(code,    i) {
    i = list_length[lists]++
    list_code[lists, i] = code
    list_column[lists, i] = width
}

# a list ends before this column, and the next begins in it
function list_begins() {
    last_column[lists] = width - 1
    first_column[++lists] = width
}

# looks that were done: what changed, and what was dropped
function looks_done(made,    i, key) {
    looks += made
    number[width] = looks < 100 ? looks : sprintf("%02d", looks % 100)
    look_at[width] = looks
    split("", came)
    for (i = waited + 1; i <= waits; i++) { came[code_at[i]] = 1; to_list(code_at[i]) }
    for (key = 0; key < 104; key++) {
        if (key in now && !(key in held)) cell[key, width] = drawn(code_of(key)) "="
        else if (key in held && !(key in now)) cell[key, width] = drawn(release_of(key))
        else if (key in held) cell[key, width] = is_hidden(key) ? "~~~" : "==="
        else if (is_hidden(key)) cell[key, width] = " ~"
    }
}

# a look that was declined: the bars go on
function look_declined(    key) {
    number[width] = "x"
    for (key in held) cell[key, width] = "==="
}

# a reset, a write of KBDSIZE or a list that was played: every key was opened, and the codes that waited are gone
function restarted(mark,    key) {
    width++
    list_begins()
    host[width] = mark (waited > waits ? waited - waits : "")
    for (key in held) cell[key, width] = "|"
}

# a list that was played, behind a reset
function list_played(    key) {
    restarted("P")
    contacts_played(asked)
    for (key = 0; key < 104; key++) if (key in now) to_list(code_of(key))
    played = 1
}

# the call is over: it is drawn, and the panel is as it was shown
function call_done(    word, n, made, first, key) {
    n = words_in(asked, word)
    first = value(word[2])
    made = looks_of(word)
    if (made > 0 && answer ~ /^[0-9]/) {
        width++
        if (answer ~ /^0/) { contacts_of(word); looks_done(made) } else look_declined()
    }
    if (word[1] == "reset" && answer == "0") restarted("R")
    if (word[1] == "play" && answer == "0") list_played()
    if (word[1] == "write" && answer == "0" && first <= 3 && first + n - 2 > 3) restarted("S")
    if (word[1] == "read" && waits < waited) fetched[width] += waited - waits
    split("", held)
    for (key in now) held[key] = ever[key] = 1
    waited = waits
}

expected == "answer" {
    part = goes_on() ? part + 1 : 0
    if (part == 0 && !next_asked(script)) { missing[++misses] = "an answer without a line: " $0; exit }
    answer = $0
    expected = has_more($0) ? "rest" : "show"
    if (/^[?]/) fault[++faults] = "panel: line " at " was answered by " $0
    split("", now)
    split("", in_size)
    next
}
expected == "rest" { if ($0 == ".") expected = "show"; next }
/^ [0-7]   / { read_row() }
/^waiting:/ { read_waiting() }
/^KBDBOUNCE / { bounce = value(substr($2, 1, 2)) }
$0 == "." { call_done(); expected = "answer" }

END {
    if (expected != "answer" || goes_on() || next_asked(script)) missing[++misses] = "no answer to line " at " of the script"
    last_column[lists] = width + 0
}
