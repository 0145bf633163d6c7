# A session drawn: looks across, keys down. words.awk, undo.awk and session.awk come before it, and say what comes in and what a column is.
# Every key that is ever held has a row, three wide a column: its code in the look in which it was believed, a bar while it is held, its code
# in the look in which it was let go. ~ stands in the looks that can't read the key, since the special-function contact of its row is closed.
# Below the keys stands a row of undo groups for each rule, if they are wanted.
# Each line of a block is a label and a cell for each column, so that further lines can stand below. Exit status 1 if a line was answered by a question mark.

BEGIN { label = "%-10s"; columns = 30 }

# a line of the drawing, without blanks at its end
function line_out(line) { sub(/ +$/, "", line); print line }

# a line of a block: a label, and a mark for each column
function marks_out(name, marks, from, to,    line, i) {
    line = sprintf(label, name)
    for (i = from; i <= to; i++) line = line sprintf("%-3s", sprintf("%2s", i in marks ? marks[i] : ""))
    line_out(line)
}

# a row of a block: a label, and what it has in each column
function row_out(name, row, from, to,    line, i) {
    line = sprintf(label, name)
    for (i = from; i <= to; i++) line = line sprintf("%-3s", (row, i) in cell ? cell[row, i] : "")
    if (line ~ /~/) hidden = 1
    line_out(line)
}

# the name of a key: its row and its column
function name_of(key) { return int(key / 13) "." key % 13 }

# the head of a block: which looks it has
function head_out(from, to,    i, first, last) {
    for (i = from; i <= to; i++) if (i in look_at) { if (!first) first = look_at[i]; last = look_at[i] }
    print (first ? "looks " first " to " last : "no looks")
}

# so many columns, from one on
function block_out(from, to,    i, key, rule) {
    if (width > columns) head_out(from, to)
    marks_out("look", number, from, to)
    for (key = 0; key < 104; key++) if (key in ever) row_out(sprintf("%-6s%s", name_of(key), code_of(key)), key, from, to)
    for (rule = 1; rule <= rules; rule++) row_out("undo " rule, "undo " rule, from, to)
    marks_out("dropped", dropped, from, to)
    for (i = from; i <= to; i++) if (i in fetched) host[i] = host[i] fetched[i]
    marks_out("host", host, from, to)
    print ""
}

END {
    for (i = 1; i <= faults; i++) print fault[i] > "/dev/stderr"
    for (i = 1; i <= misses; i++) print missing[i]
    draw_groups()
    if (!width) print "nothing to draw: no look, no reset, no write of KBDSIZE and no list played\n"
    for (from = 1; from <= width; from += columns) block_out(from, from + columns - 1 < width ? from + columns - 1 : width)
    print "05= pressed, === held, 85 let go, ** its code was dropped, | opened by R or S; x a declined look"
    print "host: codes fetched after the look; R a reset, S a write of KBDSIZE, with the codes that it emptied"
    if (hidden) print "~~~ held, ~ open, in a look that can't read the key: the SF contact of its row is closed"
    if (played) print "P: a packed list was played, behind a reset"
    if (rules) groups_legend()
    exit (faults + misses > 0)
}
