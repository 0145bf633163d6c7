# The rows of undo groups of a session that is drawn, one for each rule. It stands before session.awk, whose lists of codes it draws.
# The console cuts the lists: its answers to the questions of questions.awk come in first, in their order, and an empty line behind them.
# A cell is three wide. A group that the trim key opened has [ in the look of its first code, ] in that of its last, and a line between them;
# the line of one that isn't ended goes to the last column of its list, where > stands. Codes within a group have no sign. One outside is a
# dot, and several in a look are their number.
# The trim key changes once in a look at most, so a look has no more than the end of a group, then codes outside, then the beginning of the
# next. With an end or a beginning beside them the codes outside are one sign, . for one and : for several: `-].` `:[-`. The line and the >
# fill what is left of the three, in this order: signs, >, line.
# A list that can't be cut has ? in each column of its codes.

BEGIN { cutting = ENVIRON["TRIM"] != "" }

cutting { if ($0 == "") cutting = 0; else cut[++cuts] = $0; next }

# what stands at the places of a list, by the console's answer: [ ] . or, within a group, nothing
function learn_signs(answer, sign,    word, n, i) {
    n = split(answer, word, " ")
    for (i = 2; i < n; i += 3) {
        if (word[i] == "group" && word[i + 2] - word[i + 1] == 1) { sign[word[i + 1]] = "."; continue }
        sign[word[i + 1]] = "["
        if (word[i] == "group") sign[word[i + 2] - 1] = "]"
    }
}

# the cell of a column with these signs. Was there a group before it, is there one behind it, and is it the last of its list?
function group_cell(signs, before, behind, last,    line) {
    if (signs !~ /[^.]/ && !before) return sprintf("%2s", length(signs) > 1 ? length(signs) : signs)
    gsub(/\.\.+/, ":", signs)
    if (behind && last) signs = signs ">"
    line = substr("---", 1, 3 - length(signs))
    if (before) signs = line signs; else sub(/\[/, "[" line, signs)
    return substr(signs, 1, 3)
}

# a list as the console cut it
function draw_list(row, list, answer,    sign, signs, i, before, behind) {
    learn_signs(answer, sign)
    for (i = 0; i < list_length[list]; i++) signs[list_column[list, i]] = signs[list_column[list, i]] sign[i]
    for (i = first_column[list]; i <= last_column[list]; i++) {
        before = behind
        if (match(signs[i], /[^.]\.*$/)) behind = substr(signs[i], RSTART, 1) == "["
        cell[row, i] = group_cell(signs[i], before, behind, i == last_column[list])
    }
}

# a list that can't be cut, and why
function draw_uncut(row, list, answer,    i) {
    uncut[answer] = 1
    for (i = 0; i < list_length[list]; i++) cell[row, list_column[list, i]] = " ?"
}

# all rows, from the answers in the order of the questions
function draw_groups(    rule, list, n) {
    for (rule = 1; rule <= rules; rule++) {
        for (list = 1; list <= lists; list++) {
            if (cut[++n] ~ /^0/) draw_list("undo " rule, list, cut[n]); else draw_uncut("undo " rule, list, cut[n])
        }
    }
}

# what the signs mean
function groups_legend(    code, answer) {
    code = value(trim)
    printf "undo 1, trim key %d.%d (%02X): [-- a group begins, --- goes on, --] ends; --> it hasn't ended\n", int(code / 16), code % 16, code
    print ". a code outside, 3 so many; .[- one and :[- several before a group begins, -]. -]: behind its end"
    if (played) print "undo 1 at P: a press of each key that the list left held"
    for (answer in uncut) {
        if (answer == "24") print "?: a code was lost, so these make no undo groups (24: a key pressed while down, or let go while up)"
        else print "?: the console can't cut these: " answer
    }
}
