# What the tools share: which lines ask for something, and which answers have many lines; codes, numbers and bytes in words.

# does a line ask for something? A line that is too long is always answered
function asks(line) {
    if (length(line) > 16384) return 1
    sub(/\r$/, "", line)
    return line !~ /^[ \t]*(#|$)/
}

# does a line end the input?
function quits(line) {
    sub(/\r$/, "", line)
    return line ~ /^[ \t]*quit[ \t]*$/
}

# goes to the next line of a script that asks for something, which is then in `asked`, and its number in `at`; behind a `quit` there is none.
# What is passed over is printed if it is to be seen
function next_asked(script, seen) {
    while (!over && (getline asked < script) > 0) {
        over = quits(asked)
        at++
        if (asks(asked) && !over) return 1
        if (seen) print asked
    }
    return 0
}

# the words of a line
function words_in(line, word) {
    sub(/\r$/, "", line)
    return split(line, word, " ")
}

# the command of a line
function command_of(line,    word) {
    words_in(line, word)
    return word[1]
}

# is a line a block of looks?
function is_block(line) { return command_of(line) == "looks" }

# does the answer to the line in `asked` that begins with this line have more of them, up to one of one full stop? Where undo groups
# are drawn it has, even if it begins with a number
function has_more(line) {
    if (line ~ /^[?]/ || line == ".") return 0
    return line !~ /^[0-9]/ || command_of(asked) == "undo"
}

# the value of a word in base 16
function value(word,    n, i) {
    n = 0
    word = toupper(word)
    for (i = 1; i <= length(word); i++) n = 16 * n + index("0123456789ABCDEF", substr(word, i, 1)) - 1
    return n
}

# the place of a key: row 0 col 5, row 3 SF
function place(code) {
    return "row " int(code / 16) (code % 16 == 12 ? " SF" : " col " code % 16)
}

# a byte of EVTCODE
function code_words(byte,    n) {
    n = value(byte)
    if (n == 127) return "nothing waits"
    return (n < 128 ? "press " : "release ") place(n % 128)
}

# a byte of the picture
function picture_words(byte,    n) {
    n = value(byte)
    if (n == 127) return "no key"
    return "held " place(n % 128) (n < 128 ? "" : " and more")
}

# one more behind what a list has
function also(all, one) { return all (all == "" ? "" : ", ") one }

# a byte of IRQST
function irqst_words(byte,    n, all) {
    n = value(byte)
    if (n >= 128) all = "power-on interrupt"
    if (int(n / 64) % 2) all = also(all, "keypad interrupt")
    if (n % 2) all = also(all, "pin interrupt")
    return all == "" ? "no interrupt" : all
}

# the pins that have a 1 in a byte, the first of which is this one, with words before and behind each
function pins_words(before, byte, first, behind,    n, pin, all) {
    n = value(byte)
    for (pin = first; n > 0; pin++) {
        if (n % 2) all = also(all, before "pin " pin behind)
        n = int(n / 2)
    }
    return all
}

# the levels that the pins are driven to, as `drive` answers
function levels_words(levels,    pin, level, all) {
    for (pin = 0; pin < length(levels); pin++) {
        level = substr(levels, pin + 1, 1)
        if (level != "-") all = also(all, "pin " pin " driven to " level)
    }
    return all == "" ? "no pin is driven" : all
}

# learns the words of the numbers from the host's page: the rows `| NUMBER | WORDS |` below its heading Numbers
function learn_numbers(page,    line, part, within) {
    while ((getline line < page) > 0) {
        if (line ~ /^## /) within = line == "## Numbers"
        if (!within || line !~ /^\| [0-9]+ \| .* \|$/) continue
        split(line, part, / *\| */)
        number_words[part[2]] = part[3]
    }
    close(page)
}

# the words of a declined call's number; the host's page has the reason
function declined_words(number) {
    return "not allowed" (number in number_words ? ": " number_words[number] : "")
}
