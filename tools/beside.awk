# A script beside its answers, which come in; ENVIRON has the script's name (SCRIPT) and the host's page (HOST). words.awk comes before it.
# A line that asks for nothing, blank or a comment, stands as it is. An answer that begins with a number or a question mark is a line;
# another, and every drawing of undo groups, has many, below its command, and ends with a line of one full stop. Exit status 1 if an answer is a question mark or missing.

BEGIN {
    script = ENVIRON["SCRIPT"]
    learn_numbers(ENVIRON["HOST"])
    answer_column = 30; words_column = 46; width = 100
}

# a line as it is shown: blanks for tabs, and a very long one cut
function shown(line) {
    sub(/\r$/, "", line)
    gsub(/\t/, " ", line)
    if (length(line) > 200) gsub(/ +/, " ", line)
    return length(line) > 200 ? substr(line, 1, 60) " .." : line
}

# a line that needs several: a block of looks is cut only between them, and they stand apart
function by_looks(line,    word, n, i, all) {
    if (!is_block(line)) return line
    n = split(line, word, " ")
    all = word[1]
    for (i = 2; i <= n; i++) all = all (i % 8 == 2 ? " " : "\001") word[i] (i % 8 == 1 && i < n ? "\001" : "")
    return all
}

# a text made so long by blanks; at least two follow it
function padded(text, n) {
    return sprintf("%-" (n > length(text) + 2 ? n : length(text) + 2) "s", text)
}

# the words of a byte by its address: EVTCODE, the picture, IRQST, GPIODATA, GPIORIS and GPIOMIS; none of another
function byte_words(address, byte) {
    if (address == 16) return code_words(byte)
    if (address >= 11 && address <= 14) return picture_words(byte)
    if (address == 145) return irqst_words(byte)
    if (address == 192 || address == 194 || address == 196) return pins_words("", byte, 4 * (address - 192), " is 1")
    if (address >= 214 && address <= 216) return pins_words("edge of ", byte, 8 * (address - 214), "")
    if (address >= 217 && address <= 219) return pins_words("enabled edge of ", byte, 8 * (address - 217), "")
    return ""
}

# a list of words in which no line ends but behind a comma; \001 is a blank at which none ends
function kept_together(words) {
    gsub(/ /, "\001", words)
    gsub(/,\001/, ", ", words)
    return words
}

# the words of the bytes that a read gave, from its address on
function read_words(address, bytes, n,    i, all, one) {
    for (i = 2; i <= n; i++) {
        one = kept_together(byte_words(address, bytes[i]))
        if (one != "") all = also(all, one)
        if (address == 16 && value(bytes[i]) == 127) break
        if (address != 16) address++
    }
    return all
}

# the words of a block of looks: how many were done, and why the next was not
function block_words(number, done,    all) {
    if (done > 0) all = done (done == 1 ? " look" : " looks") " done"
    if (number == "0") return all
    return (done > 0 ? all ", the next " : "") declined_words(number)
}

# the words to the right of an answer; none if it speaks for itself
function words_of(line, answer,    word, given, n) {
    if (answer ~ /^[?]/) return ""
    n = split(answer, given, " ")
    if (is_block(line)) return block_words(given[1], given[2])
    if (given[1] != "0") return declined_words(given[1])
    words_in(line, word)
    if (word[1] == "drive") return kept_together(levels_words(given[2]))
    return word[1] == "read" ? read_words(value(word[2]), given, n) : ""
}

# a text from a column on, in as many lines as it needs; from its second line on it is set in further
function fold(text, column, further,    word, n, i, line) {
    n = split(text, word, " ")
    line = sprintf("%" column "s", "")
    for (i = 1; i <= n; i++) {
        if (i > 1 && length(line) + 1 + length(word[i]) > width) { restored(line); line = sprintf("%" column + further "s", "") word[i]; continue }
        line = line (i > 1 ? " " : "") word[i]
    }
    restored(line)
}

# does an answer stand below its line? Behind the samples of a block it would look like one more
function is_below(left, answer) {
    return length(padded(left, answer_column) answer) > width || is_block(left) && length(left) > answer_column - 2
}

# a line, its answer, and the words to the right of it, in as many lines as they need
function show(left, answer, words,    line, word, n, i, filled) {
    left = shown(left)
    line = padded(left, answer_column) answer
    if (is_below(left, answer)) {
        if (length(left) > width) fold(by_looks(left), 0, 4); else print left
        line = padded("", answer_column) answer
    }
    if (length(line) > width) {
        fold(answer, answer_column, 0)
        line = ""
        if (words == "") return
    }
    n = split(words, word, " ")
    if (n && length(line) > words_column - 2) { print line; line = "" }
    for (i = 1; i <= n; i++) {
        if (filled && length(line) + 1 + length(word[i]) > width) { restored(line); line = ""; filled = 0 }
        line = filled ? line " " word[i] : sprintf("%-" words_column "s", line) word[i]
        filled = 1
    }
    restored(line)
}

function restored(line) { sub(/\001$/, "", line); gsub(/\001/, " ", line); print line }

# the further lines of an answer that has many
within { print "    " $0; within = $0 != "."; next }

!next_asked(script, 1) { show("", $0, ""); missing = missing "an answer without a line\n"; next }

{ within = has_more($0) }

/^[0-9?]/ && !within { show(asked, $0, words_of(asked, $0)); if (/^[?]/) bad = 1; next }

{ print shown(asked); print "    " $0 }

END {
    while (next_asked(script, 1)) { show(asked, "(no answer)", ""); bad = 1 }
    if (missing != "") { printf "%s", missing; bad = 1 }
    exit bad
}
