# Scripts with their answers, over the console itself. Sourced by run.
# shellcheck shell=bash disable=SC2154

# The answers alone, byte for byte, and nothing said.
see_answers() {
    for name in trim declined; do
        gives 0 ./panel <"examples/$name.txt"
        cmp -s "$work/out" "examples/$name.out" || failed "./panel < examples/$name.txt gives other answers"
        lines err 0
    done
    seen "./panel < FILE gives the answers and nothing else"
}

# shown_by_second FILE..: the scripts with the second module's stored answers beside them.
shown_by_second() {
    local above=''
    for script in "$@"; do
        printf '%s== %s\n' "$above" "$script"
        above=$'\n'
        SCRIPT=$script HOST=docs/HOST.md LC_ALL=C awk -f tools/words.awk -f tools/beside.awk <"${script%.txt}.out"
    done
}

# Lines beside answers: the stored picture, and every example as the second module answers it.
see_beside() {
    gives 1 ./panel tests/launcher/beside.txt
    cmp -s "$work/out" tests/launcher/beside.shown || failed "tests/launcher/beside.txt is shown otherwise: $(diff "$work/out" tests/launcher/beside.shown)"
    shown_by_second examples/*.txt >"$work/second"
    gives 0 ./panel examples/*.txt
    cmp -s "$work/out" "$work/second" || failed "examples are shown otherwise than with the second module's answers: $(diff "$work/out" "$work/second")"
    ! awk 'length($0) > 100 && !/^ *#/' "$work/out" | grep . || failed "a line is longer than 100"
    seen "./panel FILE shows each line beside its answer"
}

# An answer of many lines stands below its command, and the next answer beside its own; a line that is too long is answered.
see_long_answers() {
    printf 'show\nirq\nhelp\nheld 0 0' >"$work/many"
    gives 0 ./panel "$work/many"
    [ "$(sed -n 1p "$work/out")" = show ] || failed "show isn't the first line"
    [ "$(grep -n -A 1 -x '    \.' "$work/out" | grep -c -e '-irq  *0 yes$' -e '-held 0 0  *0 no$')" -eq 2 ] || failed "what follows an answer of many lines"
    printf 'undo 90\nirq\nundo 3C :\nirq\nundo\nirq\n' >"$work/many"
    gives 1 ./panel "$work/many"
    [ "$(grep -c '^    23 the trim key' "$work/out")" -eq 1 ] || failed "a declined undo isn't below its command"
    [ "$(grep -c '^irq  *0 yes$' "$work/out")" -eq 3 ] || failed "what follows undo groups that are drawn"
    gives 1 ./panel examples/long_line.in
    has out '? line too long'
    seen "answers of many lines stand below their command"
}

# Several scripts, each from a new panel, with its name above; what can't be read is told of before anything runs.
see_several() {
    printf 'write 02 01\nlook 1 0 0 0 0 0 0 0\nheld 0 0\n' >"$work/one"
    printf 'held 0 0\n' >"$work/a=b"
    (cd "$work" && gives 0 "$top/panel" one a=b) || exit 1
    [ "$(tr -s ' ' <"$work/out" | tr '\n' '|')" = '== one|write 02 01 0|look 1 0 0 0 0 0 0 0 0|held 0 0 0 yes||== a=b|held 0 0 0 no|' ] || failed "two scripts"
    gives 1 ./panel "$work/one" "$work/none"
    sentence "there is no file $work/none"
    gives 1 ./panel "$work"
    sentence "can't be read as a script"
    seen "several scripts begin with a new panel each"
}

# The status tells of a question mark, and of answers that can't be written; what a file has already stays there.
see_status() {
    printf 'irq\nrest\nirq\n' >"$work/wrong"
    gives 1 ./panel <"$work/wrong"
    lines out 3
    says out '? unknown command: rest (help lists them)'
    echo before >"$work/appended"
    ./panel <examples/trim.txt >>"$work/appended" || failed "answers that go behind others"
    { echo before && cat examples/trim.out; } | cmp -s - "$work/appended" || failed "a file loses what it had"
    ! ./panel <examples/trim.txt >/dev/full 2>"$work/err" || failed "answers that can't be written are no failure"
    seen "the status tells of a question mark, and of answers that can't be written"
}

# A quit ends the input: nothing behind it is read, shown or missed.
see_quit() {
    printf 'irq\n quit \r\nirq\nrest\n' >"$work/quits"
    gives 0 ./panel <"$work/quits"
    lines out 1
    gives 0 ./panel "$work/quits"
    [ "$(tr -d '\r' <"$work/out" | tr -s ' ' | tr '\n' '|')" = 'irq 0 yes| quit |' ] || failed "a script with a quit"
    seen "nothing behind a quit is read"
}

# What there is, and what there isn't.
see_help() {
    gives 0 env PATH=/usr/bin:/bin ./panel --help
    has out './panel FILE..'
    gives 1 ./panel --halp
    sentence "there is no --halp"
    gives 1 env PATH=/usr/bin:/bin ./panel </dev/null
    sentence "no rt: install the Rattle toolchain"
    seen "--help lists what there is"
}

# shown_in_readme WORDS: the block of README.md below `$ ./panel WORDS`.
shown_in_readme() {
    awk -v words="    \$ ./panel $1" '$0 == words { on = 1; next } !/^    / { on = 0 } on { print substr($0, 5) }' README.md
}

# Each session of README.md is how its output begins.
see_readme() {
    local sessions=0
    while IFS= read -r words; do
        # shellcheck disable=SC2086
        gives 0 ./panel $words
        shown_in_readme "$words" >"$work/readme"
        [ -s "$work/readme" ] || failed "README.md shows nothing of ./panel $words"
        head -n "$(wc -l <"$work/readme")" "$work/out" >"$work/begins"
        cmp -s "$work/begins" "$work/readme" || failed "README.md shows ./panel $words otherwise: $(diff "$work/begins" "$work/readme")"
        sessions=$((sessions + 1))
    done < <(sed -n 's/^    \$ \.\/panel //p' README.md)
    [ "$sessions" -gt 0 ] || failed "README.md shows no session"
    seen "$sessions sessions of README.md are so"
}

see_answers
see_beside
see_long_answers
see_several
see_status
see_quit
see_help
see_readme
