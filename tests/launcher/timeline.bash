# Sessions drawn, against the stored pictures of tests/timeline. Sourced by run.
# shellcheck shell=bash disable=SC2154

# trim_of SCRIPT: the trim key's press code, if the script's first line names one; undo groups are drawn then.
trim_of() { sed -n '1s/^# trim //p' "$1"; }

# Each script's picture, which was drawn by hand from the second module's answers.
see_pictures() {
    local count=0 trim
    for script in tests/timeline/*.txt; do
        trim=$(trim_of "$script")
        gives 0 ./panel --timeline "$script" ${trim:+"$trim"}
        cmp -s "$work/out" "${script%.txt}.picture" || failed "$script is drawn otherwise: $(diff "$work/out" "${script%.txt}.picture")"
        lines err 0
        ! awk 'length($0) > 100' "${script%.txt}.picture" | grep . || failed "$script: a line is longer than 100"
        count=$((count + 1))
    done
    [ "$count" -eq "$(ls tests/timeline/*.picture | wc -l)" ] || failed "a picture without a script"
    seen "$count sessions are drawn as stored"
}

# A contact that settles: its sign says how the key is held, as a stored answer has it. Further lines of `show` are passed over.
see_settling() {
    SCRIPT=tests/timeline/settling/script LC_ALL=C awk -f tools/words.awk -f tools/undo.awk -f tools/session.awk -f tools/timeline.awk <tests/timeline/settling/answers >"$work/out"
    cmp -s "$work/out" tests/timeline/settling/picture || failed "contacts that settle are drawn otherwise: $(diff "$work/out" tests/timeline/settling/picture)"
    seen "a key is held until it is believed open"
}

# Lines may end as on other systems.
see_returns() {
    local trim
    for name in resize block hidden undo_several; do
        sed 's/$/\r/' "tests/timeline/$name.txt" >"$work/returns"
        trim=$(trim_of "tests/timeline/$name.txt")
        gives 0 ./panel --timeline "$work/returns" ${trim:+"$trim"}
        cmp -s "$work/out" "tests/timeline/$name.picture" || failed "$name.txt with carriage returns is drawn otherwise"
    done
}

# A line that the console can't read: it is told of, and the rest is drawn.
see_faults() {
    printf 'write 02 01\nlok 1\nlook 1 0 0 0 0 0 0 0\n' >"$work/faulty"
    gives 1 ./panel --timeline "$work/faulty"
    says err "panel: line 2 was answered by ? unknown command: lok (help lists them)"
    grep -q '^0\.0   00  00=$' "$work/out" || failed "a session with a fault isn't drawn"
    gives 1 ./panel --timeline "$work/none"
    sentence "there is no file $work/none"
    gives 1 ./panel --timeline
    sentence "takes one script"
    printf 'irq\n' >"$work/still"
    gives 0 ./panel --timeline "$work/still"
    has out "nothing to draw"
    seen "a line with a question mark is told of beside the drawing"
}

# drawn_but_undo SCRIPT: its drawing without TRIM, from one with it in $work/out: no row of undo groups and no words on them.
drawn_but_undo() {
    grep -v -e '^undo ' -e '^\. a code outside' -e '^?: ' "$work/out" >"$work/less"
    gives 0 env TRIM=3C ./panel --timeline "$1"
    cmp -s "$work/out" "$work/less" || failed "$1 is drawn otherwise without undo groups: $(diff "$work/out" "$work/less")"
}

# With a trim key the drawing gains undo groups and nothing else; a fault is told of once. What the environment says is no trim key.
see_undo() {
    local name
    for name in overflow hidden long undo_lost; do
        gives 0 ./panel --timeline "tests/timeline/$name.txt" 3C
        drawn_but_undo "tests/timeline/$name.txt"
    done
    gives 1 ./panel --timeline "$work/faulty" 00
    lines err 1
    says out "undo 1    [->"
    gives 0 ./panel --timeline "$work/still" 3C
    has out "nothing to draw"
    seen "a trim key adds undo groups to a drawing, and nothing else"
}

# More codes in a list than a line of the console holds: the list isn't cut, and the legend says why.
see_long_list() {
    awk 'BEGIN { print "write 02 01 8C"; for (i = 0; i < 460; i++) printf "look %s 0 0 0 0 0 0 0\nread 10 16\n", i % 2 ? "0" : "FFF" }' >"$work/many"
    gives 0 ./panel --timeline "$work/many" 3C
    has out "?: the console can't cut these: ? line too long"
    seen "a list that is too long for the console is drawn as such"
}

# Words that are no trim key: a sentence, and nothing is drawn.
see_trims() {
    local word
    for word in '' 3G 0x3C '3C 05' examples/trim.txt --play; do
        gives 1 ./panel --timeline examples/trim.txt "$word"
        sentence "'$word' is not hexadecimal"
    done
    for word in 100 13C 0100; do
        gives 1 ./panel --timeline examples/trim.txt "$word"
        sentence "$word is too large: a trim key's press code is at most 7C"
    done
    for word in 7F 0d BC ff; do
        gives 1 ./panel --timeline examples/trim.txt "$word"
        sentence "$word is no press code of a key: a trim key is 16 times the row and the column, in hexadecimal"
    done
    gives 1 ./panel --timeline examples/trim.txt 3C 05
    sentence "--timeline takes one script, and behind it the trim key's press code"
    gives 1 ./panel --timeline "$work/none" 3C
    sentence "there is no file $work/none"
    seen "what is no trim key is told in one sentence"
}

see_pictures
see_settling
see_returns
see_faults
see_undo
see_long_list
see_trims
