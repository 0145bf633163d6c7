# Sessions recorded to a file and played from one. Sourced by run.
# SECOND names another program to run instead of the second module.
# shellcheck shell=bash disable=SC2154

second=${SECOND:-$(.ci/second)} || failed "no second module"
longest=1048576

# ask: what can be seen of a panel, asked for.
ask() { printf '%s\n' show 'held 0 1' irq drive 'wait 1' 'read 10 15' 'read 0B 4' 'read 02 2' 'read C6 15' 'read 91 1' show; }

# size FILE NUMBER: it has so many bytes.
size() { [ "$(wc -c <"$1")" -eq "$2" ] || failed "$1 has other than $2 bytes"; }

# session: lines of every kind of call, done and declined, of fingers, of packed lists, and some that make no call.
session() {
    printf '%s\n' 'write 02 02' 'look 0 2 0 0 0 0 0 0' 'press 0 1' 'look 0' 'look 0 0 0 0 0 0 0 2000' 'read 10 2' 'read 0F 1' 'read 10 33' 'read 10 0' 'write 03 99'
    printf '%s\n' 'looks 0 2 0 0 0 0 0 0 3 0 0 0 0 0 0 0' 'looks 1 2 0 0 0 0 0 0 1 2 0 0 0 0 0 2000 0 0 0 0 0 0 0 0' 'wait 1' 'looks 0 0 0' 'looks'
    printf '%s\n' 'held 0 1' 'irq' 'show' 'pack 9 reset' 'unpack F0' 'play 00' 'wait 3' 'release 0 1' 'rest' 'press 1 SF'
    printf '%s\n' 'write C6 30' 'write C0 20 30' 'write C1' 'write D5 01' 'read C1 1' 'write D2 08' 'read D6 6' 'drive'
}

# A session recorded is, played, the same panel with the same contacts; its file is the second module's, byte for byte.
see_recorded() {
    { session && ask; } | ./panel >"$work/at_once"
    session | ./panel --record "$work/session" >"$work/begun"
    ask | ./panel --play "$work/session" >"$work/gone_on"
    cat "$work/begun" "$work/gone_on" | cmp -s - "$work/at_once" || failed "a session that is recorded and played goes on otherwise"
    session | "$second" --record "$work/second" >/dev/null
    cmp -s "$work/session" "$work/second" || failed "a recording is other than the second module's"
    seen "a session recorded and played goes on as if it had not ended"
}

# Samples of the pins are left out of a recording, done or declined, and accesses to their registers are not. So is the question what is driven.
see_pins() {
    printf '%s\n' 'write C6 20' 'write C0 20 20' 'read D6 3' 'write DC FF' >"$work/less"
    printf '%s\n' 'write C6 20' 'pins 0' 'write C0 20 20' 'drive' 'pins 40' 'pins 80000' 'read D6 3' 'pins 1 1' 'write DC FF' 'pins 0' >"$work/pins"
    gives 0 ./panel --record "$work/one" <"$work/less"
    gives 1 ./panel --record "$work/other" <"$work/pins"
    says out '0 40 00 00'
    cmp -s "$work/one" "$work/other" || failed "samples of the pins are recorded"
    "$second" --record "$work/second" <"$work/pins" >/dev/null
    cmp -s "$work/one" "$work/second" || failed "accesses to the pins' registers are recorded otherwise than by the second module"
    printf 'drive\nread D6 3\n' | ./panel --play "$work/one" >"$work/out"
    printf '0 -----1-------------\n0 00 00 00\n' | cmp -s - "$work/out" || failed "a lamp isn't lit by a recording, or an edge is there"
    seen "a recording has accesses to the pins' registers, and no samples of the pins"
}

# An access that no packed list holds, of no bytes or of more than 32, is recorded if it woke the panel: as a read of one byte at its address.
see_woken() {
    printf '%s\n' 'wait 255' 'read 10 0' 'wait 1' 'read 10 33' 'wait 255' 'write 09' 'write 09' 'wait 254' 'read 0F 1' 'wait 1' 'read 02 33' 'show' >"$work/slept"
    printf '%s\n' 'wait 255' 'read 10 1' 'wait 1' 'wait 255' 'read 09 1' 'wait 254' 'read 0F 1' 'wait 1' 'read 02 1' >"$work/told"
    gives 0 ./panel --record "$work/one" <"$work/slept"
    printf '%s\n' 0 27 0 4 0 27 3 0 5 0 27 >"$work/answers"
    head -n 11 "$work/out" | cmp -s - "$work/answers" || failed "accesses of a panel that sleeps are answered otherwise"
    says out 'awake, quiet looks 0'
    gives 0 ./panel --record "$work/other" <"$work/told"
    cmp -s "$work/one" "$work/other" || failed "an access that woke the panel is recorded otherwise than as a read of one byte"
    "$second" --record "$work/second" <"$work/slept" >/dev/null
    cmp -s "$work/one" "$work/second" || failed "an access that woke the panel is recorded otherwise than by the second module"
    seen "a recording has a read of one byte for an access that it can't hold, and that woke the panel"
}

# block NAME BETWEEN: the longest block that a line holds, 1,023 looks, each sample one digit; the name comes first, and the words between its looks.
block() {
    awk -v name="$1" -v between="$2" 'BEGIN {
        for (i = 0; i < 8184; i++) printf "%s %x", i % 8 ? "" : i ? between : name, (7 * i + int(i / 8)) % 16
        print ""
    }'
}

# The longest block is recorded as its looks one by one are, and leads to the same panel. No length is taken for another.
see_block() {
    { echo 'write 02 01 8C' && block looks ''; } >"$work/block.txt"
    { echo 'write 02 01 8C' && block look $'\nlook'; } >"$work/looks.txt"
    gives 0 ./panel --record "$work/block" <"$work/block.txt"
    says out '0 1023'
    gives 0 ./panel --record "$work/looks" <"$work/looks.txt"
    cmp -s "$work/block" "$work/looks" || failed "a block is recorded otherwise than its looks"
    "$second" --record "$work/second" <"$work/block.txt" >/dev/null
    cmp -s "$work/block" "$work/second" || failed "a block's recording is other than the second module's"
    { cat "$work/block.txt" && ask; } | ./panel | tail -n +3 >"$work/at_once"
    { cat "$work/looks.txt" && ask; } | ./panel | tail -n +1025 >"$work/one_by_one"
    cmp -s "$work/at_once" "$work/one_by_one" || failed "a block leads to another panel than its looks"
    block looks '' | sed -n 'h; s/^\(.\{533\}\).*/\1/p; g; s/..$//p; g; s/$/ 0 0 0 0 0/p; g; s/.$/2000/p' >"$work/block.txt"
    gives 0 ./panel <"$work/block.txt"
    printf '%s\n' '0 33' '1 0' '1 0' '2 1022' | cmp -s - "$work/out" || failed "blocks of 264, 8183 and 8189 samples, and one whose last sample is bad"
    seen "1,023 looks in a block are made and recorded as they are one by one"
}

# Both: the file that is played is recorded first, behind a reset; its own name may be that of the new one.
see_both() {
    printf 'wait 1\nquit\nwait 1\n' >"$work/more"
    gives 0 ./panel --record "$work/one" --play "$work/session" <"$work/more"
    gives 0 ./panel --play "$work/session" --record "$work/other" <"$work/more"
    cmp -s "$work/one" "$work/other" || failed "the order of --record and --play makes a difference"
    { printf 'play ' && od -An -v -tx1 "$work/session" | tr -d ' \n' && printf '\n' && cat "$work/more"; } | ./panel --record "$work/typed" >/dev/null
    cmp -s "$work/one" "$work/typed" || failed "a file played is recorded otherwise than a list played"
    cp "$work/session" "$work/same"
    gives 0 ./panel --play "$work/same" --record "$work/same" <"$work/more"
    cmp -s "$work/one" "$work/same" || failed "a file that is played can't be recorded to"
    seen "--record and --play together: what is played is recorded first"
}

# declined FILE WORDS: the file to play is answered by one line with these words, no line is read, and nothing is recorded.
declined() {
    echo before >"$work/kept"
    gives 1 ./panel --record "$work/kept" --play "$1" <examples/trim.txt
    lines out 1
    grep -q "^? $2" "$work/out" || failed "$1 is answered otherwise than by: ? $2"
    lines err 0
    [ "$(cat "$work/kept")" = before ] || failed "something is recorded though $1 isn't played"
}

# A file that is no packed list, none that can be read, too long a one.
see_declined() {
    head -c -1 "$work/session" >"$work/cut"
    declined "$work/cut" '20 '
    printf '\0' >"$work/zero"
    declined "$work/zero" '20 '
    declined "$work/none" "the file to play can't be read"
    declined "$work" "the file to play can't be read"
    head -c $((longest + 1)) /dev/zero | tr '\0' '\377' >"$work/long"
    declined "$work/long" "the file to play is too long (1048576 bytes at most)"
    : >"$work/empty"
    gives 0 ./panel --play "$work/empty" </dev/null
    lines out 0
    seen "a file that can't be played is told of in one line, and nothing is done"
}

# More than 65,536 bytes are recorded and played, and as many as a file may have.
see_long_files() {
    printf 'press 0 1\nwait 65535\nwrite 02 05\nwrite 02 05\nrelease 0 1\n' >"$work/looks"
    gives 0 ./panel --record "$work/long" <"$work/looks"
    size "$work/long" 868451
    "$second" --record "$work/second" <"$work/looks" >/dev/null
    cmp -s "$work/long" "$work/second" || failed "a long recording is other than the second module's"
    { cat "$work/looks" && ask; } | ./panel | tail -n +6 >"$work/at_once"
    ask | ./panel --play "$work/long" >"$work/gone_on"
    cmp -s "$work/gone_on" "$work/at_once" || failed "a long recording is played otherwise"
    head -c "$longest" /dev/zero | tr '\0' '\377' >"$work/resets"
    gives 0 ./panel --play "$work/resets" --record "$work/copy" </dev/null
    size "$work/copy" $((longest + 1))
    seen "868,451 bytes are recorded and played, and 1,048,576 are played"
}

# A recording that can't be written ends the session, with one line that says so.
see_unwritable() {
    gives 1 ./panel --record "$work/none/file" <examples/trim.txt
    lines out 1
    says out "? the file to record to can't be written"
    printf 'wait 3\nwait 300\nwait 3\n' >"$work/looks"
    gives 1 ./panel --record /dev/full <"$work/looks"
    lines out 3
    says out "? the file to record to can't be written"
    printf 'wait 3\n' >"$work/looks"
    gives 1 ./panel --record /dev/full <"$work/looks"
    lines out 2
    seen "a recording that can't be written ends the session"
}

# What --record and --play don't take.
see_words() {
    gives 1 ./panel --record
    sentence "--record takes a file"
    gives 1 ./panel --play "$work/session" --record
    sentence "--record takes a file"
    gives 1 ./panel --play "$work/session" --play "$work/session"
    sentence "--play is given twice"
    gives 1 ./panel --play "$work/session" examples/trim.txt x
    sentence "take no other words"
    gives 1 ./panel examples/trim.txt --record "$work/kept"
    sentence "takes no --record"
    gives 1 ./panel --timeline examples/trim.txt --play "$work/session"
    sentence "--timeline takes one script"
    seen "--record and --play take a file each, and no script"
}

# On a terminal: a session is recorded, played, and what can't be played ends all before the first prompt.
see_files_typed() {
    printf '%s\n' 'wait 2' 'quit' >"$work/typed"
    gives 0 script -qec "./panel --record '$work/screen'" /dev/null <"$work/typed"
    printf 'wait 2\n' | ./panel --record "$work/one" >/dev/null
    cmp -s "$work/screen" "$work/one" || failed "a session on a terminal is recorded otherwise"
    gives 0 script -qec "./panel --play '$work/screen'" /dev/null <"$work/typed"
    has out 'panel: ready'
    gives 1 script -qec "./panel --play '$work/cut'" /dev/null </dev/null
    has out '? 20 '
    gives 1 script -qec "./panel --record '$work/none/file'" /dev/null </dev/null
    has out "? the file to record to can't be written"
    ! grep -q -e ready -e '> ' "$work/out" || failed "a prompt comes though the file isn't played"
    seen "--record and --play on a terminal"
}

see_recorded
see_pins
see_woken
see_block
see_both
see_declined
see_long_files
see_unwritable
see_words
see_files_typed
