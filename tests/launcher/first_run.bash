# The first run, and what can go wrong with it, in a clone whose rt only records. Sourced by run.
# shellcheck shell=bash disable=SC2154

real=$(readlink -f "$(command -v rt)") || failed "no rt"
home=${RATTLE_HOME:-${real%/*/*}}
links_to "$work/home" "$home" bin
links_to "$work/home/bin" "$home/bin" rattle
mkdir "$work/bin" && cp tests/launcher/rt crates/console/out/console "$work/bin/" && cp tests/launcher/rattle "$work/home/bin/" || failed "no copy of the toolchain that records"
home=$work/home

# The console for Arm is made once by all that is real; a clone links its own from that one's object.
firmware/native >"$work/out" 2>"$work/err" || failed "the console can't be compiled for Arm"
object=$PWD/target/arm/console.o

# On an Arm machine one line more is said, that the console is compiled for it, and rt is asked once more.
more=0
[ "$(uname -m)" != aarch64 ] || more=1

# The clone's crates, whatever the project's own are: the rt that records proves the fifteen of the console.
list_crates() {
    cat <<-'LIST'
	words:
	numbers:
	keys: words
	contact: words
	registers: words
	text: words
	judge: words numbers keys registers
	state: words keys
	flags: words state
	picture: words keys state
	scan: words keys contact state
	sound: words keys state picture
	access: words keys registers state flags picture
	calls: words numbers keys judge state flags sound scan access
	console: text numbers keys state flags calls
	panel staticlib: keys state calls
	LIST
}

# A clone in which nothing is built, and an empty record.
clone() {
    rm -rf "$at"
    mkdir -p "$at/.ci"
    tar --anchored --no-wildcards-match-slash --exclude='crates/*/out' -cf - panel tools crates docs examples firmware .ci/toolchain | tar -C "$at" -xf - || failed "no clone"
    list_crates >"$at/crates.txt"
    : >"$work/record"
}

# panel MODE WORDS..: the clone's launcher over a toolchain in that mode.
panel() {
    local mode=$1
    shift
    fake "$mode" "$at/panel" "$@"
}

# fake MODE COMMAND..: a command with the toolchain that only records, in that mode.
fake() {
    local mode=$1
    shift
    env PATH="$work/bin:$PATH" RATTLE_HOME="$home" FAKE_MODE="$mode" FAKE_RECORD="$work/record" FAKE_PROGRAM="$work/bin/console" \
        FAKE_OBJECT="$object" "$@"
}

# answered: the second module's answers to the script came, and nothing else.
answered() { cmp -s "$work/out" examples/trim.out || failed "other answers than examples/trim.out"; }

# told NAME NUMBER OF: it was said that this crate is proved, the so manieth of so many.
told() { grep -q "^panel: $1 proved in [0-9]* s ($2 of $3)\$" "$work/err" || failed "$1 isn't told of as the crate $2 of $3"; }

# The first run says what it does; the next says nothing, though files are newer, for rt is asked, not the clock.
see_first_run() {
    clone
    gives 0 panel proved <examples/trim.txt
    answered
    has err "the console's 15 crates have to be proved and built"
    told words 1 15
    told console 15 15
    grep -q '^panel: proved and built in [0-9]* s; crates/\*/out take [0-9]* MB$' "$work/err" || failed "the disk isn't told of"
    lines err $((17 + more))
    gives 0 panel proved <examples/trim.txt
    answered
    lines err 0
    recorded $((2 + more)) '^called: run in console$'
    recorded 15 '^proved: '
    recorded 0 '^took a line'
    seen "the first run tells what is proved, the next is silent"
}

# A changed crate: those that use it may have to be proved again, and no others; rt decides.
see_change() {
    rm "$at/crates/scan/out/rlib/stamp" "$at/crates/console/out/console.stamp"
    touch "$at/crates/access/src/lib.rt"
    gives 0 panel proved <examples/trim.txt
    answered
    says err "panel: up to 4 of the console's 15 crates have to be proved"
    told scan 1 4
    recorded 17 '^proved: '
    gives 0 panel proved <examples/trim.txt
    lines err 0
    rm "$at/crates/console/out/console"
    gives 0 panel proved <examples/trim.txt
    answered
    recorded 3 '^proved: console'
    seen "a change is told of, and a program that is gone is built again"
}

# A failed check: no answer, no program left, and rt's message for the crate alone.
see_refused() {
    gives 1 panel refused <examples/trim.txt
    lines out 0
    says err 'keys/proofs/Lib.antt:1:1: error: it is not so'
    says err 'fn keys::two: not proved'
    says err 'rt: the library keys did not build, so nothing above it was checked'
    has err "panel: the console is not proved, so it isn't run"
    lines err 4
    [ ! -e "$at/crates/console/out/console" ] || failed "a program whose check failed is still there"
    gives 0 panel proved <examples/trim.txt
    answered
    gives 1 panel unlike "$top/examples/trim.txt"
    lines out 0
    sentence "the console is proved, but on crates/console/stdin it doesn't write what crates/console/stdout has"
    [ ! -e "$at/crates/console/out/console" ] || failed "a program whose run failed is still there"
    seen "a program whose check failed is removed, not run"
}

# waits_for WORDS: until the record has them.
waits_for() {
    local tries
    for ((tries = 0; tries < 100; tries++)); do
        ! grep -q -e "$1" "$work/record" || return
        sleep 0.1
    done
    failed "no $1 in ten seconds"
}

# Two at once: the second waits, says so, and finds all proved.
see_two() {
    clone
    panel slow <examples/trim.txt >"$work/out.first" 2>"$work/err.first" &
    first=$!
    waits_for '^called: run'
    gives 0 panel slow <examples/trim.txt
    answered
    says err "panel: another ./panel proves and builds here: waiting for it"
    wait "$first" || failed "the first of two"
    cmp -s "$work/out.first" examples/trim.out || failed "the first of two gives other answers"
    recorded 15 '^proved: '
    seen "two at once: the second waits, and nothing is proved twice"
}

# A run that was killed leaves no lock behind.
see_killed() {
    clone
    fake asleep sh -c 'echo "launcher: $$" >>"$FAKE_RECORD"; exec "$0"' "$at/panel" </dev/null >"$work/out.killed" 2>&1 &
    waits_for '^asleep: '
    # shellcheck disable=SC2046
    kill -KILL $(sed -n 's/^\(launcher\|asleep\): //p' "$work/record")
    wait "$!" 2>/dev/null
    gives 0 fake proved timeout 120 "$at/panel" <examples/trim.txt
    answered
    seen "a killed run blocks nobody"
}

# as_user MODE COMMAND..: the same as a user whom permissions bind.
as_user() {
    local mode=$1
    shift
    if [ "$(id -u)" -eq 0 ]; then
        set -- setpriv --reuid=65534 --regid=65534 --clear-groups "$@"
    fi
    fake "$mode" "$@"
}

# A folder that can't be written, a full disk, no temporary folder: one sentence each.
see_sentences() {
    clone
    gives 1 panel full </dev/null
    grep -v 'have to be proved' "$work/err" >"$work/said"
    mv "$work/said" "$work/err"
    sentence "the disk is full: "
    TMPDIR=$work/none gives 1 panel proved </dev/null
    sentence "no temporary folder can be made in $work/none"
    gives 0 panel proved <examples/trim.txt
    gives 1 panel shut <examples/trim.txt
    sentence "crates/\*/out can't be written to"
    clone
    chmod a+rx "$work"
    chmod -R a+rX,a-w "$at"
    gives 1 as_user proved "$at/panel" </dev/null
    sentence "crates/\*/out can't be written to"
    ! ls -d "$at"/crates/*/out >/dev/null 2>&1 || failed "something was written to a read-only clone"
    chmod -R u+w "$at"
    seen "a full disk, a read-only clone, no temporary folder: a sentence each"
}

see_first_run
see_change
see_refused
see_two
see_killed
see_sentences
