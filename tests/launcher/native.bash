# The console compiled for an Arm machine, in a clone whose rt only records, on such a machine or on one that seems to be (arm.bash). Sourced by run.
# The emulator only records, and answers a line of its own: so what it runs is told from the console for Arm.
# shellcheck shell=bash disable=SC2154

seem_arm "$work/arm"
rm "$work/arm/bin/rattle" && cp tests/launcher/rattle "$work/arm/bin/" || failed "no copy of the prover that records"
put_program "$work/arm/bin/qemu-x86_64" <<-'PROGRAM'
	echo "emulated: $*" >>"$FAKE_RECORD"
	echo '0 emulated'
	PROGRAM

# on_arm MODE COMMAND..: a command with the toolchain that only records, in that mode, on an Arm machine.
on_arm() { home=$work/arm PATH="$work/arm/bin:$PATH" fake "$@"; }

# made NUMBER: what is said tells that the console is compiled for this machine, and so often the prover was asked for it.
made() {
    says err "panel: the console is compiled for this machine, this once: a few minutes"
    recorded "$1" '^compiled: console for aarch64-unknown-linux-gnu$'
}

# answered_on_arm: the console for Arm gave the answers, and nothing was emulated.
answered_on_arm() {
    answered
    recorded 0 '^emulated: '
}

# plant: a program that is older than the proved one stands where the console for Arm does.
plant() {
    echo "echo '0 planted'" | put_program "$at/target/arm/console"
    touch -d 2001-01-01 "$at/target/arm/console"
}

# Made behind the proofs and run without the emulator; the next run makes nothing and says nothing.
see_made() {
    clone
    gives 0 on_arm proved "$at/panel" <examples/trim.txt
    made 1
    lines err 18
    answered_on_arm
    gives 0 on_arm proved "$at/panel" <examples/trim.txt
    lines err 0
    answered_on_arm
    seen "on an Arm machine the console is compiled for it, once, and runs without an emulator"
}

# One that is older than the proved program is made again, not run; so is one that is gone.
see_older() {
    plant
    gives 0 on_arm proved "$at/panel" <examples/trim.txt
    made 2
    lines err 1
    answered_on_arm
    rm "$at/target/arm/console"
    gives 0 on_arm proved "$at/panel" <examples/trim.txt
    made 3
    answered_on_arm
    seen "a console for Arm that is older than the proved one is made again"
}

# not_made WORDS: one sentence says that the console can't be compiled, with these words, and the emulator runs the proved one.
not_made() {
    plant
    gives 0 on_arm proved "$at/panel" <examples/trim.txt
    says out '0 emulated'
    lines out 1
    recorded 1 "^emulated: .*/ld-linux-x86-64.so.2 --library-path .* $at/crates/console/out/console\$"
    [ "$(grep -c "^panel: the console can't be compiled for this machine, so the emulator runs the one for x86-64, slowly: .*$1" "$work/err")" -eq 1 ] || failed "the sentence doesn't say: $1"
    lines err 2
    : >"$work/record"
}

# No object, one that isn't for Arm, C that doesn't compile: the emulator runs the proved program, and nothing that is old runs.
see_not_made() {
    local right=$object
    object=$work/none
    not_made 'rattle ended with status 1'
    "$work/arm/toolchain/bin/clang" --target=x86_64-unknown-linux-gnu -c -x c /dev/null -o "$work/other.o" || failed "no object for x86-64"
    object=$work/other.o
    not_made 'ld.lld ended with status 1'
    object=$right
    echo 'int' >>"$at/firmware/linux/start.c"
    not_made 'clang ended with status 1'
    seen "a console for Arm that can't be made is told of, and the emulator runs the proved one"
}

# firmware/native makes nothing of a console that isn't proved, and leaves what was made.
see_not_proved() {
    clone
    gives 1 on_arm refused "$at/firmware/native"
    has err "the console is not proved, so it isn't compiled for aarch64"
    [ ! -e "$at/target/arm" ] || failed "something is made of a console that isn't proved"
    recorded 0 '^compiled: '
    seen "nothing is made for Arm of a console that isn't proved"
}

# Elsewhere nothing is made for Arm, and the proved program is run as it is.
see_elsewhere() {
    [ "$(uname -m)" != aarch64 ] || return 0
    clone
    gives 0 panel proved <examples/trim.txt
    answered
    [ ! -e "$at/target/arm" ] || failed "a console for Arm is made on another machine"
    seen "elsewhere no console is made for Arm"
}

see_made
see_older
see_not_made
see_not_proved
see_elsewhere
