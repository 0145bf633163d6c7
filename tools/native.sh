# The console compiled for an Arm machine, by the toolchain that proved it: no emulator has to run it. Sourced by panel and by firmware/native.
# shellcheck shell=sh disable=SC2154

native=$root/target/arm/console

# old FILE FROM..: is the file missing, or older than something that it is made from? What can't be looked at counts as newer.
old() {
    made=$1
    shift
    [ ! -e "$made" ] || [ -n "$(find "$@" -newer "$made" 2>&1)" ]
}

# Is the program for Arm missing, or older than the proved one or than what it is made with?
old_native() { old "$native" "$program" "$root/firmware/linux" "$root/firmware/native"; }

# On an Arm machine the program for it is made, if it is missing or old. If it can't be, one sentence says so.
# $native is empty then, and on other machines: the proved program is run as it is.
get_native() {
    [ "$machine" = aarch64 ] || native=''
    [ -n "$native" ] && old_native || return 0
    say "the console is compiled for this machine, this once: a few minutes"
    said=$("$root/firmware/native" </dev/null 2>&1) && return
    say "the console can't be compiled for this machine, so the emulator runs the one for x86-64, slowly: ${said##*"$newline"}"
    native=''
}
