# A machine that only seems to be an Arm one, for what asks `uname`, which says aarch64; the toolchain's folder for it has this machine's own programs.
# What its linker makes for aarch64 runs under qemu-aarch64, so the launcher needs no word for it. Sourced by run and by .ci/on-arm, which have a function `failed`.
# shellcheck shell=bash

# Debian's qemu-aarch64, installed where it is missing.
get_qemu() {
    command -v qemu-aarch64 >/dev/null && return
    echo "qemu-aarch64 is missing: installing Debian's" >&2
    { apt-get update && apt-get install -y --no-install-recommends qemu-user; } >&2 || failed "install qemu-aarch64 (Debian: apt-get install qemu-user)"
}

# links_to FOLDER FROM BUT..: links in the folder to all that stands in the other one, but for some names.
links_to() {
    local folder=$1 from=$2 part
    shift 2
    mkdir -p "$folder" || failed "$folder can't be made"
    for part in "$from"/*; do
        case " $* " in
        *" ${part##*/} "*) ;;
        *) ln -s "$part" "$folder/" || failed "no link to $part" ;;
        esac
    done
}

# put_program FILE: what comes in, below a line that names the shell, is a program there.
put_program() {
    { echo '#!/bin/sh' && cat; } >"$1" && chmod +x "$1" || failed "$1 can't be written"
}

# under_qemu ELF FILE: the file is a program that runs the other one, which is for aarch64.
under_qemu() { echo "exec qemu-aarch64 '$1' \"\$@\"" | put_program "$2"; }

# put_uname FOLDER: a `uname` there that says aarch64.
put_uname() {
    put_program "$1/uname" <<-PROGRAM
	[ "\$*" != -m ] || { echo aarch64; exit; }
	exec "$(command -v uname)" "\$@"
	PROGRAM
}

# put_linker FILE REAL: a linker there; in place of the program that it makes for aarch64 stands one that runs it under qemu.
put_linker() {
    put_program "$1" <<-PROGRAM
	"$2" "\$@" || exit
	while [ "\$1" != -o ]; do shift; done
	mv "\$2" "\$2.elf" && printf '#!/bin/sh\nexec qemu-aarch64 "%s" "\$@"\n' "\$2.elf" >"\$2" && chmod +x "\$2"
	PROGRAM
}

# seem_arm FOLDER: the folder is a toolchain's home for such a machine, with `uname` and qemu-x86_64 in its bin, which goes first on PATH.
# rt itself is the real one: what is proved in the tree is proved for this machine. On an Arm machine the home is as it was, in links.
# The emulator for x86-64 runs nothing, and says so.
seem_arm() {
    local real home
    real=$(readlink -f "$(command -v rt)") || failed "no rt: install the Rattle toolchain and put its bin folder on PATH"
    home=${RATTLE_HOME:-${real%/*/*}}
    links_to "$1" "$home" bin toolchain
    links_to "$1/bin" "$home/bin" rt rattle
    ln -s "$real" "$1/bin/rt" && ln -s "$home/bin/rattle" "$1/bin/rattle" || failed "no link to rt or rattle"
    links_to "$1/toolchain" "$home/toolchain" bin
    links_to "$1/toolchain/bin" "$home/toolchain/bin" ld.lld
    echo "echo 'the console for x86-64 was to be run, and the one for Arm is wanted' >&2; exit 1" | put_program "$1/bin/qemu-x86_64"
    if [ "$(uname -m)" = aarch64 ]; then
        ln -s "$home/toolchain/bin/ld.lld" "$1/toolchain/bin/" || failed "no link to ld.lld"
        return
    fi
    get_qemu
    put_uname "$1/bin"
    put_linker "$1/toolchain/bin/ld.lld" "$home/toolchain/bin/ld.lld"
}

# as_arm FOLDER COMMAND..: runs a command on the machine that seems to be one.
as_arm() {
    local folder=$1
    shift
    PATH="$folder/bin:$PATH" RATTLE_HOME="$folder" "$@"
}
