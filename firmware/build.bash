# What firmware/run uses: the modules, how they and C are compiled and linked for a board, and how a program runs there. Sourced in the repository's folder.
# Everything is made by the toolchain's own compiler and linker, in $made; every tool's status is looked at.
# shellcheck shell=bash disable=SC2034
. .ci/toolchain || exit 1

made=target/firmware
count_seen=0 count_failed=0

# seen WORDS..: a thing that is as it must be.
seen() {
    count_seen=$((count_seen + 1))
    printf '%s\n' "$*"
}

# wrong WORDS..: a thing that is not; what comes behind it is looked at all the same.
wrong() {
    count_failed=$((count_failed + 1))
    printf 'FAILED: %s\n' "$*"
}

# failed WORDS..: without which nothing can go on.
failed() {
    {
        [ ! -s "$made/log" ] || tail -n 30 "$made/log"
        printf 'FAILED: firmware: %s\n' "$*"
    } >&2
    exit 1
}

# must COMMAND..: a command that has to end well; what it says goes to the log.
must() {
    "$@" >"$made/log" 2>&1 || failed "$1 ended with status $?"
}

# must_write FILE COMMAND..: the same, and what it writes is the file.
must_write() {
    local file=$1
    shift
    "$@" >"$file" 2>"$made/log" || failed "$1 ended with status $?"
    [ -s "$file" ] || failed "$1 wrote nothing to $file"
}

# find_emulators: qemu for Arm, Debian's if it is missing. An aarch64 machine runs aarch64 programs itself.
find_emulators() {
    a64_runs=(qemu-aarch64)
    [ "$machine" != aarch64 ] || a64_runs=()
    if ! command -v qemu-system-arm >/dev/null || ! command -v "${a64_runs[0]:-true}" >/dev/null; then
        echo "qemu for Arm is missing: installing Debian's"
        { apt-get update && apt-get install -y --no-install-recommends qemu-system-arm qemu-user; } >"$made/log" 2>&1 ||
            failed "install qemu (Debian: apt-get install qemu-system-arm qemu-user)"
    fi
    command -v python3 >"$made/log" || failed "no python3"
}

# The C functions that a crate's module may declare, beside memcpy and the like.
foreign_to() {
    case $1 in
    console) echo "read write close open rattle_errno rattle_set_errno rattle_arg __sysv_signal __write __x86_get_cpuid_feature_leaf" ;;
    esac
}

# built_of CRATE: what rt builds of it.
built_of() {
    if [ -f "crates/$1/src/main.rt" ]; then
        echo "crates/$1/out/$1.o"
    else
        echo "crates/$1/out/lib$1.a"
    fi
}

# is_kept CRATE: is its module there, no source newer, and what rt built still the same?
is_kept() {
    local newer
    [ -s "$made/$1.x86.ll" ] && [ -s "$made/$1.sum" ] || return 1
    newer=$(find crates/*/src crates/*/specs crates/*/proofs crates.txt firmware/extract -newer "$made/$1.x86.ll") || failed "find ended with status $?"
    [ -z "$newer" ] && sha256sum --check --status "$made/$1.sum" 2>"$made/log"
}

# find_module CRATE: its module as the toolchain makes it, $made/CRATE.x86.ll, and made ready for other targets, $made/CRATE.ll. How it was had is in $had.
find_module() {
    had="kept, and no source is newer"
    if ! is_kept "$1"; then
        must firmware/extract "$1" "$made/$1.x86.ll"
        must_write "$made/$1.sum" sha256sum "$(built_of "$1")"
        had="taken from a build that is, byte for byte, what rt proved and built"
    fi
    must_write "$made/$1.padded.ll" sed -f firmware/padding.sed "$made/$1.x86.ll"
    must_write "$made/$1.ll" sed -f firmware/retarget.sed "$made/$1.padded.ll"
}

# refusals CRATE FILE: what of a module can't be carried to another target, to $made/refused.
refusals() {
    awk -v names="$(foreign_to "$1")" -f firmware/refused.awk "$2" >"$made/refused" 2>"$made/log" || failed "awk ended with status $?"
    [ ! -s "$made/log" ] || failed "awk has something to say"
}

# on BOARD: how its code is compiled: $triple, $cpu; and with how much RAM it is linked, $ram.
on() {
    board=$1
    case $board in
    m0) triple=thumbv6m-none-eabi cpu=(-mcpu=cortex-m0) ram=16384 ;;
    m3) triple=thumbv7m-none-eabi cpu=(-mcpu=cortex-m3) ram=4194304 ;;
    m0-on-m3) triple=thumbv6m-none-eabi cpu=(-mcpu=cortex-m0) ram=4194304 ;;
    a64) triple=aarch64-unknown-linux-gnu cpu=() ram='' ;;
    x86) triple=$target cpu=() ram='' ;;
    *) failed "no board $board" ;;
    esac
}

# compile_module FILE LEVEL OBJECT: by the toolchain's own flags, but for target, processor and position. -Os asks for small code in the functions' attributes, as clang does for C.
compile_module() {
    local from=$1 level=$2 object=$3
    if [ "$level" = -Os ]; then
        must_write "$made/small.ll" sed 's/^\(attributes #[0-9]* = { .*\)nounwind }$/\1nounwind optsize }/' "$from"
        ! cmp -s "$from" "$made/small.ll" || failed "$from has no attributes to ask for small code in"
        from=$made/small.ll
    fi
    must rm -f "$object"
    "$clang" --target="$triple" "${cpu[@]}" "$level" -ffunction-sections -fdata-sections -mllvm -trap-unreachable -mllvm -no-trap-after-noreturn \
        -mllvm -disable-machine-licm -mllvm -disable-postra-machine-licm -mllvm -sink-common-insts=false --no-default-config -fno-crash-diagnostics -Werror -Wno-override-module -c -x ir "$from" -o "$object" >"$made/log" 2>&1 || failed "clang, over $from, ended with status $?"
    [ -s "$object" ] || failed "clang, over $from, wrote nothing"
}

# compile_c FILE OBJECT WORDS..: C for the board. $headers comes before the repository's own.
headers=''
compile_c() {
    local file=$1 object=$2
    shift 2
    must rm -f "$object"
    "$clang" --target="$triple" "${cpu[@]}" -std=c99 -O2 -ffreestanding -ffunction-sections -fdata-sections --no-default-config -nostdinc -isystem tests/c/include \
        ${headers:+-I "$headers"} -I include -I examples -I bench -I firmware -I firmware/board -Wall -Wextra -Werror "$@" -c "$file" -o "$object" >"$made/log" 2>&1 || failed "$file doesn't compile for $board"
    [ -s "$object" ] || failed "clang, over $file, wrote nothing"
}

# board_objects: what each program of the board has: its first code, memcpy and the like, and lines of text. They go to $objects.
board_objects() {
    local first=cortex-m
    [ -n "$ram" ] || first=linux
    compile_c "firmware/board/$first.c" "$made/$board-first.o"
    compile_c firmware/board/mem.c "$made/$board-mem.o" -fno-builtin
    compile_c firmware/board/print.c "$made/$board-print.o"
    objects=("$made/$board-first.o" "$made/$board-mem.o" "$made/$board-print.o")
}

# c_objects FILE..: C files for the board, behind those in $objects.
c_objects() {
    local file name
    for file in "$@"; do
        name=${file##*/}
        compile_c "$file" "$made/$board-${name%.c}.o"
        objects+=("$made/$board-${name%.c}.o")
    done
}

# link PROGRAM FILE..: $objects and these.
link() {
    local program=$1 how=(--gc-sections -static)
    shift
    [ -z "$ram" ] || how+=(-T firmware/board/cortex-m.ld --defsym=RAM_SIZE="$ram")
    must rm -f "$program"
    "$linker" "${how[@]}" -o "$program" "${objects[@]}" "$@" >"$made/log" 2>&1 || failed "the linker, over $program, ended with status $?"
    [ -s "$program" ] || failed "the linker wrote no $program"
}

# run PROGRAM WORDS..: on the board; what it reads comes from standard input, what it writes goes to standard output, what qemu says to the log. $more has words for qemu, $limit the seconds that it may take.
more=() limit=120
run() {
    local program=$1 word given=arg=program on_machine=mps2-an385
    shift
    case $board in
    x86) timeout "$limit" ${emulator:+"$emulator"} "$program" "$@" 2>"$made/log" ;;
    a64) timeout "$limit" "${a64_runs[@]}" "$program" "$@" 2>"$made/log" ;;
    *)
        [ "$board" != m0 ] || on_machine=microbit
        for word in "$@"; do
            given=$given,arg=$word
        done
        timeout "$limit" qemu-system-arm -M "$on_machine" -display none -serial none -monitor none "${more[@]}" \
            -semihosting-config "enable=on,target=native,$given" -kernel "$program" 2>"$made/log"
        ;;
    esac
}

# must_run FILE PROGRAM WORDS..: a run that has to end well; what it writes is the file.
must_run() {
    local file=$1
    shift
    run "$@" >"$file" </dev/null || failed "$1 on $board ended with status $?"
    [ -s "$file" ] || failed "$1 on $board wrote nothing"
}

# bytes_of OBJECT SECTION: how many bytes its sections of that kind have, as the linker finds them.
bytes_of() {
    must "$linker" -r -o "$made/joined.o" -Map="$made/map" "$1"
    local sizes size sum=0
    sizes=$(awk -v kind=":($2" 'index($5, kind) { print $3 }' "$made/map") || failed "awk ended with status $?"
    for size in $sizes; do
        sum=$((sum + 0x$size))
    done
    echo "$sum"
}
