# What bench/run and bench/where share: the archive, and how C is compiled, linked and run by the toolchain. Sourced in the repository's folder.
. .ci/toolchain || exit 1

failed() {
    [ ! -s "$work/log" ] || tail -n 30 "$work/log"
    printf 'FAILED: the benchmark: %s\n' "$*"
    exit 1
}

# The archive, the player's and the group reader's are built if they are missing or older than a source.
find_archive() {
    archive=crates/panel/out/libpanel.a player=crates/player/out/libplayer.a groups=crates/groups/out/libgroups.a
    build_archive panel "$archive"
    build_archive player "$player"
    build_archive groups "$groups"
}

# build_archive CRATE FILE
build_archive() {
    if [ -f "$2" ]; then
        newer=$(find crates/*/src crates/*/specs crates/*/proofs crates.txt -newer "$2") || failed "find ended with status $?"
        [ -n "$newer" ] || return 0
    fi
    echo "the archive is missing or older than the sources: rt lib in crates/$1"
    (cd "crates/$1" && rt lib) >"$work/log" 2>&1 || failed "rt lib in crates/$1"
}

# compile LEVEL FILE OBJECT WORDS..: the toolchain's compiler, with the small headers of the C test.
compile() {
    level=$1 file=$2 object=$3
    shift 3
    "$clang" --target="$target" -nostdinc -isystem tests/c/include -I include -std=c99 -Wall -Wextra -Werror -pedantic -fPIE "$level" "$@" -c "bench/$file" -o "$work/$object" >"$work/log" 2>&1 || failed "bench/$file doesn't compile"
}

# The plain C at both levels, and all that is measured with it.
compile_all() {
    compile -O2 plain.c plain_O2.o -DPLAIN=plain_O2
    compile -O3 plain.c plain_O3.o -DPLAIN=plain_O3
    for name in faces cases time step stack cost harness same lists groups wires where; do
        compile -O2 $name.c $name.o
    done
}

# join PROGRAM OBJECT..: the objects, the plain C and the archives as one program.
join() {
    program=$1
    shift
    objects=''
    for name in "$@" faces plain_O2 plain_O3; do
        objects="$objects $work/$name.o"
    done
    # shellcheck disable=SC2086
    "$joiner" --target "$target" --toolchain "$tools" -o "$work/$program" $objects "$archive" "$player" "$groups" >"$work/log" 2>&1 || failed "$program doesn't link"
    : >"$work/log"
}

# run PROGRAM WORDS..: under the toolchain's own loader and C library.
run() {
    ${emulator:+"$emulator"} "$loader" --library-path "$tools/lib" "$work/$1" "${@:2}"
}
