# Gets the console ready: rt says whether it is proved as its sources stand, and proves and builds what is missing. Sourced by panel.
# shellcheck shell=sh disable=SC2154

out=$root/crates/console/out newline='
'

# full WORDS: do a tool's words say that a disk is full?
full() {
    case $1 in
    *'No space left on device'* | *'Disk quota exceeded'* | *'I/O error'* | *'os error 28'*) return 0 ;;
    *) return 1 ;;
    esac
}

# shut WORDS: do a tool's words say that something can't be written?
shut() {
    case $1 in
    *'Permission denied'* | *'Read-only file system'* | *'annot create '* | *'Not a directory'* | *'File exists'*) return 0 ;;
    *) return 1 ;;
    esac
}

no_disk() { failed "the disk is full: proving and building the console takes 1,200 MB in $root/crates/*/out and 1 MB in ${TMPDIR:-/tmp}"; }
no_out() { failed "$root/crates/*/out can't be written to, and the console is proved and built there: clone to a place that can be"; }
no_temporary() { failed "no temporary folder can be made in ${TMPDIR:-/tmp}: set TMPDIR to a folder that can be written to"; }

# blame WORDS: ends with one sentence if rt's words tell of a disk or a folder that can't be written.
blame() {
    ! full "$1" || no_disk
    ! shut "$1" || no_out
}

# write_some FILE: writes a little to a new file and removes it, and says what went wrong.
write_some() {
    LC_ALL=C dd if=/dev/zero of="$1" bs=1024 count=64 2>&1
    set -- "$1" $?
    rm -f "$1"
    return "$2"
}

# Ends with one sentence if rt has no place to work in.
see_room() {
    if ! said=$(LC_ALL=C mkdir -p "$out" 2>&1 && write_some "$out/room"); then
        ! full "$said" || no_disk
        no_out
    fi
    room=$(mktemp -d 2>/dev/null) || no_temporary
    said=$(write_some "$room/room")
    set -- $?
    rmdir "$room" 2>/dev/null
    [ "$1" -ne 0 ] || return 0
    ! full "$said" || no_disk
    no_temporary
}

# Waits until no other run proves and builds in this clone. The lock is the kernel's, over a file that is there anyway.
# It goes with the last process that holds it, so a killed run leaves none behind.
lock() {
    command -v flock >/dev/null || failed "no flock, a program of util-linux: without it two runs could prove in one folder"
    exec 9<"$root/crates.txt"
    flock -w 1 9 && return
    say "another ./panel proves and builds here: waiting for it"
    flock 9 || failed "the lock on $root/crates.txt can't be had"
}

# The crates that rt has proved and built, `proved NAME`, and the files that changed since all was ready, `changed ./NAME/..`.
proved_before() {
    for stamp in "$root"/crates/*/out/rlib/stamp; do
        crate=${stamp%/out/rlib/stamp}
        echo "proved ${crate##*/}"
    done
    [ ! -e "$program.stamp" ] || [ ! -x "$program" ] || echo "proved console"
    (cd "$root/crates" && find ./*/src ./*/specs ./*/proofs ./*/std* -newer "$out/ready" -exec printf 'changed %s\n' {} + 2>/dev/null)
}

# Says how many crates have to be proved, as far as that is known before rt has looked.
forecast() {
    set -- "$(proved_before | awk -f "$root/tools/forecast.awk" "$root/crates.txt" -)"
    needed=${1% *} total=${1#* }
    [ "$needed" -gt 0 ] || return
    if [ "$needed" -eq "$total" ]; then
        say "the console's $total crates have to be proved and built, this once: some minutes"
    else
        say "up to $needed of the console's $total crates have to be proved"
    fi
}

# Tells of the crate that rt has proved now.
tell_proved() {
    proved=$((proved + 1))
    [ "$proved" -le "$needed" ] || needed=$proved
    say "$crate proved in $(($(date +%s) - since)) s ($proved of $needed)"
}

# Reads what rt says, tells of each crate that it proves, and keeps in $section what it says of one that it doesn't, in $trouble what couldn't be written.
# rt begins a crate with the jobs that it chose for it, and ends one that is proved with the line of its verdict.
hear() {
    section='' trouble='' proved=0 status=2 same=1 crate='' since=$began
    while IFS= read -r line; do
        case $line in
        'rt: chose --jobs '*' for '*) crate=${line##* } since=$(date +%s) ;;
        'logic=proved '*)
            tell_proved
            section=''
            ;;
        'rt: nothing has changed '* | 'rt: running out/console;'*) section='' ;;
        'rt: '*': begins with what a check kept '* | 'rt: '*'waiting for '* | 'so far: '*) ;;
        'fn '*': proved' | 'struct '*': proved' | 'enum '*': proved' | 'impl '*': proved' | 'const '*': proved' | 'static '*': proved') ;;
        'logic '* | 'logic='* | 'only='* | 'statements '* | 'library '* | 'crate '*': modules '* | 'axioms '* | 'linked '* | 'rattle build: nothing was built'*) ;;
        'status '*) status=${line#status } ;;
        'output as it must be') same=0 ;;
        *)
            section=$section$line$newline
            ! full "$line" && ! shut "$line" || trouble=$trouble$line$newline
            ;;
        esac
    done
}

# The heads of rt's messages: the first lines that aren't set in, each cut.
heads() {
    awk '!/^ / && ++n <= 10 { print (length($0) > 300 ? substr($0, 1, 300) " .." : $0) }'
}

# Ends with why the console can't be run, in rt's own words; no program is left behind.
not_ready() {
    rm -f "$program"
    blame "$trouble"
    see_room
    printf '%s' "$section" | heads >&2
    [ "$status" -ne 0 ] || failed "the console is proved, but on crates/console/stdin it doesn't write what crates/console/stdout has, so it isn't run"
    failed "the console is not proved, so it isn't run: rt run in crates/console says more"
}

# Hears rt to its end: 0 if all is proved, and the program is there and writes what it must.
judge() {
    hear
    if [ "$status" -ne 0 ] || [ "$same" -ne 0 ] || [ -n "$trouble" ] || [ ! -x "$program" ]; then
        not_ready
    fi
    touch "$out/ready"
    [ "$proved" -eq 0 ] || say "proved and built in $(($(date +%s) - began)) s; crates/*/out take $(du -skc "$root"/crates/*/out | awk 'END { print int($1 / 1024) }') MB"
}

# ask_rt: rt proves and builds what is missing, and runs the console on its own input. What rt says comes out, behind it its status, and whether the output is the one that is stored.
ask_rt() {
    cd "$root/crates/console" || return
    {
        { LC_ALL=C rt run <stdin 2>&3 && echo 'status 0' >&3 || echo "status $?" >&3; } | cmp -s - stdout && echo 'output as it must be' >&3
    } 3>&1
}

# Asks rt whether the console is proved as its sources stand; what is missing is proved and built. A program that is gone is built again.
# The lock is kept until the program for an Arm machine is made as well.
get_ready() {
    began=$(date +%s)
    lock
    see_room
    forecast
    ask_rt | judge || exit 1
    get_native
    exec 9<&-
}
