# Scripts shown with their answers. Sourced by panel.
# shellcheck shell=sh disable=SC2154

# see_scripts FILE..: ends with one sentence if one can't be read.
see_scripts() {
    for script in "$@"; do
        case $script in
        --record | --play) failed "a script that is shown takes no $script: ./panel $script FILE < SCRIPT" ;;
        esac
        [ -e "$script" ] || failed "there is no file $script"
        [ -f "$script" ] && [ -r "$script" ] || failed "$script can't be read as a script"
    done
}

# The trim key's press code, if undo groups are to be drawn.
trim=''

# see_trim WORD: the trim key's press code; ends with one sentence if it is no code.
see_trim() {
    case $1 in
    '' | *[!0123456789ABCDEFabcdef]*) failed "'$1' is not hexadecimal: behind the script stands the trim key's press code, such as 3C" ;;
    *[!0]??*) failed "$1 is too large: a trim key's press code is at most 7C" ;;
    esac
    trim=$1
}

# over FILE PART..: a tool that reads the answers that come in, over the script. The words that the tools share come before its parts.
over() {
    case $1 in
    /*) from=$1 ;;
    *) from=./$1 ;;
    esac
    shift
    parts=$#
    for part in words "$@"; do
        set -- "$@" -f "$root/tools/$part.awk"
    done
    shift "$parts"
    SCRIPT=$from HOST=$root/docs/HOST.md TRIM=$trim LC_ALL=C awk "$@"
}

# show_scripts FILE..: each from a new panel, with its name above if there are several; every line beside its answer. Status 1 if an answer is a question mark.
show_scripts() {
    status=0 above=''
    for script in "$@"; do
        [ $# -eq 1 ] || printf '%s== %s\n' "$above" "$script"
        above='
'
        run <"$script" | over "$script" beside || status=1
    done
    return "$status"
}

# lines_of TEXT: its lines; an empty one has none.
lines_of() { [ -z "$1" ] || printf '%s\n' "$1"; }

# draw_timeline FILE: the session drawn, looks across and keys down. Status 1 as above.
# It runs twice: first for the answers, by which blocks of looks are taken apart.
draw_timeline() {
    run <"$1" | over "$1" shows | run | over "$1" undo session timeline
}

# draw_groups FILE: the same with undo groups. A third run cuts the codes into them; its answers come first, and an empty line behind them.
draw_groups() {
    answers=$(run <"$1" | over "$1" shows | run)
    groups=$(lines_of "$answers" | over "$1" session questions | run)
    case $groups in
    23*) failed "$trim is no press code of a key: a trim key is 16 times the row and the column, in hexadecimal" ;;
    esac
    { lines_of "$groups" && echo && lines_of "$answers"; } | over "$1" undo session timeline
}
