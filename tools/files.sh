# The files of a session, one to record to and one to play. Sourced by panel.
# shellcheck shell=sh disable=SC2154

record='' play=''

# see_files --record FILE, --play FILE, or both: their names go to $record and $play; ends with one sentence if that isn't what the words are.
see_files() {
    while [ $# -gt 0 ]; do
        [ $# -ge 2 ] && [ -n "$2" ] || failed "$1 takes a file"
        case $1 in
        --record)
            [ -z "$record" ] || failed "--record is given twice"
            record=$2
            ;;
        --play)
            [ -z "$play" ] || failed "--play is given twice"
            play=$2
            ;;
        *) failed "--record and --play take no other words: ./panel --record FILE < SCRIPT" ;;
        esac
        shift 2
    done
}

# On a terminal the files are tried first, the one to play alone: what is wrong with them ends all before the first prompt.
try_files() {
    said=''
    [ -z "$play" ] || said=$(run play "$play" </dev/null)
    if [ -z "$said" ] && [ -n "$record" ] && ! (: >>"$record") 2>/dev/null; then
        said="? the file to record to can't be written"
    fi
    [ -n "$said" ] || return 0
    printf '%s\n' "$said"
    exit 1
}
