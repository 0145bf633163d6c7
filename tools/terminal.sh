# The console on a terminal: a prompt before each command. Sourced by panel.
# shellcheck shell=sh

prompt='> '

# asks LINE: does it ask for an answer? A blank line and a comment don't.
asks() {
    words=${1%"$(printf '\r')"}
    words=${words#"${words%%[! "$(printf '\t')"]*}"}
    case $words in
    '' | '#'*) return 1 ;;
    *) return 0 ;;
    esac
}

# quits LINE: does it end the input?
quits() {
    # the words of the line are wanted apart
    # shellcheck disable=SC2086
    set -f -- ${1%"$(printf '\r')"}
    [ $# -eq 1 ] && [ "$1" = quit ]
}

# Hands on what is typed, up to a `quit`. A line that asks for nothing has no answer, so the next prompt comes at once, on descriptor 3.
typed() {
    while IFS= read -r line || [ -n "$line" ]; do
        printf '%s\n' "$line"
        ! quits "$line" || return 0
        asks "$line" || printf '%s' "$prompt" >&3
    done
}

# Copies answers, with a prompt after each: one that begins with a number or a question mark is a line, another ends with a line of one full stop.
# So does one that begins with 23 or 24 and words behind it, which is a list that can't be drawn as undo groups.
answers() {
    within=''
    printf '%s' "$prompt"
    while IFS= read -r line; do
        printf '%s\n' "$line"
        case $within$line in
        2[34]' '*) within=within ;;
        [0-9?]* | . | within.) within='' ;;
        *) within=within ;;
        esac
        [ -n "$within" ] || printf '%s' "$prompt"
    done
    echo
}

# talk WORDS..: the console, with a prompt before each command.
talk() {
    { typed | run "$@" | answers; } 3>&1
}
