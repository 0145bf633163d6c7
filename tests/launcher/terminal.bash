# The console on a terminal of `script`'s. Sourced by run.
# shellcheck shell=bash disable=SC2154

# Ready once, a prompt before each command and one at the end; a comment has no answer. Nothing of that without a terminal.
see_terminal() {
    command -v script >/dev/null || failed "no script, a program of bsdutils: it makes the terminal"
    printf '%s\n' 'irq' '# nothing' '' 'show' 'undo 90' 'held 9 9' >"$work/typed"
    gives 0 script -qec ./panel /dev/null <"$work/typed"
    tr -d '\r' <"$work/out" >"$work/plain"
    [ "$(grep -c 'panel: ready' "$work/plain")" -eq 1 ] || failed "a terminal isn't told once that the console is ready"
    [ "$(grep -o '> ' "$work/plain" | wc -l)" -eq 7 ] || failed "other than seven prompts"
    ! grep -q '^> \.' "$work/plain" || failed "a prompt within an answer of many lines"
    grep -q '0 yes$' "$work/plain" && grep -q '7 no$' "$work/plain" || failed "an answer is missing on a terminal"
    gives 0 script -qec './panel | cat' /dev/null <"$work/typed"
    ! grep -q -e '> ' -e ready "$work/out" || failed "something is added to answers that go elsewhere"
    seen "a prompt on a terminal, and nothing of it elsewhere"
}

# A quit ends it at once, though more could be typed; on a terminal a question mark is no failure.
see_leaving() {
    mkfifo "$work/keys"
    { printf 'rest\nquit\n' && exec sleep 30; } >"$work/keys" &
    local typist=$!
    gives 0 timeout 20 script -qec ./panel /dev/null <"$work/keys"
    kill "$typist"
    tr -d '\r' <"$work/out" >"$work/plain"
    grep -q '? unknown command: rest' "$work/plain" || failed "an answer is missing before a quit"
    seen "a quit ends the session on a terminal"
}

see_terminal
see_leaving
