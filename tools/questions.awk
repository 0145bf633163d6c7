# The lists of codes of a session, as questions to the console: a `groups` line for each rule and each list. words.awk and session.awk come before it.

# how is a list cut into undo groups by a rule?
function question_out(rule, list,    i) {
    printf "groups %d %s", rule, trim
    for (i = 0; i < list_length[list]; i++) printf " %s", list_code[list, i]
    print ""
}

END { for (rule = 1; rule <= rules; rule++) for (list = 1; list <= lists; list++) question_out(rule, list) }
