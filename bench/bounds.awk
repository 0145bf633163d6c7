# The bounds, a line each, from what lines.awk has read: what, measured, the most that it may be, whether it holds. Exit status 1 where one doesn't by instructions or by stack; a time fails nothing.

# The worst of the cases whose names begin so, or none.
function worst(begin, by,    i, name, it) {
    name = ""
    for (i = 1; i <= cases; i++) {
        it = names[i]
        if (index(it, begin) == 1 && (name == "" || measured(it, by) > measured(name, by))) name = it
    }
    return name
}

function holds(it, limit) { return it <= limit ? "holds" : "DOESN'T HOLD" }

# A bound on instructions: how many times plain C's, and beside it how many times its time, if times were measured.
function judge_instructions(bound, name,    it, slow) {
    it = measured(name, "instructions")
    printf "  %-18s %.2f times the instructions, at most %s: %s (%.0f to %.0f, %s)", what[bound], it, most[bound], holds(it, most[bound] + 0), cost[name, 1], cost[name, 5], name
    if (name in links) {
        slow = measured(worst(begins[bound], "time"), "time")
        printf "; %.2f times the time: %s", slow, holds(slow, most[bound] + 0)
    }
    print ""
    return it <= most[bound] + 0
}

# A bound on bytes of stack, or copied.
function judge_bytes(bound, name,    it, limit) {
    it = measured(name, kind[bound])
    limit = most[bound] * struct
    printf "  %-18s %d bytes, at most %d, %s structs: %s (%s)\n", what[bound], it, limit, most[bound], holds(it, limit), name
    return it <= limit
}

# A bound on instructions: how many times those that the archive takes for so many calls of another case.
function judge_calls(bound, name,    single, all, it) {
    single = worst(other[bound], "calls")
    all = calls[bound] * measured(single, "calls")
    it = measured(name, "calls") / all
    printf "  %-18s %.3f times the instructions of %d of its own '%s', at most %s: %s", what[bound], it, calls[bound], single, most[bound], holds(it, most[bound] + 0)
    printf " (%.0f to %.0f, %s)\n", measured(name, "calls"), all, name
    return it <= most[bound] + 0
}

# A bound on bytes of stack: how many more than the archive takes for other cases.
function judge_more_stack(bound, name,    single, it, limit) {
    single = worst(other[bound], "stack")
    it = measured(name, "stack")
    limit = measured(single, "stack") + most[bound]
    printf "  %-18s %d bytes, at most %d, %s more than its own '%s': %s (%s)\n", what[bound], it, limit, most[bound], single, holds(it, limit), name
    return it <= limit
}

# One bound; one without a case, or of another kind, doesn't hold.
function judge(bound,    name) {
    name = worst(begins[bound], kind[bound])
    if (name != "" && kind[bound] == "instructions") return judge_instructions(bound, name)
    if (name != "" && (kind[bound] == "stack" || kind[bound] == "copied")) return judge_bytes(bound, name)
    if (name != "" && kind[bound] == "calls" && worst(other[bound], "calls") != "" && calls[bound] > 0) return judge_calls(bound, name)
    if (name != "" && kind[bound] == "more stack" && worst(other[bound], "stack") != "") return judge_more_stack(bound, name)
    printf "  %-18s DOESN'T HOLD: no case '%s' or none to hold it to, or no such kind of bound: %s\n", what[bound], begins[bound], kind[bound]
    return 0
}

END {
    print "Bounds, the archive against plain C at -O2 or against its own single looks, by the worst case of each kind:"
    for (i = 1; i <= bounds; i++) if (!judge(i)) bad = 1
    if (!bounds) { print "  none are set"; bad = 1 }
    exit bad
}
