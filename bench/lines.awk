# Reads the bounds and the lines of harness.c, and tells what they say of a case. A case's time is the median over the links.
BEGIN { FS = ";" }

$1 == "struct" { struct = $2; next }
$1 == "cost" { names[++cases] = $2; for (i = 3; i <= 14; i++) cost[$2, i - 2] = $i; next }
$1 == "time" { links[$2]++; for (i = 3; i <= 7; i++) time[$2, i - 2, links[$2]] = $i; next }
$1 == "bound" { kind[++bounds] = $2; what[bounds] = $3; begins[bounds] = $4; most[bounds] = $5; other[bounds] = $6; calls[bounds] = $7; next }
!/^#/ { printf "%s:%d: not understood: %s\n", FILENAME, FNR, $0; bad = 1 }

# The median over the links of a case's n-th number.
function median(name, n,    i, j, it, list, count) {
    count = links[name]
    for (i = 1; i <= count; i++) {
        it = time[name, n, i]
        for (j = i - 1; j > 0 && list[j] > it; j--) list[j + 1] = list[j]
        list[j + 1] = it
    }
    return list[int((count + 1) / 2)]
}

# What the archive takes of a case: how many times plain C's time at -O2, how many times its instructions, how many instructions, bytes copied, and bytes of stack.
function measured(name, by) {
    if (by == "time") return median(name, 4)
    if (by == "instructions") return cost[name, 1] / cost[name, 5]
    if (by == "calls") return cost[name, 1]
    if (by == "copied") return cost[name, 3]
    return cost[name, 4]
}
