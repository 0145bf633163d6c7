# The tables, from what lines.awk has read.
END {
    printf "Struct: %d bytes\n", struct
    print "\nProcessor time of a call, in ns, and how many times that of plain C:\n"
    print "| Case                       | proved |  C -O2 |  C -O3 | to -O2 | to -O3 |"
    print "|----------------------------|-------:|-------:|-------:|-------:|-------:|"
    for (i = 1; i <= cases; i++) {
        n = names[i]
        printf "| %-26s | %6.0f | %6.0f | %6.0f | %6.2f | %6.2f |\n", n, median(n, 1), median(n, 2), median(n, 3), median(n, 4), median(n, 5)
    }

    print "\nWhat a call takes, exactly (the same in every run): instructions, calls of memcpy and bytes that they copy, bytes of stack:\n"
    print "| Case                       | proved |  C -O2 |  C -O3 | to -O2 | to -O3 | memcpy | bytes | of C | stack | C -O2 | C -O3 |"
    print "|----------------------------|-------:|-------:|-------:|-------:|-------:|-------:|------:|-----:|------:|------:|------:|"
    for (i = 1; i <= cases; i++) {
        n = names[i]
        printf "| %-26s | %6.0f | %6.0f | %6.0f | %6.2f | %6.2f |", n, cost[n, 1], cost[n, 5], cost[n, 9], cost[n, 1] / cost[n, 5], cost[n, 1] / cost[n, 9]
        printf " %6.0f | %5.0f | %4.0f | %5d | %5d | %5d |\n", cost[n, 2], cost[n, 3], cost[n, 6], cost[n, 4], cost[n, 8], cost[n, 12]
    }
    print ""
    day("packed all at once", "pack: 64 looks", 64)
    day("packed one by one", "pack next: a look", 1)
    day("unpacked", "unpack: a look", 1)
    day("played", "play: 64 looks", 64)
    print ""
    block("block: 1 look", 1)
    block("block: 8 looks", 8)
    block("block: 64 looks", 64)
    print ""
}

# A look in a block of so many, beside one alone.
function block(name, looks,    single) {
    single = "look: typing"
    printf "A look in a block of %d: %.0f instructions, alone %.0f (plain C at -O2 %.0f and %.0f)", looks, cost[name, 1] / looks, cost[single, 1], cost[name, 5] / looks, cost[single, 5]
    if (name in links) printf "; %.0f ns, alone %.0f (%.0f and %.0f)", median(name, 1) / looks, median(single, 1), median(name, 2) / looks, median(single, 2)
    print ""
}

# A day of looks, one every 4 ms, worked out from a case that has so many of them.
function day(how, name, looks,    a_look, c_look) {
    a_look = cost[name, 1] / looks
    c_look = cost[name, 5] / looks
    printf "A day of looks, 21.6 million, %s: %.0f instructions a look, %.1f thousand million in all (plain C at -O2 %.0f and %.1f)", how, a_look, a_look * 0.0216, c_look, c_look * 0.0216
    if (name in links) printf "; %.1f s (%.1f s)", median(name, 1) / looks * 0.0216, median(name, 2) / looks * 0.0216
    print ""
}
