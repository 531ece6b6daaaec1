# The table of the rule desk's call, from the figures that rules prints.
# awk -f bench/tables.awk -f bench/rules.awk FIGURES
BEGIN { split("4096 200000", N, " "); split("1 100 all", CHANGED, " "); split("1000 1000000", RECORDS, " "); size[4096] = "4,096"; size[200000] = "200,000" }

# a peer's ratio at both tables, and its sum of logarithms
function both(us, peer,    r, which, line) {
    for (r = 1; r in RECORDS; r++) {
        which = changed " of " RECORDS[r]
        line = line " | " ratio(time("rules", kind, n, 2, which, us), time("rules", kind, n, 2, which, peer))
        sum[us, peer] += log(time("rules", kind, n, 2, which, us) / time("rules", kind, n, 2, which, peer))
    }
    return line
}

function times(who,    r, line) {
    for (r = 1; r in RECORDS; r++) line = line " | " told(time("rules", kind, n, 2, changed " of " RECORDS[r], who))
    return line
}

function mean(us, peer) { return sprintf("%.2f", exp(sum[us, peer] / rows)) }

END {
    print "### A table of rules under two orders, 1,000 records and 1,000,000: ours to a search in C++, to the same check and search in C++, and, over parallel lists with the check cut, to the search\n"
    heading("| graph, vertices | changed | to search: 1,000 | 1,000,000 | to check and search: 1,000 | 1,000,000 | check cut, to search: 1,000 | 1,000,000 | ours: 1,000 | 1,000,000 | search: 1,000 | 1,000,000 |", 12)
    for (a = 1; a in KIND; a++) for (s = 1; s in N; s++) for (c = 1; c in CHANGED; c++) {
        kind = KIND[a]; n = N[s]; changed = CHANGED[c]
        print "| " title[kind] ", " size[n] " | " changed both("ours", "search") both("ours", "check") both("alone", "lists") times("ours") times("search") " |"
        rows += 2
    }
    print "\nGeometric mean of the " rows " ratios: to search " mean("ours", "search") ", to check and search " mean("ours", "check") ", over lists with the check cut to search " mean("alone", "lists") "."
}
