# The table of chains, from the figures that chain prints.
# awk -f bench/tables.awk -f bench/chain.awk FIGURES
BEGIN { split("4096 200000", N, " "); words[4096] = "4,096, form 1"; words[200000] = "200,000, form 2" }

function of(pairs, who) { return time("chain", kind, n, 2, pairs, who) }

END {
    print "### Chains of reachable pairs under two orders: ours to a search over GRAIL's groups in C++\n"
    heading("| graph | vertices | with the check | check cut, to a plain search | to a pruned search | ours | check and plain search | ours, check cut | plain search | pruned search | groups named |", 11)
    for (s = 1; s in N; s++) for (a = 1; a in KIND; a++) {
        kind = KIND[a]; n = N[s]
        print "| " title[kind] " | " words[n] " | " ratio(of("checked", "ours"), of("checked", "check")) " | " ratio(of("alone", "ours"), of("alone", "search")) " | " ratio(of("alone", "ours"), of("alone", "pruned")) \
            " | " told(of("checked", "ours")) " | " told(of("checked", "check")) " | " told(of("alone", "ours")) " | " told(of("alone", "search")) " | " told(of("alone", "pruned")) \
            " | " sprintf("%.1f", time("count", kind, n, 2, "steps", "ours")) " |"
    }
}
