# The table of Matrix Market texts, from the figures that matrix prints.
# awk -f bench/tables.awk -f bench/matrix.awk FIGURES
function figure_of(n, who) { return time("matrix", "read", n, 1, "entries", who) }

END {
    print "### Reading 1,000,000 entries: ours to C++ readers by from_chars with the same checks\n"
    heading("| n | bytes an entry | to the lent lists alone | to memory of its own | ours | MB/s | lent lists alone | memory of its own |", 8)
    split("9 4096 200000", N, " ")
    for (i = 1; i in N; i++) {
        n = N[i]; ours = figure_of(n, "ours"); lent = figure_of(n, "lent"); kept = figure_of(n, "kept"); bytes = figure_of(n, "bytes")
        printf "| %d | %.1f | %s | %s | %.1f ns | %.0f | %.1f ns | %.1f ns |\n", n, bytes, ratio(ours, lent), ratio(ours, kept), ours, 1000 * bytes / ours, lent, kept
    }
}
