# The table of exception lists, from the figures that exceptions prints.
# awk -f bench/tables.awk -f bench/exceptions.awk FIGURES
BEGIN { split("512 4096", N, " ") }

function pair(kind, n, d, who) { return time("pairs", kind, n, d, "mixed", who) }

# from how many pairs on the call by the lists takes less than the one by the walk: what its check takes more, by what a pair takes less
function from(kind, n, d,    gain) {
    gain = pair(kind, n, d, "walk") - pair(kind, n, d, "lists")
    if (gain <= 0) return "never"
    return thousands((time("lists", kind, n, d, "-", "open") - time("lists", kind, n, d, "-", "index")) / gain)
}

END {
    print "### Exception lists: built, opened, and asked beside the walk, mixed pairs\n"
    heading("| graph | n | d | entries | lists | building | to the peer | opening | opening the index alone | a pair by the lists | by the walk | the lists pay from so many pairs on |", 12)
    for (a = 1; a in KIND; a++) for (i = 1; i in N; i++) for (j = 1; j in D; j++) {
        kind = KIND[a]; n = N[i]; d = D[j]
        print "| " title[kind] " | " thousands(n) " | " d " | " thousands(time("entries", kind, n, d, "-", "ours")) \
            " | " thousands(time("entries", kind, n, d, "-", "bytes") / 1000) " KB" \
            " | " told(time("lists", kind, n, d, "-", "ours")) " | " ratio(time("lists", kind, n, d, "-", "ours"), time("lists", kind, n, d, "-", "peer")) \
            " | " told(time("lists", kind, n, d, "-", "open")) " | " told(time("lists", kind, n, d, "-", "index")) \
            " | " told(pair(kind, n, d, "lists")) " | " told(pair(kind, n, d, "walk")) " | " from(kind, n, d) " |"
    }
}
