# The table of questions over added edges, from the figures that added prints.
# awk -f bench/tables.awk -f bench/added.awk FIGURES
BEGIN { split("4096 200000", N, " "); split("0 1 16 256", COUNT, " "); split("random climbing", WAY, " "); split("dag loops layers line", GRAPH, " ") }

END {
    for (s = 1; s in N; s++) {
        n = N[s]
        printf "%s### Questions over added edges at %s: ours to a search over both lists in C++\n\n", (s > 1 ? "\n" : ""), (n == 4096 ? "4,096 vertices, form 1" : "200,000 vertices, form 2")
        heading("| graph | added edges | sweeps | check cut | with the check | ours, check cut | search | ours | check and search in C++ |", 9)
        for (a = 1; a in GRAPH; a++) for (p = 1; p in WAY; p++) for (j = 1; j in COUNT; j++) {
            kind = GRAPH[a]; way = WAY[p]; count = COUNT[j]
            if (!count && way != "random") continue
            ours = time("added", kind, n, count, way, "ours"); alone = time("added", kind, n, count, way, "alone")
            search = time("added", kind, n, count, way, "search"); check = time("added", kind, n, count, way, "check")
            print "| " title[kind] " | " count (count ? " " way : "") " | " sprintf("%.3g", time("sweeps", kind, n, count, way, "ours")) " | " ratio(alone, search) " | " ratio(ours, check) " | " told(alone) " | " told(search) " | " told(ours) " | " told(check) " |"
        }
    }
}
