# The tables of questions of form 1, from the figures that bench prints.
# awk -f bench/tables.awk -f bench/questions.awk FIGURES; with -v only=build those of builds and openings, with -v only=monday that of all pairs alone
BEGIN { split("reachable unreachable mixed", PAIRS, " ") }

function builds(    a, j, kind, d) {
    print "### Build, form 1: ours to GRAIL\n"
    heading("| graph | d |" columns " slope, ours | slope, GRAIL | ours, 4,096 | GRAIL, 4,096 | closure, 4,096 |", 11)
    for (a = 1; a in KIND; a++) for (j = 1; j in D; j++) {
        kind = KIND[a]; d = D[j]
        print "| " title[kind] " | " d ratios("build", kind, d, "-", "grail") " | " slope("build", kind, d, "-", "ours") " | " slope("build", kind, d, "-", "grail") \
            " | " told(time("build", kind, most, d, "-", "ours")) " | " told(time("build", kind, most, d, "-", "grail")) " | " told(time("build", kind, most, d, "-", "closure")) " |"
    }
}

function opens(    a, j, kind, d) {
    print "\n### Open, form 1: ours to the same check in C++\n"
    heading("| graph | d |" columns " slope, ours | ours, 4,096 | to loading | to one pass |", 10)
    for (a = 1; a in KIND; a++) for (j = 1; j in D; j++) {
        kind = KIND[a]; d = D[j]
        print "| " title[kind] " | " d ratios("open", kind, d, "-", "check") " | " slope("open", kind, d, "-", "ours") " | " told(time("open", kind, most, d, "-", "ours")) \
            " | " ratio(time("open", kind, most, d, "-", "ours"), time("open", kind, most, d, "-", "load")) \
            " | " ratio(time("open", kind, most, d, "-", "ours"), time("open", kind, most, d, "-", "pass")) " |"
    }
}

function singles(    a, j, kind, d) {
    print "### Single question with its check, form 1, mixed pairs: ours to the same check in C++ and GRAIL's question\n"
    heading("| graph | d |" columns " slope, ours | ours, 4,096 | reachable | unreachable | to search, mixed |", 11)
    for (a = 1; a in KIND; a++) for (j = 1; j in D; j++) {
        kind = KIND[a]; d = D[j]
        print "| " title[kind] " | " d ratios("ask", kind, d, "mixed", "check") " | " slope("ask", kind, d, "mixed", "ours") " | " told(time("ask", kind, most, d, "mixed", "ours")) \
            " | " told(time("ask", kind, most, d, "reachable", "ours")) " | " told(time("ask", kind, most, d, "unreachable", "ours")) \
            " | " ratio(time("ask", kind, most, d, "mixed", "ours"), time("question", kind, most, d, "mixed", "search")) " |"
    }
}

function alone(    a, j, p, kind, d, pairs) {
    print "\n### Question alone, form 1: ours to GRAIL\n"
    heading("| graph, pairs | d |" columns " ours, 4,096 | GRAIL | search | closure | groups opened |", 9)
    for (a = 1; a in KIND; a++) for (p = 1; p in PAIRS; p++) for (j = 1; j in D; j++) {
        kind = KIND[a]; d = D[j]; pairs = PAIRS[p]
        print "| " title[kind] ", " pairs " | " d ratios("question", kind, d, pairs, "grail") " | " told(time("question", kind, most, d, pairs, "ours")) \
            " | " told(time("question", kind, most, d, pairs, "grail")) " | " told(time("question", kind, most, d, pairs, "search")) \
            " | " told(time("question", kind, most, d, pairs, "closure")) " | " sprintf("%.1f", time("opened", kind, most, d, pairs, "ours")) " |"
    }
}

# pairs from which on the whole call is faster than search: what a call costs without pairs, over what it saves a pair
function pays(kind, d, pairs,    saved) {
    saved = time("monday", kind, most, d, pairs, "search") - time("monday", kind, most, d, pairs, "ours")
    return saved > 0 ? sprintf("%d", time("monday", kind, most, d, pairs, "call") / saved + 1) : "never"
}

function mondays(    a, j, p, i, kind, d, pairs, r, sum, rows, high) {
    print "### All pairs of two lists, form 1: ours to GRAIL, which writes the same six numbers a pair; the check cut\n"
    heading("| graph, pairs | d |" columns " ours, 4,096 | GRAIL | search | closure | a call without pairs | faster than search from |", 10)
    for (a = 1; a in KIND; a++) for (p = 1; p in PAIRS; p++) for (j = 1; j in D; j++) {
        kind = KIND[a]; d = D[j]; pairs = PAIRS[p]
        for (i = 1; i <= sizes; i++) {
            r = time("monday", kind, N[i], d, pairs, "ours") / time("monday", kind, N[i], d, pairs, "grail")
            sum += log(r); rows++
            if (r > high) { high = r; where = title[kind] ", " pairs ", d = " d ", n = " N[i] }
        }
        print "| " title[kind] ", " pairs " | " d ratios("monday", kind, d, pairs, "grail") " | " told(time("monday", kind, most, d, pairs, "ours")) \
            " | " told(time("monday", kind, most, d, pairs, "grail")) " | " told(time("monday", kind, most, d, pairs, "search")) \
            " | " told(time("monday", kind, most, d, pairs, "closure")) " | " told(time("monday", kind, most, d, pairs, "call")) " | " pays(kind, d, pairs) " pairs |"
    }
    printf "\nGeometric mean of the %d ratios %.2f, the highest %.2f (%s).\n", rows, exp(sum / rows), high, where
}

END {
    measured("500 1000 2000 4096")
    if (only == "build") { builds(); opens(); exit }
    if (only != "monday") singles()
    measured("500 4096")
    if (only != "monday") { alone(); print "" }
    mondays()
}
