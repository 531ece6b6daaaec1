# The tables of stored form 2 at the bigger region, from the figures that region prints.
# awk -f bench/tables.awk -f bench/region.awk FIGURES; with -v only=build those of builds and openings, otherwise all others
BEGIN { split("reachable unreachable mixed", PAIRS, " ") }

function megabytes(bytes) { return sprintf("%.3g MB", bytes / 1000000) }

function memory(kind, d, call, who) { return megabytes(time("memory", kind, most, d, call, who)) }

# the geometric mean of a peer's ratios at the largest size and at all, and the highest
function note(r, n, row) {
    all += log(r); count++
    if (n == most) { last += log(r); rows++; if (r > high) { high = r; where = row } }
}

function noted() {
    printf "\nGeometric mean of the %d ratios at 200,000 vertices %.2f, the highest %.2f (%s); of all %d ratios %.2f.\n\n", rows, exp(last / rows), high, where, count, exp(all / count)
    all = count = last = rows = high = 0
}

function note_all(measure, kind, d, pairs, peer,    i) {
    for (i = 1; i <= sizes; i++)
        note(time(measure, kind, N[i], d, pairs, "ours") / time(measure, kind, N[i], d, pairs, peer), N[i], title[kind] (pairs ~ /reach|mixed/ && measure == "monday" ? ", " pairs : "") ", d = " d)
}

# what a pair takes in a call beyond what the call takes without pairs
function net(kind, n, d, pairs) {
    return time("monday", kind, n, d, pairs, "ours") - time("monday", kind, n, d, pairs, "no pairs") / time("count", kind, n, d, pairs, "ours")
}

# `more` are others' names, whose ratios are told at the largest size, and `headings` their columns
function one_peer(name, measure, pairs, peer, words, more, headings,    a, j, i, kind, d, others, line) {
    print "### " name "\n"
    others = split(more, OTHER, " ")
    heading("| graph | d |" columns " slope, ours | slope, " words " | ours, 200,000 | " words ", 200,000 |" headings, 6 + sizes + others)
    for (a = 1; a in KIND; a++) for (j = 1; j in D; j++) {
        kind = KIND[a]; d = D[j]
        note_all(measure, kind, d, pairs, peer)
        line = "| " title[kind] " | " d ratios(measure, kind, d, pairs, peer) " | " slope(measure, kind, d, pairs, "ours") " | " slope(measure, kind, d, pairs, peer) \
            " | " told(time(measure, kind, most, d, pairs, "ours")) " | " told(time(measure, kind, most, d, pairs, peer)) " |"
        for (i = 1; i <= others; i++) line = line " " ratio(time(measure, kind, most, d, pairs, "ours"), time(measure, kind, most, d, pairs, OTHER[i])) " |"
        print line
    }
    noted()
}

function mondays(    a, p, j, i, kind, d, pairs) {
    print "### All pairs of two lists, form 2: ours to GRAIL, which writes the same six numbers a pair; the check cut\n"
    heading("| graph, pairs | d |" columns " without the call's own cost | ours, 200,000 | GRAIL | search | groups opened | pairs | a call without pairs | and its check |", 12)
    for (a = 1; a in KIND; a++) for (p = 1; p in PAIRS; p++) for (j = 1; j in D; j++) {
        kind = KIND[a]; d = D[j]; pairs = PAIRS[p]
        note_all("monday", kind, d, pairs, "grail")
        for (i = 1; i <= sizes; i++) { netsum += log(net(kind, N[i], d, pairs) / time("monday", kind, N[i], d, pairs, "grail")); nets++ }
        netlast += log(net(kind, most, d, pairs) / time("monday", kind, most, d, pairs, "grail")); netrows++
        print "| " title[kind] ", " pairs " | " d ratios("monday", kind, d, pairs, "grail") " | " ratio(net(kind, most, d, pairs), time("monday", kind, most, d, pairs, "grail")) \
            " | " told(time("monday", kind, most, d, pairs, "ours")) " | " told(time("monday", kind, most, d, pairs, "grail")) " | " told(time("monday", kind, most, d, pairs, "search")) \
            " | " sprintf("%.1f", time("opened", kind, most, d, pairs, "ours")) " | " sprintf("%d", time("count", kind, most, d, pairs, "ours")) \
            " | " told(time("monday", kind, most, d, pairs, "no pairs")) " | " told(time("monday", kind, most, d, pairs, "call")) " |"
    }
    noted()
    printf "Without what a call costs on no pairs (its words set to 0, its places laid out): %.2f at 200,000 vertices, %.2f over all.\n", exp(netlast / netrows), exp(netsum / nets)
}

function memories(    a, j, kind, d) {
    print "### Memory at 200,000 vertices, beside what a call is given\n"
    heading("| graph | d | build, ours: work and output | GRAIL, at most | opening, ours: index, marks and words | check in C++: index and marks | GRAIL loaded |", 7)
    for (a = 1; a in KIND; a++) for (j = 1; j in D; j++) {
        kind = KIND[a]; d = D[j]
        print "| " title[kind] " | " d " | " memory(kind, d, "build", "ours") " | " memory(kind, d, "build", "grail") " | " memory(kind, d, "open", "ours") " | " memory(kind, d, "open", "check") \
            " | " memory(kind, d, "open", "grail") " |"
    }
}

END {
    measured("4096 16000 60000 200000")
    if (only == "build") {
        one_peer("Build, form 2: ours to GRAIL", "build", "-", "grail", "GRAIL")
        one_peer("Open, form 2: ours to the same check in C++", "open", "-", "check", "check", "cleared load pass", " to check and clearing the words | to loading | to one pass |")
        exit
    }
    one_peer("Single question with its check, form 2, mixed pairs: ours to the same check in C++ and GRAIL's question", "ask", "mixed", "check", "C++")
    measured("4096 200000")
    one_peer("List with its check, form 2: ours to the same check in C++ and a list over GRAIL's groups", "list", "checked", "check", "C++")
    one_peer("List alone, form 2, the check cut: ours to a list over GRAIL's groups", "list", "alone", "grail", "C++")
    mondays()
    print ""
    memories()
}
