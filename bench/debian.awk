# The tables of Debian's packages, from the figures that region prints of the graph in a file.
# awk -f bench/tables.awk -f bench/debian.awk FIGURES
$1 == "shape" { n = $3; shape[$5] = $7 }

function of(measure, j, pairs, who) { return time(measure, "file", n, D[j], pairs, who) }

# ours to a peer's at each d, then the times of both
function row(call, words, measure, pairs, peer,    j, line) {
    line = "| " call " | " words " |"
    for (j = 1; j in D; j++) line = line " " ratio(of(measure, j, pairs, "ours"), of(measure, j, pairs, peer)) " |"
    for (j = 1; j in D; j++) line = line " " told(of(measure, j, pairs, "ours")) " |"
    for (j = 1; j in D; j++) line = line " " told(of(measure, j, pairs, peer)) " |"
    print line
}

# a number at each d
function numbers(words, format, measure, pairs, who, part,    j, line) {
    line = "| " words " |"
    for (j = 1; j in D; j++) line = line " " sprintf(format, of(measure, j, pairs, who) / part) " |"
    print line
}

END {
    split("reachable unreachable mixed", PAIRS, " ")
    printf "%s packages, %s edges, %s groups, the largest of %d packages, %s child entries, %d levels.\n\n", thousands(n), thousands(shape["edges"]), thousands(shape["groups"]), \
        shape["largest"], thousands(shape["children"]), shape["levels"]
    print "### Debian's packages, form 2: ours to C++\n"
    heading("| call | beside | d = 1 | 2 | 5 | ours, d = 1 | 2 | 5 | C++, d = 1 | 2 | 5 |", 11)
    row("build", "GRAIL", "build", "-", "grail")
    row("open", "the same check", "open", "-", "check")
    row("open", "the check and clearing the words", "open", "-", "cleared")
    row("one question, mixed pairs", "the check and GRAIL's question", "ask", "mixed", "check")
    row("list", "the check and a list over GRAIL's groups", "list", "checked", "check")
    row("list, the check cut", "a list over GRAIL's groups", "list", "alone", "grail")
    for (p = 1; p in PAIRS; p++) row("a pair of many, " PAIRS[p] ", the check cut", "GRAIL", "monday", PAIRS[p], "grail")
    for (p = 1; p in PAIRS; p++) row("a pair of many, " PAIRS[p] ", the check cut", "search", "monday", PAIRS[p], "search")
    print "\n### Debian's packages: what the walk opens, what a list holds, and what the calls cost beside that\n"
    print "| what | d = 1 | 2 | 5 |\n|---|---:|---:|---:|"
    for (p = 1; p in PAIRS; p++) numbers("groups opened a pair, " PAIRS[p], "%.2f", "opened", PAIRS[p], "ours", 1)
    numbers("packages in a list", "%.0f", "count", "alone", "ours", 1)
    numbers("a call on no pairs, the check cut, ms", "%.2f", "monday", "mixed", "no pairs", 1e6)
    numbers("memory of a build, MB: work and output", "%.1f", "memory", "build", "ours", 1e6)
    numbers("GRAIL's at most, MB", "%.1f", "memory", "build", "grail", 1e6)
    numbers("memory of opening, MB: index, marks and words", "%.1f", "memory", "open", "ours", 1e6)
}
