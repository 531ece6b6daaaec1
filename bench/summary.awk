# The summary of docs/FIGURES.md: a line for each call, from the figures of one run of all parts.
# awk -f bench/tables.awk -f bench/summary.awk PART.figures .. (the files' names say the parts)
{
    part = FILENAME
    sub(/.*\//, "", part)
    sub(/\.figures$/, "", part)
    lines++
    PART[lines] = part; MEASURE[lines] = $1; GRAPH[lines] = $2; SIZE[lines] = $3; ORDERS[lines] = $4; ASKED[lines] = $5; WHO[lines] = $6; VALUE[lines] = $7
    F[part, $1, $2, $3, $4, $5, $6] = $7
    if (part == "debian" && $1 == "shape") packages = $3
}

# what a row of a table is called: the graph, the pairs where there are several kinds, and d, which is the number of added edges where there are such
function named(i,    words) {
    words = GRAPH[i] in title ? title[GRAPH[i]] : GRAPH[i]
    if (PART[i] == "debian") words = ""
    if (PART[i] == "matrix") return thousands(SIZE[i]) " vertices"
    if (PART[i] == "added") return words ", " ORDERS[i] (ORDERS[i] ? " " ASKED[i] : " edges")
    if (PART[i] == "rules") { split(ASKED[i], OF, " "); return words ", " OF[1] " changed, " thousands(OF[3]) " records" }
    if (PART[i] == "chain") return words
    if (ASKED[i] == "up") words = words ", 1 to 2"
    if (ASKED[i] == "down") words = words ", 2 to 1"
    if (ASKED[i] ~ /reach|mixed/ && MEASURE[i] != "ask" && PART[i] != "exceptions") words = words (words ? ", " : "") ASKED[i]
    if (PART[i] == "hierarchy") return words
    return words (words ? ", " : "") "d = " ORDERS[i]
}

# the row that is told as an example: random acyclic graphs, two orders, mixed pairs, 16 added edges, 100 vertices changed
function example(i) {
    if (PART[i] == "matrix") return 1
    if (PART[i] == "hierarchy") return GRAPH[i] == "forest" && ASKED[i] == "mixed"
    if (PART[i] == "added") return GRAPH[i] == "dag" && ORDERS[i] == 16 && ASKED[i] == "random"
    if (ORDERS[i] != 2 || GRAPH[i] !~ /^(dag|file)$/) return 0
    if (PART[i] == "rules") return ASKED[i] == "100 of 1000"
    return ASKED[i] !~ /reach|down/
}

# Three cells of a size: the geometric mean of the ratios, the highest with its row, and our time in the example. `what` is part, measure, pairs, whose time and the peer's, parted
# by slashes; pairs are any where there are none. Over `mean` or over `each`, where they are aims, a ratio is marked.
function cells(what, n, mean, each,    W, i, r, sum, rows, high, where, time_of) {
    if (what == "") return " | | |"
    split(what, W, "/")
    for (i = 1; i <= lines; i++) {
        if (PART[i] != W[1] || MEASURE[i] != W[2] || SIZE[i] != n || WHO[i] != W[4] || (W[3] != "" && ASKED[i] != W[3])) continue
        r = VALUE[i] / F[W[1], W[2], GRAPH[i], n, ORDERS[i], ASKED[i], W[5]]
        sum += log(r); rows++
        if (r > high) { high = r; where = named(i) }
        if (example(i)) time_of = VALUE[i]
    }
    if (!rows) { print "summary.awk: no figures of " what " at " n > "/dev/stderr"; exit 1 }
    r = exp(sum / rows)
    return " " marked(r, mean) " | " (rows > 1 ? marked(high, each) " (" where ")" : "") " | " told(time_of) " |"
}

function marked(r, aim) { return aim && sprintf("%.2f", r) + 0 > aim ? "**" ratio(r, 1) " missed**" : ratio(r, 1) }

function row(call, peer, aim, mean, each, small, large) {
    print "| " call " | " peer " | " aim " |" cells(small, 4096, mean, each) cells(large, 200000, mean, each)
}

function debian(call, peer, what) { print "| Debian's packages: " call " | " peer " | |" cells("") cells("debian/" what, packages) }

END {
    print "| call | beside | aim | 4,096: mean | highest | ours | 200,000: mean | highest | ours |"
    print "|---|---|---|---:|---|---:|---:|---|---:|"
    row("build", "GRAIL", "each 1.25", 0, 1.25, "questions/build//ours/grail", "region/build//ours/grail")
    row("build, form 2", "GRAIL", "each 1.25", 0, 1.25, "region/build//ours/grail", "")
    row("open", "the same check; form 2: and clearing words", "each 1.15", 0, 1.15, "questions/open//ours/check", "region/open//ours/cleared")
    row("open, form 2", "the same check and clearing words", "each 1.15", 0, 1.15, "region/open//ours/cleared", "")
    row("open, form 2", "the same check alone", "", 0, 0, "region/open//ours/check", "region/open//ours/check")
    row("one question, mixed", "check and GRAIL's question", "", 0, 0, "questions/ask/mixed/ours/check", "region/ask/mixed/ours/check")
    row("one question, check cut", "GRAIL's question", "", 0, 0, "questions/question//ours/grail", "")
    row("a pair of two lists, check cut", "GRAIL", "mean 1.0, each 2.0", 1, 2, "questions/monday//ours/grail", "region/monday//ours/grail")
    row("the same, form 2", "GRAIL", "mean 1.0, each 2.0", 1, 2, "region/monday//ours/grail", "")
    row("list, form 2", "check and list over GRAIL's groups", "", 0, 0, "region/list/checked/ours/check", "region/list/checked/ours/check")
    row("list, form 2, check cut", "list over GRAIL's groups", "", 0, 0, "region/list/alone/ours/grail", "region/list/alone/ours/grail")
    row("chain", "check and search over GRAIL's groups", "", 0, 0, "chain/chain/checked/ours/check", "chain/chain/checked/ours/check")
    row("chain, check cut", "search over GRAIL's groups", "", 0, 0, "chain/chain/alone/ours/search", "chain/chain/alone/ours/search")
    row("question over added edges", "check and search", "", 0, 0, "added/added//ours/check", "added/added//ours/check")
    row("the same, check cut", "search", "", 0, 0, "added/added//alone/search", "added/added//alone/search")
    row("table of rules", "check and search", "", 0, 0, "rules/rules//ours/check", "rules/rules//ours/check")
    row("the same as lists, check cut", "search", "", 0, 0, "rules/rules//alone/lists", "rules/rules//alone/lists")
    row("exception lists, building", "the same in C++, unchecked", "", 0, 0, "exceptions/lists//ours/peer", "")
    row("a pair by them, checks cut", "the walk (ours)", "", 0, 0, "exceptions/pairs//lists/walk", "")
    row("Matrix Market, an entry read", "from_chars into lent lists", "1.5", 1.5, 0, "matrix/matrix//ours/lent", "matrix/matrix//ours/lent")
    print "| the same, 9 vertices | from_chars into lent lists | 1.5 |" cells("matrix/matrix//ours/lent", 9, 1.5) cells("")
    row("conversion", "check and plain loop", "", 0, 0, "convert/convert//ours/check", "")
    row("conversion, check cut", "plain loop", "", 0, 0, "convert/convert//alone/plain", "")
    row("hierarchy, form 4", "form 2 (ours)", "", 0, 0, "hierarchy/whole//four/two", "hierarchy/whole//four/two")
    row("the same in a loop, check cut", "form 2 (ours)", "", 0, 0, "hierarchy/loop//four/two", "hierarchy/loop//four/two")
    row("the same in a loop, check cut", "plain test in C++", "", 0, 0, "hierarchy/loop//four/plain", "hierarchy/loop//four/plain")
    debian("build", "GRAIL", "build//ours/grail")
    debian("open", "the same check and clearing words", "open//ours/cleared")
    debian("one question, mixed", "check and GRAIL's question", "ask/mixed/ours/check")
    debian("list", "check and list over GRAIL's groups", "list/checked/ours/check")
    debian("a pair of two lists, check cut", "GRAIL", "monday//ours/grail")
    print "\nThe lines of Debian's packages are for their " thousands(packages) " vertices."
}
