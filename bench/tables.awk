# What the tables share: the figures as they are printed (measure, graph, n, d, pairs, who, value), and how they are told.
BEGIN {
    FS = "\t"
    split("1 2 5", D, " ")
    split("dag loops tree layers line", KIND, " ")
    title["dag"] = "random acyclic"; title["loops"] = "with loops"; title["tree"] = "tree-like"; title["layers"] = "layers"; title["line"] = "line"
}
{ T[$1, $2, $3, $4, $5, $6] = $7 }

function time(measure, kind, n, d, pairs, who) { return T[measure, kind, n, d, pairs, who] }

# a time in words: three digits and a unit
function told(ns) {
    if (ns < 1000) return sprintf("%.3g ns", ns)
    if (ns < 999500) return sprintf("%.3g µs", ns / 1000)
    if (ns < 999500000) return sprintf("%.3g ms", ns / 1000000)
    return sprintf("%.3g s", ns / 1000000000)
}

function ratio(a, b) { return sprintf(a / b < 9.995 ? "%.2f" : "%.0f", a / b) }

function thousands(x,    line) {
    for (x = sprintf("%.0f", x); length(x) > 3; x = substr(x, 1, length(x) - 3)) line = "," substr(x, length(x) - 2) line
    return x line
}

# The sizes that the next tables have, N, the largest of them, and the heading of their columns.
function measured(list,    i) {
    sizes = split(list, N, " ")
    most = N[sizes]
    columns = " n ="
    for (i = 1; i <= sizes; i++) columns = columns " " thousands(N[i]) " |"
}

# ours to a peer's, at every size
function ratios(measure, kind, d, pairs, peer,    i, line) {
    for (i = 1; i <= sizes; i++) line = line " | " ratio(time(measure, kind, N[i], d, pairs, "ours"), time(measure, kind, N[i], d, pairs, peer))
    return line
}

# the slope of log time over log n, by least squares
function slope(measure, kind, d, pairs, who,    i, x, y, sx, sy, sxx, sxy) {
    for (i = 1; i <= sizes; i++) {
        x = log(N[i]); y = log(time(measure, kind, N[i], d, pairs, who))
        sx += x; sy += y; sxx += x * x; sxy += x * y
    }
    return sprintf("%.2f", (sizes * sxy - sx * sy) / (sizes * sxx - sx * sx))
}

function heading(words, columns,    line, i) {
    print words
    line = "|---|---"
    for (i = 3; i <= columns; i++) line = line "|---:"
    print line "|"
}
