# The plot of docs/FIGURES.md: builds, openings and single questions over size, in both forms. Above, times on random acyclic graphs; below, ours to the peer over all graphs and d, the
# geometric mean within the lowest and the highest.
# awk -v svg=FILE -f bench/tables.awk -f bench/plot.awk form=1 FIGURES form=2 FIGURES (those of bench and of region)
{ B[form, $1, $2, $3, $4, $5, $6] = $7 }

function draw(line) { print line > svg }

function across(n) { return left + (log(n) - log(400)) / (log(250000) - log(400)) * 260 }

function up(y) { return top + 200 - (logarithmic ? (log(y) - log(low)) / (log(high) - log(low)) : (y - low) / (high - low)) * 200 }

function point(n, y) { return sprintf(" %.1f,%.1f", across(n), up(y)) }

# A panel with its grid, at whole powers of ten or at quarters.
function panel(name, x, y, is_log, from, to,    v, i, count, AT) {
    left = x; top = y; logarithmic = is_log; low = from; high = to
    draw("<text x='" left "' y='" top - 12 "' class='name'>" name "</text>")
    for (v = low; v <= high * 1.001; v = logarithmic ? v * 10 : v + 0.25) {
        draw("<line x1='" left "' x2='" left + 260 "' y1='" up(v) "' y2='" up(v) "' stroke='" (!logarithmic && v == 1 ? "#888" : "#ddd") "'/>")
        draw("<text x='" left - 6 "' y='" up(v) + 4 "' text-anchor='end'>" (logarithmic ? told(v) : sprintf("%.2f", v)) "</text>")
    }
    count = split("500 4096 16000 200000", AT, " ")
    for (i = 1; i <= count; i++) draw("<text x='" across(AT[i]) "' y='" top + 216 "' text-anchor='middle'>" thousands(AT[i]) "</text>")
}

function line(points, colour, dashes) { draw("<polyline points='" points "' fill='none' stroke='" colour "' stroke-width='2' stroke-dasharray='" dashes "'/>") }

function times(measure, pairs, peer,    f, j, i, ours, theirs) {
    for (f = 1; f <= 2; f++) for (j = 1; j in D; j++) {
        measured(SIZES[f])
        ours = theirs = ""
        for (i = 1; i <= sizes; i++) {
            ours = ours point(N[i], B[f, measure, "dag", N[i], D[j], pairs, "ours"])
            theirs = theirs point(N[i], B[f, measure, "dag", N[i], D[j], pairs, peer])
        }
        line(ours, COLOUR[j], "")
        line(theirs, COLOUR[j], "5 4")
    }
}

# a form's lowest ratio at a size, its geometric mean and its highest
function spread(f, measure, n, pairs, peer,    a, j, r, sum, rows) {
    least = 1e9; greatest = 0
    for (a = 1; a in KIND; a++) for (j = 1; j in D; j++) {
        r = B[f, measure, KIND[a], n, D[j], pairs, "ours"] / B[f, measure, KIND[a], n, D[j], pairs, peer]
        sum += log(r); rows++
        if (r < least) least = r
        if (r > greatest) greatest = r
    }
    mean = exp(sum / rows)
}

function ratios_over_size(measure, pairs, peers, aim,    f, i, PEER, below, above, middle) {
    split(peers, PEER, " ")
    if (aim) draw("<line x1='" left "' x2='" left + 260 "' y1='" up(aim) "' y2='" up(aim) "' stroke='#c00' stroke-dasharray='2 3'/><text x='" left + 264 "' y='" up(aim) + 4 "'>aim</text>")
    for (f = 1; f <= 2; f++) {
        measured(SIZES[f])
        below = above = middle = ""
        for (i = 1; i <= sizes; i++) {
            spread(f, measure, N[i], pairs, PEER[f])
            below = below point(N[i], least); above = point(N[i], greatest) above; middle = middle point(N[i], mean)
        }
        draw("<polygon points='" below above "' fill='" FORM[f] "' fill-opacity='0.2'/>")
        line(middle, FORM[f], "")
    }
}

# the lowest and the highest of all ratios, to whole quarters
function span(measure, pairs, peers,    f, i, PEER) {
    split(peers, PEER, " ")
    from = 1; to = 1.25
    for (f = 1; f <= 2; f++) {
        measured(SIZES[f])
        for (i = 1; i <= sizes; i++) {
            spread(f, measure, N[i], pairs, PEER[f])
            while (least < from) from -= 0.25
            while (greatest > to) to += 0.25
        }
    }
}

function legend(x, y, colour, dashes, words) {
    draw("<line x1='" x "' x2='" x + 26 "' y1='" y - 4 "' y2='" y - 4 "' stroke='" colour "' stroke-width='2' stroke-dasharray='" dashes "'/><text x='" x + 32 "' y='" y "'>" words "</text>")
}

END {
    split("#1f77b4 #d95f02 #2ca02c", COLOUR, " ")
    split("#1f77b4 #7b3294", FORM, " ")
    SIZES[1] = "500 1000 2000 4096"; SIZES[2] = "4096 16000 60000 200000"
    split("build open ask", MEASURE, " "); split("- - mixed", PAIRS, " "); split("grail,check,check", PEER, ","); split("grail grail,check cleared,check check", BOTH, ",")
    split("Build,Open,One question with its check", NAME, ","); split("1.25 1.15 0", AIM, " ")
    draw("<svg xmlns='http://www.w3.org/2000/svg' viewBox='0 0 1080 590' font-family='sans-serif' font-size='11'>")
    draw("<style>.name { font-size: 14px; font-weight: bold }</style><rect width='1080' height='590' fill='white'/>")
    for (m = 1; m <= 3; m++) {
        panel(NAME[m] ": time", 60 + 350 * (m - 1), 34, 1, 10000, 1000000000)
        times(MEASURE[m], PAIRS[m], PEER[m])
        span(MEASURE[m], PAIRS[m], BOTH[m])
        panel("Ours to the peer", 60 + 350 * (m - 1), 324, 0, from, to)
        ratios_over_size(MEASURE[m], PAIRS[m], BOTH[m], AIM[m])
    }
    for (j = 1; j in D; j++) legend(60 + 90 * (j - 1), 274, COLOUR[j], "", "d = " D[j])
    legend(330, 274, "#555", "", "ours")
    legend(410, 274, "#555", "5 4", "GRAIL; the same check in C++; the check and GRAIL's question, on random acyclic graphs, forms 1 and 2")
    legend(60, 564, FORM[1], "", "form 1, up to 4,096 vertices")
    legend(270, 564, FORM[2], "", "form 2, from 4,096 on (opening beside the check that clears words too)")
    draw("<text x='760' y='564'>geometric mean of 15 ratios, lowest to highest shaded</text>")
    draw("</svg>")
}
