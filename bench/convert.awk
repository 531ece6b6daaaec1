# The table of conversions, from the figures that convert prints.
# awk -f bench/tables.awk -f bench/convert.awk FIGURES
BEGIN { split("up down", WAY, " "); name["up"] = "1 to 2"; name["down"] = "2 to 1"; n = 4096 }

END {
    print "### Conversions at 4,096 vertices: ours to a copy of the larger image, to a plain loop in C++, and with the check to the same check and loop in C++\n"
    heading("| graph, forms | d | check cut: to a copy | to a plain loop | with the check | ours, check cut | copy | ours | check and loop in C++ |", 9)
    for (a = 1; a in KIND; a++) for (p = 1; p in WAY; p++) for (j = 1; j in D; j++) {
        kind = KIND[a]; d = D[j]; way = WAY[p]
        ours = time("convert", kind, n, d, way, "ours"); alone = time("convert", kind, n, d, way, "alone"); copy = time("convert", kind, n, d, way, "copy")
        check = time("convert", kind, n, d, way, "check"); plain = time("convert", kind, n, d, way, "plain")
        print "| " title[kind] ", " name[way] " | " d " | " ratio(alone, copy) " | " ratio(alone, plain) " | " ratio(ours, check) " | " told(alone) " | " told(copy) " | " told(ours) " | " told(check) " |"
        sum += log(alone / copy); loop += log(alone / plain); whole += log(ours / check); rows++
    }
    printf "\nGeometric mean of the %d ratios: to a copy %.2f, to a plain loop %.2f, with the check %.2f.\n", rows, exp(sum / rows), exp(loop / rows), exp(whole / rows)
}
