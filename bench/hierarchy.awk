# The table of questions on plain hierarchies, from the figures that hierarchy prints.
# awk -f bench/tables.awk -f bench/hierarchy.awk FIGURES
BEGIN { split("forest broad line", SHAPE, " "); split("mixed reachable", PAIRS, " "); split("4096 200000", SIZE, " "); word["4096"] = "4,096"; word["200000"] = "200,000" }

END {
    print "### Questions on plain hierarchies: form 4 to form 2 on the same hierarchy, and the images\n"
    heading("| hierarchy, pairs | n | in a loop: form 4 to form 2 | form 4 to a plain test in C++ | with the check | form 4, in a loop | form 2 | plain test | form 4, with the check | form 2 |", 10)
    for (a = 1; a in SHAPE; a++) for (p = 1; p in PAIRS; p++) for (i = 1; i in SIZE; i++) {
        kind = SHAPE[a]; pairs = PAIRS[p]; n = SIZE[i]
        two = time("loop", kind, n, 1, pairs, "two"); four = time("loop", kind, n, 1, pairs, "four"); plain = time("loop", kind, n, 1, pairs, "plain")
        check2 = time("whole", kind, n, 1, pairs, "two"); check4 = time("whole", kind, n, 1, pairs, "four")
        print "| " kind ", " pairs " | " word[n] " | " ratio(four, two) " | " ratio(four, plain) " | " ratio(check4, check2) " | " told(four) " | " told(two) " | " told(plain) " | " told(check4) " | " told(check2) " |"
        sum += log(four / two); whole += log(check4 / check2); rows++
    }
    printf "\nGeometric mean of the %d ratios: in a loop %.2f, with the check %.2f.\n\n", rows, exp(sum / rows), exp(whole / rows)
    heading("| hierarchy | n | bytes of form 4 | of form 2 | form 4 to form 2 |", 5)
    for (a = 1; a in SHAPE; a++) for (i = 1; i in SIZE; i++) {
        kind = SHAPE[a]; n = SIZE[i]
        print "| " kind " | " word[n] " | " time("size", kind, n, 1, "-", "four") + 0 " | " time("size", kind, n, 1, "-", "two") + 0 " | " ratio(time("size", kind, n, 1, "-", "four"), time("size", kind, n, 1, "-", "two")) " |"
    }
}
