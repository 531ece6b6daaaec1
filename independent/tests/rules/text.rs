//! The text program: the sample, good texts, and bad ones with their first bad line.

use independent::run_text;

const SAMPLE: &str = "\
v 4
e 0 1
e 0 2
e 3 1
o 0 1 2 3
q 3 2
q 0 2
q 1 1
q 2 0
q 4 0
";

const SAMPLE_ANSWERED: &str = "\
q 3 2 no 6 1 0
q 0 2 yes 2 0 1
q 1 1 yes 1 0 0
q 2 0 no 3 0 0
q 4 0 refused 14 0
";

fn said(input: &str) -> String {
    String::from_utf8(run_text(input.as_bytes())).unwrap()
}

fn prints(input: &str, output: &str) {
    assert_eq!(said(input), output, "{input:?}");
}

fn bad(input: &str, line: usize) {
    prints(input, &format!("refused 17 {line}\n"));
}

/// A line of n numbers behind an o.
fn order_line(n: usize) -> String {
    (0..n).fold(String::from("o"), |line, v| format!("{line} {v}")) + "\n"
}

#[test]
fn the_sample_is_answered_to_the_letter() {
    prints(SAMPLE, SAMPLE_ANSWERED);
}

#[test]
fn p5_to_p8_as_text() {
    let g = "v 6\ne 0 1\ne 1 2\ne 2 1\ne 0 3\ne 3 4\ne 2 4\ne 5 5\n";
    let a = "o 0 1 2 3 4 5\n";
    let b = "o 5 4 3 2 1 0\n";
    let asked = "q 3 4\nq 0 5\n";
    prints(&format!("{g}{a}{asked}"), "q 3 4 yes 5 1 1\nq 0 5 no 4 0 1\n");
    prints(&format!("{g}{a}{b}{asked}"), "q 3 4 yes 2 0 2\nq 0 5 no 4 0 1\n");
    let h = SAMPLE.replace("o 0 1 2 3", "o 3 2 1 0");
    assert!(said(&h).starts_with("q 3 2 no 4 0 1\n"));
}

#[test]
fn empty_input_is_line_1() {
    bad("", 1);
    bad("\n", 1);
}

#[test]
fn the_last_line_needs_its_lf() {
    bad(SAMPLE.strip_suffix('\n').unwrap(), 10);
    bad("v 4", 1);
    bad("v 4\no 0 1 2 3", 2);
    bad("v 4\no 0 1 2 3\nq 0 0\n ", 4);
}

#[test]
fn the_first_bad_line_is_named() {
    bad("v 2\ne 0 1\nx\ny\no 0 1", 3);
    bad("x\nv 2\n", 1);
    bad("v 2\no 0\no 0\n", 2);
}

#[test]
fn no_order_line_is_a_refused_build() {
    prints("v 4\n", "refused 4 0\n");
    prints("v 4\ne 0 9\nq 0 0\n", "refused 4 0\n");
    prints("v 0\n", "refused 4 0\n");
}

#[test]
fn ends_and_orders_out_of_range_are_refused_builds() {
    prints("v 2\ne 0 1\ne 0 2\no 0 1\nq 0 1\n", "refused 7 1\n");
    prints("v 2\ne 99999 0\no 0 1\n", "refused 7 0\n");
    prints("v 2\no 0 1\no 1 2\nq 0 1\n", "refused 8 1\n");
    prints("v 2\no 0 0\n", "refused 8 0\n");
    prints("v 2\ne 2 0\no 0 0\n", "refused 7 0\n");
}

#[test]
fn an_order_line_has_exactly_n_numbers() {
    bad("v 2\no 0\n", 2);
    bad("v 2\no 0 1 2\n", 2);
    bad("v 2\no\n", 2);
    bad("v 2\no 0 1\no 0\n", 3);
    bad("v 1\no 0 0\n", 2);
}

#[test]
fn program_bounds_make_a_line_bad() {
    let n512 = format!("v 512\n{}q 511 0\n", order_line(512));
    prints(&n512, "q 511 0 no 3 0 0\n");
    bad("v 513\n", 1);
    bad("v 99999\n", 1);

    let edges = |count: usize| format!("v 2\n{}o 0 1\nq 0 1\n", "e 0 1\n".repeat(count));
    prints(&edges(2_000), "q 0 1 yes 2 0 1\n");
    bad(&edges(2_001), 2_002);

    let orders = |count: usize| format!("v 2\n{}q 0 1\n", "o 0 1\n".repeat(count));
    prints(&orders(5), "q 0 1 no 3 0 0\n");
    bad(&orders(6), 7);
}

#[test]
fn bytes_32768_are_read_and_32769_refused_with_line_0() {
    let full = String::from("v 1\no 0\n") + &"q 0 0\n".repeat(5_459) + "q 0 1\n";
    assert_eq!(full.len(), 32_768);
    let answered = "q 0 0 yes 1 0 0\n".repeat(5_459) + "q 0 1 refused 14 1\n";
    prints(&full, &answered);

    bad(&(full + "\n"), 0);
    bad(&"x".repeat(32_769), 0);
    bad(&"\n".repeat(40_000), 0);
    bad(&"\n".repeat(32_768), 1);
}

#[test]
fn a_line_out_of_turn_is_bad() {
    bad("e 0 0\nv 1\no 0\n", 1);
    bad("o 0\nv 1\n", 1);
    bad("q 0 0\nv 1\no 0\n", 1);
    bad("v 1\nv 1\no 0\n", 2);
    bad("v 1\no 0\nv 1\n", 3);
    bad("v 1\no 0\ne 0 0\n", 3);
    bad("v 1\no 0\nq 0 0\no 0\n", 4);
    bad("v 1\no 0\nq 0 0\ne 0 0\n", 4);
    bad("v 1\nq 0 0\ne 0 0\n", 3);
    bad("v 1\nq 0 0\no 0\n", 3);
    prints("v 1\nq 0 0\n", "refused 4 0\n");
}

#[test]
fn no_vertices() {
    prints("v 0\no\n", "");
    prints("v 0\no\no\no\no\no\n", "");
    bad("v 0\no \n", 2);
    bad("v 0\no 0\n", 2);
    prints("v 0\no\nq 0 0\n", "q 0 0 refused 14 0\n");
    prints("v 0\ne 0 0\no\n", "refused 7 0\n");
    prints("v 0\ne 0 0\n", "refused 4 0\n");
}

#[test]
fn questions_out_of_range_are_refused_line_by_line() {
    prints(
        "v 2\no 0 1\nq 2 0\nq 0 2\nq 99999 99999\nq 1 1\n",
        "q 2 0 refused 14 0\nq 0 2 refused 14 1\nq 99999 99999 refused 14 0\nq 1 1 yes 1 0 0\n",
    );
}

#[test]
fn no_questions_give_empty_output() {
    prints("v 2\ne 0 1\no 0 1\n", "");
}

#[test]
fn decimals_are_1_to_5_digits_without_needless_zeros() {
    let question = |word: &str| format!("v 1\no 0\nq {word} 0\n");
    for good in ["0", "7", "10", "12345", "99999"] {
        assert!(said(&question(good)).starts_with(&format!("q {good} 0 ")));
    }
    let worse = [
        "", "00", "01", "007", "000000", "100000", "-1", "+1", "1.0", "0x1", "1e1", "a", "٣", "0\0", "1,0",
    ];
    for word in worse {
        bad(&question(word), 3);
    }
    bad("v 01\no 0\n", 1);
    bad("v 00\no\n", 1);
}

#[test]
fn single_spaces_and_nothing_else_stand_between() {
    for line in [
        "e  0 1", " e 0 1", "e 0 1 ", "e 0  1", "e\t0 1", "e 0\t1", "e 0 1\r", "e0 1", "e 0,1", "E 0 1", "e", "e ",
        "e 0", "e 0 1 2", "ee 0 1", "", " ", "# note", "e 0 1;", "v 2 2",
    ] {
        bad(&format!("v 2\n{line}\no 0 1\n"), 2);
    }
    for line in [
        "v",
        "v ",
        "v  2",
        "V 2",
        "v 2 ",
        " v 2",
        "v 2\r",
        "v2",
        "v 2 2",
        "\u{feff}v 2",
    ] {
        bad(&format!("{line}\no 0 1\n"), 1);
    }
    for line in ["q 0", "q 0 1 0", "Q 0 1", "q 0 1 ", "q  0 1", "", "q"] {
        bad(&format!("v 2\no 0 1\n{line}\n"), 3);
    }
    bad("v 2\no 0 1\n\n", 3);
    assert_eq!(run_text(b"v 2\ne 0 \xff\n"), b"refused 17 2\n");
}
