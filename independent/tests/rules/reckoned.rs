//! The reckoned examples P1 to P10, and what they come to in form 2.

use crate::given::{built, falling, g, h, refused, rising, words_for};
use independent::groups::Groups;
use independent::labels::Labelling;
use independent::{ask, list, open, Answer, Counts, Graph, Refusal, FORM_1, FORM_2, ORDINARY};

fn answer(yes: bool, reason: u32, opened: u32, labelling: u32) -> Answer {
    Answer {
        yes,
        reason,
        opened,
        labelling,
    }
}

/// The triples (s, m, e) by place.
fn triples(order: &[usize]) -> Vec<(usize, usize, usize)> {
    let labelling = Labelling::of(&Groups::of(&g()), order);
    (0..labelling.e.len())
        .map(|place| (labelling.s[place], labelling.m[place], labelling.e[place]))
        .collect()
}

#[test]
fn p1_names_and_group_list() {
    let groups = Groups::of(&g());
    assert_eq!(groups.names, [0, 1, 1, 3, 4, 5]);
    assert_eq!(groups.list, [0, 1, 3, 4, 5]);
}

#[test]
fn p2_levels() {
    assert_eq!(Groups::of(&g()).levels, [2, 1, 1, 0, 0]);
}

#[test]
fn p3_labels_under_a() {
    let told = [(1, 1, 4), (1, 1, 2), (1, 3, 3), (1, 1, 1), (5, 5, 5)];
    assert_eq!(triples(&rising(6)), told);
}

#[test]
fn p4_labels_under_b() {
    let told = [(2, 2, 5), (2, 4, 4), (2, 2, 3), (2, 2, 2), (1, 1, 1)];
    assert_eq!(triples(&falling(6)), told);
}

/// The question in either form: one answer, and the marks that it leaves in eight.
fn asked(graph: &Graph, orders: &[Vec<usize>], source: u32, target: u32) -> (Result<Answer, Refusal>, [u8; 8]) {
    let [of_1, of_2] = ORDINARY.map(|form| {
        let index = built(&form, graph, orders);
        let mut marks = [7; 8];
        let answer = ask(&index, source, target, &mut marks, &mut words_for(&index));
        (answer, marks)
    });
    assert_eq!(of_1, of_2);
    of_1
}

#[test]
fn p5_walk_opens_one_group_and_marks_it() {
    let told = (Ok(answer(true, 5, 1, 1)), [0, 0, 0, 1, 0, 0, 7, 7]);
    assert_eq!(asked(&g(), &[rising(6)], 3, 4), told);
}

#[test]
fn p6_second_order_saves_the_walk() {
    let told = (Ok(answer(true, 2, 0, 2)), [0, 0, 0, 0, 0, 0, 7, 7]);
    assert_eq!(asked(&g(), &[rising(6), falling(6)], 3, 4), told);
}

#[test]
fn p7_outer_interval_rules_out() {
    assert_eq!(asked(&g(), &[rising(6)], 0, 5).0, Ok(answer(false, 4, 0, 1)));
}

#[test]
fn p8_another_order_saves_the_walk_to_a_no() {
    let said = |orders: &[Vec<usize>]| asked(&h(), orders, 3, 2).0.unwrap();
    assert_eq!(said(&[rising(4)]), answer(false, 6, 1, 0));
    assert_eq!(said(&[falling(4)]), answer(false, 4, 0, 1));
    assert_eq!(said(&[rising(4), falling(4)]), answer(false, 4, 0, 2));
}

#[test]
fn p9_total_lengths() {
    assert_eq!(built(&FORM_1, &h(), &[rising(4)]).len(), 120);
    assert_eq!(built(&FORM_1, &g(), &[rising(6), falling(6)]).len(), 180);
    assert_eq!(built(&FORM_2, &h(), &[rising(4)]).len(), 192);
    assert_eq!(built(&FORM_2, &g(), &[rising(6), falling(6)]).len(), 312);
}

#[test]
fn p10_no_vertices() {
    for (form, total, needed) in [(FORM_1, 50, 0), (FORM_2, 52, 64)] {
        let index = built(&form, &Graph::new(0, &[]), &[vec![]]);
        assert_eq!(index.len(), total);
        let mut words = words_for(&index);
        assert_eq!(words.len(), needed);
        let counts = Counts { n: 0, k: 0, c: 0, d: 1 };
        assert_eq!(open(&index, &mut [], &mut words), Ok(counts));
        for (source, target) in [(0, 0), (0, 1), (1, 0), (u32::MAX, u32::MAX)] {
            assert_eq!(ask(&index, source, target, &mut [], &mut words), refused(14, 0));
        }
        assert_eq!(list(&index, 0, &mut [], &mut words, &mut []), refused(14, 0));
    }
}

const SECTIONS_OF_H: [&[u32]; 6] = [
    &[0, 1, 2, 3],
    &[0, 1, 2, 3],
    &[1, 0, 0, 1],
    &[0, 2, 2, 2, 3],
    &[1, 2, 1],
    &[1, 1, 3, 1, 1, 1, 2, 2, 2, 1, 4, 4, 1, 2, 0, 3],
];

#[test]
fn stored_form_1_of_h_field_by_field() {
    let header: [u32; 12] = [1, 4, 4, 3, 1, 48, 56, 64, 72, 82, 88, 120];
    let mut told: Vec<u8> = header.iter().flat_map(|n| n.to_le_bytes()).collect();
    told.extend(SECTIONS_OF_H.concat().iter().flat_map(|&n| (n as u16).to_le_bytes()));
    assert_eq!(built(&FORM_1, &h(), &[rising(4)]), told);
}

#[test]
fn stored_form_2_of_h_field_by_field() {
    let header: [u32; 12] = [2, 4, 4, 3, 1, 48, 64, 80, 96, 116, 128, 192];
    let mut told: Vec<u8> = header.iter().flat_map(|n| n.to_le_bytes()).collect();
    told.extend(SECTIONS_OF_H.concat().iter().flat_map(|n| n.to_le_bytes()));
    assert_eq!(built(&FORM_2, &h(), &[rising(4)]), told);
}
