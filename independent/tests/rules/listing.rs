//! The downstream list against plain search, and what it leaves in lent memory.

use crate::given::{built, g, lent_bytes, lent_words, refused, rising, words_for, WORD};
use independent::chance::{Chance, Kind};
use independent::closure::{Closure, Search};
use independent::{list, Graph, Index, ORDINARY};

#[test]
fn list_holds_what_is_downstream() {
    let mut chance = Chance::new(31);
    for round in 0..600 {
        let n = chance.between(1, 16);
        let graph = chance.graph(Kind::ALL[round % Kind::ALL.len()], n);
        let d = chance.between(1, 5);
        let bytes = built(&chance.one_of(&ORDINARY), &graph, &chance.orders(n, d));
        let needed = words_for(&bytes).len();
        let (closure, search) = (Closure::of(&graph), Search::of(&graph));
        for u in 0..n {
            let downstream = closure.downstream(u);
            assert_eq!(search.downstream(u), downstream);
            assert!((0..n).all(|v| search.from(u)[v] == closure.reaches(u, v)));
            let mut marks = lent_bytes(n + 2);
            let mut marks_told = marks.clone();
            marks_told[..n].fill(0);
            let mut out = lent_words(n + 2);
            let mut out_told = out.clone();
            for (slot, &v) in out_told.iter_mut().zip(&downstream) {
                *slot = v as u32;
            }
            let mut words = vec![WORD; needed + 2];
            let count = list(&bytes, u as u32, &mut marks, &mut words, &mut out);
            assert_eq!(count, Ok(downstream.len() as u32));
            assert_eq!(marks, marks_told);
            assert_eq!(words, [vec![0; needed], vec![WORD; 2]].concat());
            assert_eq!(out, out_told);
        }
    }
}

#[test]
fn list_fits_exactly_or_is_refused_with_its_count() {
    for form in ORDINARY {
        let bytes = built(&form, &g(), &[rising(6)]);
        let mut out = lent_words(4);
        assert_eq!(list(&bytes, 0, &mut [9; 6], &mut words_for(&bytes), &mut out), Ok(4));
        assert_eq!(out, [1, 2, 3, 4]);
        for short in 0..4 {
            let (mut marks, mut words, mut out) = ([9; 7], words_for(&bytes), lent_words(short));
            assert_eq!(list(&bytes, 0, &mut marks, &mut words, &mut out), refused(16, 4));
            assert_eq!(out, lent_words(short));
            assert_eq!(marks, [0, 0, 0, 0, 0, 0, 9]);
            assert!(words.iter().all(|&word| word == 0));
        }
    }
}

#[test]
fn an_empty_list_needs_no_room() {
    for form in ORDINARY {
        let bytes = built(&form, &g(), &[rising(6)]);
        for vertex in [4, 5] {
            let mut marks = [9; 7];
            assert_eq!(list(&bytes, vertex, &mut marks, &mut words_for(&bytes), &mut []), Ok(0));
            assert_eq!(marks, [0, 0, 0, 0, 0, 0, 9]);
        }
    }
}

/// The lists of all vertices of a graph, in turn.
fn lists(graph: &Graph) -> Vec<Vec<usize>> {
    let index = Index::of(graph, &[rising(graph.n)]);
    (0..graph.n).map(|u| index.downstream(u)).collect()
}

#[test]
fn the_lists_of_g() {
    let told: [&[usize]; 6] = [&[1, 2, 3, 4], &[1, 2, 4], &[1, 2, 4], &[4], &[], &[]];
    assert_eq!(lists(&g()), told);
}

#[test]
fn a_vertex_is_in_its_own_list_exactly_if_its_group_has_more_than_one_vertex() {
    // 0 and 1 feed each other and 2; 3 is fed by 2 and feeds nothing. Self-loops then stand at all of them.
    let edges = [(0, 1), (1, 0), (1, 2), (2, 3)];
    let loops = [(0, 0), (1, 1), (2, 2), (3, 3)];
    let told: [&[usize]; 4] = [&[0, 1, 2, 3], &[0, 1, 2, 3], &[3], &[]];
    assert_eq!(lists(&Graph::new(4, &edges)), told);
    assert_eq!(lists(&Graph::new(4, &[edges, loops].concat())), told);
}

#[test]
fn a_self_loop_changes_no_list() {
    let mut chance = Chance::new(32);
    for round in 0..300 {
        let n = chance.between(1, 16);
        let mut graph = chance.graph(Kind::ALL[round % Kind::ALL.len()], n);
        let before = lists(&graph);
        let vertex = chance.below(n);
        graph.edges.push((vertex, vertex));
        assert_eq!(lists(&graph), before);
    }
}
