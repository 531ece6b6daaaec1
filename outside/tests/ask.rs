//! Ask beside the independent program, in both forms: answers by closure, reasons, counts and deciding labellings by its own walk, marks byte by byte, words.

use independent::chance::{Chance, Kind};
use independent::stored::encode;
use independent::{Graph, Index, ORDINARY};
use outside::compare::{self, Lent};
use outside::Library;

#[test]
fn all_pairs_on_random_graphs_of_every_kind() {
    let (mut library, mut chance) = (Library::start(), Chance::new(31));
    // answers by reason and by deciding labelling
    let mut decided = [[0; 6]; 7];
    for round in 0..400 {
        let n = chance.between(1, 24);
        let graph = chance.graph(Kind::ALL[round % Kind::ALL.len()], n);
        let d = chance.between(1, 5);
        let index = Index::of(&graph, &chance.orders(graph.n, d));
        let pairs = compare::pairs(&mut chance, graph.n, 600);
        for answer in compare::ask_made(&mut library, &graph, &index, &pairs) {
            decided[answer.reason as usize][answer.labelling as usize] += 1;
        }
    }
    assert!([2, 4, 5].iter().all(|&reason| decided[reason][1..].iter().all(|&count| count > 0)), "each of five labellings decides first: {decided:?}");
}

#[test]
fn vertices_out_of_range_and_damaged_images_are_refused() {
    let (mut library, mut chance) = (Library::start(), Chance::new(32));
    for _ in 0..300 {
        let n = chance.between(0, 10);
        let graph = chance.any_graph(n);
        let n = graph.n as u32;
        let d = chance.between(1, 3);
        let index = Index::of(&graph, &chance.orders(graph.n, d));
        let pairs = [(0, 0), (n, 0), (0, n), (n, n), (n.max(1) - 1, u32::MAX), (u32::MAX, 0), (0, n.max(1) - 1)];
        for form in ORDINARY {
            let bytes = encode(&form, &index);
            compare::ask_pairs(&mut library, &bytes, &pairs);
            compare::ask_pairs(&mut library, &chance.any_damage(&bytes), &pairs);
        }
    }
}

#[test]
fn marks_and_words_of_every_size() {
    let (mut library, mut chance) = (Library::start(), Chance::new(34));
    for round in 0..200 {
        let n = chance.between(0, 20);
        let graph = chance.graph(Kind::ALL[round % Kind::ALL.len()], n);
        let index = Index::of(&graph, &chance.orders(n, 1));
        for form in ORDINARY {
            let bytes = encode(&form, &index);
            for image in [chance.any_damage(&bytes), bytes] {
                for lent in Lent::around(&image) {
                    let (u, v) = (chance.below(n + 1) as u32, chance.below(n + 1) as u32);
                    compare::ask(&mut library, &image, u, v, lent);
                }
            }
        }
    }
}

/// A line of 4,096 groups, and the same with a second line beside it that the walk has to go down to its end.
#[test]
fn the_walk_goes_4096_levels_deep() {
    let (mut library, mut chance) = (Library::start(), Chance::new(33));
    let line = Graph { n: 4_096, edges: (0..4_095).map(|v| (v, v + 1)).collect() };
    let index = Index::of(&line, &[(0..4_096).collect()]);
    compare::ask_made(&mut library, &line, &index, &[(0, 4_095), (4_095, 0), (2, 4_000)]);
    // Every vertex of the line has an edge to one end that is ranked first, so no interval ever rules a group out.
    let mut edges: Vec<(usize, usize)> = (0..4_093).map(|v| (v, v + 1)).collect();
    edges.extend([(4_093, 4_094), (4_095, 4_094)]);
    let deep = Graph { n: 4_096, edges };
    let backwards: Vec<usize> = (0..4_096).rev().collect();
    assert!(Index::of(&deep, &[backwards.clone()]).question(0, 4_095).answer.opened > 4_000, "this walk is deep");
    for orders in [vec![backwards], chance.orders(4_096, 1)] {
        let index = Index::of(&deep, &orders);
        compare::ask_made(&mut library, &deep, &index, &[(0, 4_094), (0, 4_095), (4_095, 4_094), (4_095, 0)]);
    }
}
