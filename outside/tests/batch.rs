//! All pairs of two lists in one call, in both forms, beside the independent program and beside single questions: refusals in between, many walks in one call, every size
//! of the buffers.

use independent::chance::{Chance, Kind};
use independent::stored::encode;
use independent::{Index, ORDINARY};
use outside::compare::{self, Lent};
use outside::inputs::mixed_pairs;
use outside::Library;

#[test]
fn the_answers_are_those_of_asking_one_by_one() {
    let (mut library, mut chance) = (Library::start(), Chance::new(71));
    for round in 0..300 {
        let n = chance.between(1, 40);
        let graph = chance.graph(Kind::ALL[round % Kind::ALL.len()], n);
        let d = chance.between(1, 5);
        let index = Index::of(&graph, &chance.orders(graph.n, d));
        let count = chance.below(400);
        let pairs = mixed_pairs(&mut chance, graph.n, count);
        compare::one_by_one(&mut library, &index, &pairs);
        let (sources, targets): (Vec<u32>, Vec<u32>) = pairs.iter().copied().unzip();
        for form in ORDINARY {
            let bytes = encode(&form, &index);
            compare::ask_all(&mut library, &bytes, &sources, &targets, Lent::needed(&bytes).more(3, 1), 6 * count + 5);
        }
    }
}

/// The stamps run out at 255 walks: calls with so many walks, with and without questions between them that the labels decide.
#[test]
fn so_many_walks_in_one_call() {
    let (mut library, mut chance) = (Library::start(), Chance::new(72));
    let graph = chance.graph(Kind::ALL[0], 300);
    let index = Index::of(&graph, &chance.orders(graph.n, 1));
    let all: Vec<(u32, u32)> = (0..40_000).map(|_| (chance.below(graph.n) as u32, chance.below(graph.n) as u32)).collect();
    let (walks, plain): (Vec<_>, Vec<_>) = all.into_iter().partition(|&(u, v)| index.question(u as usize, v as usize).answer.opened > 0);
    assert!(walks.len() >= 600 && plain.len() >= 600, "there are walks, and questions that the labels decide");
    for count in [0, 1, 2, 253, 254, 255, 256, 257, 509, 510, 511, 600] {
        compare::one_by_one(&mut library, &index, &walks[..count]);
        let between: Vec<(u32, u32)> = walks[..count].iter().zip(&plain).flat_map(|(&walk, &other)| [walk, other]).collect();
        compare::one_by_one(&mut library, &index, &between);
        let refused_last: Vec<(u32, u32)> = walks[..count].iter().copied().chain([(graph.n as u32, 0), (0, u32::MAX)]).collect();
        compare::one_by_one(&mut library, &index, &refused_last);
    }
}

#[test]
fn refusals_in_order_and_lists_of_every_length() {
    let (mut library, mut chance) = (Library::start(), Chance::new(73));
    for _ in 0..200 {
        let n = chance.between(0, 10);
        let graph = chance.any_graph(n);
        let d = chance.between(1, 3);
        let index = Index::of(&graph, &chance.orders(graph.n, d));
        let count = chance.below(12);
        let (sources, targets): (Vec<u32>, Vec<u32>) = mixed_pairs(&mut chance, graph.n, count).into_iter().unzip();
        let fewer = count.saturating_sub(1);
        for form in ORDINARY {
            let bytes = encode(&form, &index);
            for image in [chance.any_damage(&bytes), bytes] {
                for lent in Lent::around(&image) {
                    for answers in [6 * count + 5, 6 * count, (6 * count).saturating_sub(1)] {
                        compare::ask_all(&mut library, &image, &sources, &targets, lent, answers);
                        compare::ask_all(&mut library, &image, &sources, &targets[..fewer], lent, answers);
                        compare::ask_all(&mut library, &image, &sources[..fewer], &targets, lent, answers);
                    }
                }
            }
        }
    }
}

#[test]
fn a_hundred_thousand_pairs_of_4096_vertices() {
    let (mut library, mut chance) = (Library::start(), Chance::new(74));
    let graph = chance.graph(Kind::ALL[1], 4_096);
    let index = Index::of(&graph, &chance.orders(graph.n, 2));
    let (sources, targets): (Vec<u32>, Vec<u32>) = mixed_pairs(&mut chance, graph.n, 100_000).into_iter().unzip();
    for form in ORDINARY {
        let bytes = encode(&form, &index);
        compare::ask_all(&mut library, &bytes, &sources, &targets, Lent::needed(&bytes), 600_000);
    }
}
