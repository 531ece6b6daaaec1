//! Exception lists beside the independent program: every index of up to 4 vertices and random ones; lists damaged in one number, cut, lengthened, swapped with another
//! index's; every size of the buffers; every other form.

use independent::chance::{Chance, Kind};
use independent::every::every_image;
use independent::exceptions::NUMBERS;
use independent::stored::encode;
use independent::{Index, FORM_1, FORM_2};
use outside::compare;
use outside::Library;

/// All pairs, and some out of range.
fn some_pairs(chance: &mut Chance, n: usize, most: usize) -> Vec<(u32, u32)> {
    let beyond = n as u32;
    [compare::pairs(chance, n, most), vec![(beyond, 0), (0, beyond), (beyond, u32::MAX)]].concat()
}

/// Lists that differ from the given ones in one number, at any of its bits; cut; lengthened.
fn damaged(chance: &mut Chance, lists: &[u8]) -> Vec<Vec<u8>> {
    let mut all = vec![[lists, &[0][..]].concat(), [lists, &[0; 4][..]].concat(), Vec::new()];
    all.extend((1..=lists.len().min(9)).map(|less| lists[..lists.len() - less].to_vec()));
    for _ in 0..8 {
        let mut other = lists.to_vec();
        let at = chance.below(lists.len());
        other[at] ^= 1 << chance.below(8);
        all.push(other);
    }
    all
}

#[test]
fn every_index_of_up_to_4_vertices() {
    let mut library = Library::start();
    let mut others: Vec<Vec<u8>> = Vec::new();
    for n in 0..=4 {
        for d in 1..=2 {
            if n == 4 && d == 2 {
                continue;
            }
            for image in every_image(&FORM_1, n, d) {
                let mut lists = vec![0; 4 * (2 * n * n + n + 3)];
                let length = independent::build_exceptions(&image, &mut vec![0; n], &mut lists).expect("an index that can be made") as usize;
                lists.truncate(length);
                compare::build_exceptions(&mut library, &image, n, length);
                let pairs: Vec<(u32, u32)> = (0..=n as u32).flat_map(|u| (0..=n as u32).map(move |v| (u, v))).collect();
                assert_eq!(compare::exceptions(&mut library, &image, &lists, n, &pairs, NUMBERS * pairs.len()), [0, 0]);
                for other in others.iter().rev().take(3) {
                    compare::exceptions(&mut library, &image, other, n, &pairs[..1], NUMBERS);
                }
                if others.last() != Some(&lists) {
                    others.push(lists);
                }
            }
        }
    }
}

#[test]
fn random_indexes_and_damaged_lists() {
    let (mut library, mut chance) = (Library::start(), Chance::new(88));
    for round in 0..300 {
        let n = chance.between(0, 40);
        let graph = chance.graph(Kind::ALL[round % Kind::ALL.len()], n);
        let d = chance.between(1, 5);
        let index = Index::of(&graph, &chance.orders(graph.n, d));
        let (image, lists) = (encode(&FORM_1, &index), index.exception_bytes());
        for (marks, size) in [(n, lists.len()), (n + 3, lists.len() + 5), (n, lists.len() - 1), (n.saturating_sub(1), lists.len())] {
            compare::build_exceptions(&mut library, &image, marks, size);
        }
        let pairs = some_pairs(&mut chance, graph.n, 60);
        let needed = NUMBERS * pairs.len();
        assert_eq!(compare::exceptions(&mut library, &image, &lists, n + 2, &pairs, needed + 4), [0, 0]);
        assert_eq!(compare::exceptions(&mut library, &image, &lists, n, &pairs, needed - 1), [0, 16]);
        for other in damaged(&mut chance, &lists) {
            assert_eq!(compare::exceptions(&mut library, &image, &other, n, &pairs[..2], 6), [20, 20]);
        }
        let again = chance.orders(graph.n, d);
        compare::exceptions(&mut library, &image, &Index::of(&graph, &again).exception_bytes(), n, &pairs[..2], 6);
    }
}

#[test]
fn refusals_before_the_lists_are_looked_at() {
    let (mut library, mut chance) = (Library::start(), Chance::new(89));
    for _ in 0..150 {
        let n = chance.between(1, 9);
        let graph = chance.any_graph(n);
        let d = chance.between(1, 3);
        let index = Index::of(&graph, &chance.orders(graph.n, d));
        let (image, lists) = (encode(&FORM_1, &index), index.exception_bytes());
        let pairs = [(0, 0), (0, graph.n as u32)];
        for bytes in [chance.any_damage(&image), encode(&FORM_2, &index), image[..image.len() - 1].to_vec(), image.clone()] {
            for marks in [graph.n, graph.n - 1, graph.n + 3] {
                compare::build_exceptions(&mut library, &bytes, marks, lists.len());
                compare::exceptions(&mut library, &bytes, &lists, marks, &pairs, 6);
                compare::exceptions(&mut library, &bytes, &lists[..lists.len() - 1], marks, &pairs, 5);
            }
        }
        let mut answers = [7; 6];
        for (sources, targets) in [(&[0, 0][..], &[0][..]), (&[0][..], &[0, 0][..])] {
            let got = library.ask_all_exceptions(&image, &lists, sources, targets, &mut vec![9; graph.n], &mut answers);
            assert_eq!(got.map_err(|refusal| refusal.number), Err(2));
            assert_eq!(answers, [7; 6]);
        }
    }
}

/// The lists of 512 vertices: longer than any that is judged pair by pair.
#[test]
fn five_hundred_vertices_of_every_kind() {
    let (mut library, mut chance) = (Library::start(), Chance::new(90));
    for kind in Kind::ALL {
        let graph = chance.graph(kind, 512);
        for d in [1, 2] {
            let index = Index::of(&graph, &chance.orders(graph.n, d));
            let (image, lists) = (encode(&FORM_1, &index), index.exception_bytes());
            compare::build_exceptions(&mut library, &image, graph.n, lists.len());
            let pairs = some_pairs(&mut chance, graph.n, 3);
            compare::exceptions(&mut library, &image, &lists, graph.n, &pairs, NUMBERS * pairs.len());
        }
    }
}
