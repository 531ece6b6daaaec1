//! Edges added between two builds: adding them, a question over both lists against plain search, the refusals in order, and what is left in lent memory.

use crate::given::{built, falling, g, lent_bytes, refused, rising, words_for, WORD};
use independent::chance::{Chance, Kind};
use independent::closure::Closure;
use independent::{add, ask_added, Added, Refusal, MOST_ADDED, ORDINARY};

/// A state with these edges, and 9 behind them.
fn with(edges: &[(u32, u32)]) -> Added {
    let (mut sources, mut targets) = ([9; MOST_ADDED], [9; MOST_ADDED]);
    for (i, &(u, v)) in edges.iter().enumerate() {
        (sources[i], targets[i]) = (u, v);
    }
    Added {
        sources,
        targets,
        count: edges.len() as u32,
    }
}

/// The question with so many marks and words lent: what is said, and all that was lent.
fn asked(
    index: &[u8],
    added: &Added,
    source: u32,
    target: u32,
    marks: usize,
    words: usize,
) -> (Result<bool, Refusal>, Vec<u8>, Vec<u32>) {
    let (mut marks, mut words) = (lent_bytes(marks), vec![WORD; words]);
    let said = ask_added(index, added, source, target, &mut marks, &mut words);
    (said, marks, words)
}

#[test]
fn an_edge_stands_at_the_old_count() {
    let mut state = with(&[(4, 3)]);
    assert_eq!(add(&mut state, 6, 3, 5), Ok(()));
    assert_eq!(state, with(&[(4, 3), (3, 5)]));
    for (from, to) in [(6, 0), (0, 6), (u32::MAX, 0)] {
        assert_eq!(add(&mut state, 6, from, to), refused(7, 0));
    }
    assert_eq!(state, with(&[(4, 3), (3, 5)]), "a refusal changes nothing");
}

#[test]
fn at_most_256_edges_are_added() {
    let mut state = with(&[]);
    for i in 0..MOST_ADDED as u32 {
        assert_eq!(add(&mut state, 300, i, i + 1), Ok(()));
    }
    for count in [256, 257, u32::MAX] {
        state.count = count;
        let before = state.clone();
        assert_eq!(add(&mut state, 300, 0, 300), refused(7, 0), "7 stands before 21");
        assert_eq!(add(&mut state, 300, 0, 1), refused(21, 0));
        assert_eq!(state, before);
    }
}

#[test]
fn yes_exactly_where_a_path_leads_over_both_lists() {
    let mut chance = Chance::new(101);
    for round in 0..300 {
        let n = chance.between(1, 16);
        let mut graph = chance.graph(Kind::ALL[round % Kind::ALL.len()], n);
        let bytes = built(&chance.one_of(&ORDINARY), &graph, &chance.orders(n, 1));
        let needed = words_for(&bytes).len();
        let edges: Vec<(usize, usize)> = (0..chance.below(6))
            .map(|_| (chance.below(n), chance.below(n)))
            .collect();
        let added = with(
            &edges
                .iter()
                .map(|&(u, v)| (u as u32, v as u32))
                .collect::<Vec<(u32, u32)>>(),
        );
        graph.edges.extend(&edges);
        let closure = Closure::of(&graph);
        for (u, v) in (0..n).flat_map(|u| (0..n).map(move |v| (u, v))) {
            let (said, marks, words) = asked(&bytes, &added, u as u32, v as u32, n + 2, needed + 2);
            assert_eq!(said, Ok(closure.reaches(u, v)), "{u} to {v}: {graph:?}");
            assert_eq!(marks, [&vec![0; n], &lent_bytes(n + 2)[n..]].concat());
            assert_eq!(words, [vec![0; needed], vec![WORD; 2]].concat());
        }
    }
}

#[test]
fn the_first_refusal_due_is_given() {
    for form in ORDINARY {
        let good = built(&form, &g(), &[rising(6), falling(6)]);
        let needed = words_for(&good).len();
        let numbers: Vec<u32> = [10, 11, 12, 13, 6, 14, 15, 21, 7]
            .into_iter()
            .filter(|&number| number != 6 || needed > 0)
            .collect();
        for due in 1_u32..1 << numbers.len() {
            let chosen: Vec<u32> = (0..numbers.len())
                .filter(|i| due >> i & 1 == 1)
                .map(|i| numbers[i])
                .collect();
            let (mut index, mut marks, mut words, mut target) = (good.clone(), 9, needed + 1, 4);
            let mut added = with(&[(0, 1), (1, 2), (4, 0)]);
            for number in chosen.iter().rev() {
                match number {
                    10 => index.truncate(47),
                    11 => index[0] = 3,
                    12 => index[8] = 7,
                    13 => marks = 5,
                    6 => words = needed - 1,
                    14 => target = 6,
                    15 => *index.last_mut().unwrap() ^= 1,
                    21 => added.count = 257,
                    _ => added.targets[1] = 6,
                }
            }
            let extra = match chosen[0] {
                11 => 3,
                13 => 6,
                6 => needed as u32,
                14 | 7 => 1,
                _ => 0,
            };
            let (said, after, left) = asked(&index, &added, 0, target, marks, words);
            assert_eq!(said, refused(chosen[0], extra), "{chosen:?}");
            let (mut told, mut cleared) = (lent_bytes(marks), vec![WORD; words]);
            if [15, 21, 7].contains(&chosen[0]) {
                told[..6].fill(0);
                cleared[..needed].fill(0);
            }
            assert_eq!((after, left), (told, cleared), "{chosen:?}");
        }
    }
}
