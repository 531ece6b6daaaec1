//! The chain of a yes: its steps against plain search, the refusals in order, and what is left in lent memory.

use crate::given::{built, falling, g, lent_bytes, lent_words, refused, rising, words_for, WORD};
use independent::chance::{Chance, Kind};
use independent::closure::Closure;
use independent::{chain, Index, Refusal, ORDINARY};

/// The chain with so many marks, words and steps lent: what is said, and all that was lent.
fn chained(
    index: &[u8],
    source: u32,
    target: u32,
    marks: usize,
    words: usize,
    steps: usize,
) -> (Result<Option<u32>, Refusal>, Vec<u8>, Vec<u32>, Vec<u32>) {
    let (mut marks, mut words, mut steps) = (lent_bytes(marks), vec![WORD; words], lent_words(steps));
    let said = chain(index, source, target, &mut marks, &mut words, &mut steps);
    (said, marks, words, steps)
}

#[test]
fn the_chains_of_g() {
    let index = Index::of(&g(), &[rising(6)]);
    let told: [(usize, usize, Option<&[usize]>); 9] = [
        (0, 4, Some(&[0, 1, 4])),
        (3, 4, Some(&[3, 4])),
        (2, 4, Some(&[1, 4])),
        (0, 3, Some(&[0, 3])),
        (2, 1, Some(&[1])),
        (5, 5, Some(&[5])),
        (0, 5, None),
        (4, 0, None),
        (1, 3, None),
    ];
    for (source, target, told) in told {
        assert_eq!(
            index.chain(source, target),
            told.map(<[usize]>::to_vec),
            "{source} to {target}"
        );
    }
}

#[test]
fn each_step_is_the_lowest_child_that_reaches_the_target() {
    let mut chance = Chance::new(141);
    for round in 0..400 {
        let n = chance.between(1, 16);
        let graph = chance.graph(Kind::ALL[round % Kind::ALL.len()], n);
        let bytes = built(&chance.one_of(&ORDINARY), &graph, &chance.orders(n, 1));
        let needed = words_for(&bytes).len();
        let closure = Closure::of(&graph);
        let together = |u: usize, v: usize| closure.reaches(u, v) && closure.reaches(v, u);
        let name = |u: usize| (0..n).find(|&v| together(u, v)).unwrap();
        for (u, v) in (0..n).flat_map(|u| (0..n).map(move |v| (u, v))) {
            let mut told = vec![name(u)];
            while closure.reaches(u, v) && *told.last().unwrap() != name(v) {
                let from = *told.last().unwrap();
                let left = graph
                    .edges
                    .iter()
                    .filter(|&&(a, b)| together(from, a) && !together(from, b) && closure.reaches(b, v));
                told.push(left.map(|&(_, b)| name(b)).min().unwrap());
            }
            let (said, marks, words, steps) = chained(&bytes, u as u32, v as u32, n + 2, needed + 2, n + 2);
            let mut steps_told = lent_words(n + 2);
            if closure.reaches(u, v) {
                assert_eq!(said, Ok(Some(told.len() as u32)));
                for (slot, &name) in steps_told.iter_mut().zip(&told) {
                    *slot = name as u32;
                }
            } else {
                assert_eq!(said, Ok(None));
            }
            assert_eq!(steps, steps_told, "{u} to {v}: {graph:?}");
            assert_eq!(marks, [&vec![0; n], &lent_bytes(n + 2)[n..]].concat());
            assert_eq!(words, [vec![0; needed], vec![WORD; 2]].concat());
        }
    }
}

#[test]
fn a_no_needs_no_room() {
    for form in ORDINARY {
        let bytes = built(&form, &g(), &[rising(6)]);
        for steps in [0, 1, 5] {
            let (said, marks, words, left) = chained(&bytes, 4, 0, 6, words_for(&bytes).len(), steps);
            assert_eq!((said, left), (Ok(None), lent_words(steps)));
            assert!(marks.iter().all(|&mark| mark == 0) && words.iter().all(|&word| word == 0));
        }
    }
}

#[test]
fn the_first_refusal_due_is_given() {
    for form in ORDINARY {
        let good = built(&form, &g(), &[rising(6), falling(6)]);
        let needed = words_for(&good).len();
        let numbers: Vec<u32> = [10, 11, 12, 13, 6, 14, 15, 16]
            .into_iter()
            .filter(|&number| number != 6 || needed > 0)
            .collect();
        for due in 1_u32..1 << numbers.len() {
            let chosen: Vec<u32> = (0..numbers.len())
                .filter(|i| due >> i & 1 == 1)
                .map(|i| numbers[i])
                .collect();
            let (mut index, mut marks, mut words, mut target, mut steps) = (good.clone(), 9, needed + 1, 4, 3);
            for number in chosen.iter().rev() {
                match number {
                    10 => index.truncate(47),
                    11 => index[0] = 3,
                    12 => index[8] = 7,
                    13 => marks = 5,
                    6 => words = needed - 1,
                    14 => target = 6,
                    15 => *index.last_mut().unwrap() ^= 1,
                    _ => steps = 2,
                }
            }
            let extra = match chosen[0] {
                11 => 3,
                13 => 6,
                6 => needed as u32,
                14 => 1,
                16 => 3,
                _ => 0,
            };
            let (said, after, left, written) = chained(&index, 0, target, marks, words, steps);
            assert_eq!(said, refused(chosen[0], extra), "{chosen:?}");
            let (mut told, mut cleared) = (lent_bytes(marks), vec![WORD; words]);
            if [15, 16].contains(&chosen[0]) {
                told[..6].fill(0);
                cleared[..needed].fill(0);
            }
            assert_eq!((after, left, written), (told, cleared, lent_words(steps)), "{chosen:?}");
        }
    }
}
