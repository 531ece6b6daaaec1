//! A form 1 index turned into form 2 and back: the same bytes, the refusals in order, and what is left in lent memory.

use crate::given::{built, falling, g, lent_bytes, refused, rising, words_for, WORD};
use independent::chance::{Chance, Damage, Kind};
use independent::{convert_down, convert_up, Counts, Form, Graph, Index, Refusal, FORM_1, FORM_2};

/// Converts an index of a form to the other, with so many marks, words and bytes lent: what is said, and all that was lent.
fn converted(
    from: &Form,
    index: &[u8],
    marks: usize,
    words: usize,
    out: usize,
) -> (Result<u32, Refusal>, Vec<u8>, Vec<u32>, Vec<u8>) {
    let (mut marks, mut words, mut out) = (lent_bytes(marks), vec![WORD; words], lent_bytes(out));
    let said = if *from == FORM_1 {
        convert_up(index, &mut marks, &mut out)
    } else {
        convert_down(index, &mut marks, &mut words, &mut out)
    };
    (said, marks, words, out)
}

/// The other form of an index, in exact memory.
fn other(from: &Form, index: &[u8]) -> Vec<u8> {
    let (said, _, _, mut out) = converted(from, index, 300, 9_000, 60_000);
    out.truncate(said.unwrap() as usize);
    out
}

#[test]
fn there_and_back_gives_the_same_bytes() {
    let mut chance = Chance::new(91);
    for round in 0..600 {
        let n = chance.between(0, 30);
        let graph = chance.graph(Kind::ALL[round % Kind::ALL.len()], n);
        let d = chance.between(1, 5);
        let orders = chance.orders(n, d);
        let [of_1, of_2] = [FORM_1, FORM_2].map(|form| built(&form, &graph, &orders));
        assert_eq!(other(&FORM_1, &of_1), of_2);
        assert_eq!(other(&FORM_2, &of_2), of_1);
    }
}

#[test]
fn marks_and_words_are_0_and_the_output_behind_is_kept() {
    let orders = [rising(6), falling(6)];
    for (from, to) in [(FORM_1, FORM_2), (FORM_2, FORM_1)] {
        let (index, told) = (built(&from, &g(), &orders), built(&to, &g(), &orders));
        let needed = words_for(&index).len();
        let (said, marks, words, out) = converted(&from, &index, 8, needed + 2, told.len() + 3);
        assert_eq!(said, Ok(told.len() as u32));
        assert_eq!(marks, [&[0; 6][..], &lent_bytes(8)[6..]].concat());
        assert_eq!(words, [vec![0; needed], vec![WORD; 2]].concat());
        assert_eq!(out, [&told[..], &lent_bytes(told.len() + 3)[told.len()..]].concat());
    }
}

#[test]
fn the_first_refusal_due_is_given() {
    let orders = [rising(6), falling(6)];
    for (from, to) in [(FORM_1, FORM_2), (FORM_2, FORM_1)] {
        let (good, total) = (built(&from, &g(), &orders), built(&to, &g(), &orders).len());
        let needed = words_for(&good).len();
        // 19 has its own test: it needs an index that is too large.
        let numbers: &[u32] = if from == FORM_1 {
            &[10, 11, 12, 13, 15, 9]
        } else {
            &[10, 11, 12, 13, 6, 15, 9]
        };
        for due in 1_u32..1 << numbers.len() {
            let chosen: Vec<u32> = (0..numbers.len())
                .filter(|i| due >> i & 1 == 1)
                .map(|i| numbers[i])
                .collect();
            let (mut index, mut marks, mut words, mut out) = (good.clone(), 9, needed + 1, total);
            for number in chosen.iter().rev() {
                match number {
                    10 => index.truncate(47),
                    11 => index[0] = to.number as u8,
                    12 => index[8] = 7,
                    13 => marks = 5,
                    6 => words = needed - 1,
                    15 => *index.last_mut().unwrap() ^= 1,
                    _ => out = total - 1,
                }
            }
            let extra = match chosen[0] {
                11 => to.number,
                13 => 6,
                6 => needed as u32,
                9 => total as u32,
                _ => 0,
            };
            let (said, after, left, written) = converted(&from, &index, marks, words, out);
            assert_eq!(said, refused(chosen[0], extra), "{chosen:?}");
            let (mut told, mut cleared) = (lent_bytes(marks), vec![WORD; words]);
            if [15, 9].contains(&chosen[0]) {
                told[..6].fill(0);
                cleared[..needed].fill(0);
            }
            assert_eq!((after, left, written), (told, cleared, lent_bytes(out)), "{chosen:?}");
        }
    }
}

#[test]
fn what_is_beyond_form_1_is_refused_with_19_before_9() {
    // 91 x 180 child entries are 16,380.
    let sides = |more: usize| -> Graph {
        let mut edges: Vec<(usize, usize)> = (0..91).flat_map(|u| (100..280).map(move |v| (u, v))).collect();
        edges.extend((0..more).map(|v| (91, 100 + v)));
        Graph::new(300, &edges)
    };
    let line = |n: usize| Graph::new(n, &(1..n).map(|v| (v - 1, v)).collect::<Vec<_>>());
    let cycle = |n: usize| Graph::new(n, &(0..n).map(|v| (v, (v + 1) % n)).collect::<Vec<_>>());
    for (graph, fits) in [
        (sides(4), true),
        (sides(5), false),
        (line(4_096), true),
        (line(4_097), false),
        (cycle(4_096), true),
        (cycle(4_097), false),
    ] {
        let n = graph.n;
        let index = built(&FORM_2, &graph, &[rising(n)]);
        let Counts { k, c, .. } = Counts::of(&Index::of(&graph, &[rising(n)]));
        assert_eq!(n <= 4_096 && k <= 4_096 && c <= 16_384, fits);
        let needed = words_for(&index).len();
        for room in [0, 200_000] {
            let (said, marks, words, out) = converted(&FORM_2, &index, n, needed, room);
            match (fits, room) {
                (false, _) => assert_eq!(said, refused(19, 0)),
                (true, 0) => assert_eq!(said.unwrap_err().number, 9),
                (true, _) => assert_eq!(out[..said.unwrap() as usize], built(&FORM_1, &graph, &[rising(n)])),
            }
            assert!(marks.iter().all(|&mark| mark == 0) && words.iter().all(|&word| word == 0));
            assert!(said.is_ok() || out == lent_bytes(room));
        }
    }
}

#[test]
fn damaged_images_are_refused_as_by_opening() {
    let mut chance = Chance::new(92);
    for round in 0..4_000 {
        let n = chance.between(0, 12);
        let graph = chance.any_graph(n);
        let from = [FORM_1, FORM_2][round % 2];
        let image = built(&from, &graph, &chance.orders(n, 1));
        let damaged = chance.damage(Damage::ALL[round % Damage::ALL.len()], &image);
        let said = converted(&from, &damaged, 20, 600, 2_000).0;
        let opened = independent::open(&damaged, &mut [0; 20], &mut [0; 600]);
        let of_the_form = damaged
            .get(..4)
            .is_some_and(|number| number == from.number.to_le_bytes());
        if of_the_form {
            assert_eq!(said.err(), opened.err());
        } else {
            assert!(said.is_err_and(|refusal| [10, 11].contains(&refusal.number)));
        }
    }
}
