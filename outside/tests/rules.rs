//! The rule desk's table beside the independent program, in both forms and by both calls, over records and over parallel lists: random tables and changed vertices, one
//! changed vertex at a time, refusals in order, and marks, words and table after each.

use independent::chance::{Chance, Kind};
use independent::closure::Closure;
use independent::rules::{FRESH, SUSPECT, UNKNOWN};
use independent::stored::{encode, image};
use independent::{Graph, Index, Refusal, Rule, FORM_1, FORM_2, FORM_3, ORDINARY};
use outside::compare::{self, Lent};
use outside::inputs::table;
use outside::Library;

/// The bytes of stack that any call has to do with.
const STACK: u32 = 16_384;

/// The states in the document's words, by plain search.
fn told(closure: &Closure, changed: &[u32], table: &[Rule]) -> Vec<Rule> {
    let state = |record: &Rule| match record.vertex as usize {
        vertex if vertex >= closure.size() => UNKNOWN,
        vertex if changed.iter().any(|&from| closure.reaches(from as usize, vertex)) => SUSPECT,
        _ => record.state,
    };
    table.iter().map(|record| Rule { state: state(record), ..*record }).collect()
}

/// Lists of changed vertices: none, one, a few with repeats, all in some order.
fn lists(chance: &mut Chance, n: usize) -> [Vec<u32>; 4] {
    let mut some = |count: usize| (0..if n == 0 { 0 } else { count }).map(|_| chance.below(n) as u32).collect::<Vec<u32>>();
    let (one, few) = (some(1), some(3));
    let repeats = few.iter().chain(&one).chain(&few).copied().collect();
    [vec![], one, repeats, chance.order(n).into_iter().map(|v| v as u32).collect()]
}

#[test]
fn random_tables_and_changed_lists() {
    let (mut library, mut chance) = (Library::start(), Chance::new(111));
    let mut met = std::collections::BTreeSet::new();
    for round in 0..400 {
        let n = chance.between(0, 24);
        let graph = chance.graph(Kind::ALL[round % Kind::ALL.len()], n);
        let d = chance.between(1, 3);
        let index = Index::of(&graph, &chance.orders(n, d));
        let closure = Closure::of(&graph);
        for form in ORDINARY {
            let bytes = encode(&form, &index);
            let needed = Lent::needed(&bytes);
            for changed in lists(&mut chance, n) {
                for (lent, records) in [(needed.more(3, 2), chance.below(60)), (needed, chance.below(3))] {
                    let before = table(&mut chance, n, records);
                    let mut after = before.clone();
                    assert_eq!(compare::rules(&mut library, &bytes, &changed, lent, &mut after), Ok(()));
                    assert_eq!(after, told(&closure, &changed, &before), "by {changed:?} of {graph:?}");
                    met.extend(before.iter().zip(&after).map(|(before, after)| (before.state.min(3), after.state.min(3))));
                }
            }
        }
    }
    let turns: Vec<(u32, u32)> = (0..4).flat_map(|from| (0..4).map(move |to| (from, to))).filter(|&(from, to)| from == to || to == SUSPECT || to == UNKNOWN).collect();
    assert_eq!(met.into_iter().collect::<Vec<_>>(), turns, "every state is kept somewhere, and turned to suspect and to unknown, and to nothing else");
}

/// With no changed vertex only records out of range are turned, and a table of no record is settled.
#[test]
fn no_changed_vertex_and_no_record() {
    let (mut library, mut chance) = (Library::start(), Chance::new(112));
    for form in ORDINARY {
        let graph = chance.graph(Kind::Cycles, 9);
        let bytes = image(&form, &graph, &chance.orders(9, 2));
        for lent in [Lent::needed(&bytes), Lent::needed(&bytes).more(1, 1)] {
            for state in [FRESH, SUSPECT, UNKNOWN, 3, 255, 256, u32::MAX] {
                let before: Vec<Rule> = [0, 4, 8, 9, 10, u32::MAX].map(|vertex| Rule { rule: 7, vertex, state }).to_vec();
                let mut after = before.clone();
                assert_eq!(compare::rules(&mut library, &bytes, &[], lent, &mut after), Ok(()));
                assert_eq!(after[..3], before[..3], "in range: kept");
                assert!(after[3..].iter().all(|record| record.state == UNKNOWN), "n itself is out of range");
            }
            assert_eq!(compare::rules(&mut library, &bytes, &[8, 0, 8], lent, &mut []), Ok(()));
        }
    }
}

#[test]
fn one_at_a_time_in_any_order_is_all_at_once() {
    let (mut library, mut chance) = (Library::start(), Chance::new(113));
    for round in 0..150 {
        let n = chance.between(1, 24);
        let graph = chance.graph(Kind::ALL[round % Kind::ALL.len()], n);
        let index = Index::of(&graph, &chance.orders(n, 2));
        let before = table(&mut chance, n, 40);
        let mut changed: Vec<u32> = (0..chance.between(1, 6)).map(|_| chance.below(n) as u32).collect();
        for form in ORDINARY {
            let bytes = encode(&form, &index);
            let lent = Lent::needed(&bytes);
            let mut at_once = before.clone();
            assert_eq!(compare::rules(&mut library, &bytes, &changed, lent, &mut at_once), Ok(()));
            for _ in 0..3 {
                chance.shuffle(&mut changed);
                let mut after = before.clone();
                for &vertex in &changed {
                    assert_eq!(compare::rules(&mut library, &bytes, &[vertex], lent, &mut after), Ok(()));
                }
                assert_eq!(after, at_once, "{changed:?} one at a time");
            }
        }
    }
}

/// Parallel lists of different lengths are settled as far as both go.
#[test]
fn lists_of_different_lengths() {
    let (mut library, mut chance) = (Library::start(), Chance::new(114));
    for form in ORDINARY {
        let graph = chance.graph(Kind::Cycles, 12);
        let bytes = image(&form, &graph, &chance.orders(12, 1));
        let closure = Closure::of(&graph);
        let Lent { marks, words } = Lent::needed(&bytes);
        for (vertices, states) in [(0, 0), (0, 5), (5, 0), (6, 9), (9, 6), (7, 7)] {
            let before = table(&mut chance, 12, vertices.max(states));
            let after = told(&closure, &[3, 7], &before);
            let list: Vec<u32> = before[..vertices].iter().map(|record| record.vertex).collect();
            let mut got: Vec<u32> = before[..states].iter().map(|record| record.state).collect();
            assert_eq!(library.settle_lists(&bytes, &[3, 7], &mut vec![7; marks], &mut vec![7; words], &list, &mut got), Ok(()));
            let both = vertices.min(states);
            assert!(got[..both].iter().eq(after[..both].iter().map(|record| &record.state)), "as far as both go");
            assert!(got[both..].iter().eq(before[both..states].iter().map(|record| &record.state)), "the states behind are kept");
        }
    }
}

/// Every choice of things that are wrong at once: the first refusal in the order of checking is given, and the table is as it was.
#[test]
fn the_first_refusal_due_is_given() {
    let mut library = Library::start();
    let g = Graph::new(6, &[(0, 1), (1, 2), (2, 1), (0, 3), (3, 4), (2, 4), (5, 5)]);
    let table: Vec<Rule> = [(0, FRESH), (4, 9), (6, FRESH), (5, SUSPECT), (u32::MAX, UNKNOWN)].map(|(vertex, state)| Rule { rule: 1, vertex, state }).to_vec();
    for form in ORDINARY {
        let good = image(&form, &g, &[(0..6).collect(), (0..6).rev().collect()]);
        let needed = Lent::needed(&good);
        let numbers: Vec<u32> = [10, 11, 12, 13, 6, 14, 15].into_iter().filter(|&number| number != 6 || form == FORM_2).collect();
        let changed: [(u8, &[u32], u32); 3] = [(3, &[6], 0), (4, &[0, 0, 6, u32::MAX], 2), (0, &[5, u32::MAX, 6], 1)];
        for (due, (other_form, out_of_range, position)) in (1..1_u32 << numbers.len()).flat_map(|due| changed.map(|changed| (due, changed))) {
            let wrong = |number: u32| numbers.iter().position(|&other| other == number).is_some_and(|i| due >> i & 1 == 1);
            let mut index = good.clone();
            if wrong(15) {
                *index.last_mut().unwrap() ^= 1;
            }
            if wrong(12) {
                index[8] = 7;
            }
            if wrong(11) {
                index[0] = other_form;
            }
            if wrong(10) {
                index.truncate(47);
            }
            let lent = Lent { marks: if wrong(13) { 5 } else { 8 }, words: if wrong(6) { needed.words - 1 } else { needed.words + 1 } };
            let first = numbers.iter().copied().find(|&number| wrong(number)).unwrap();
            let extra = match first {
                11 => u32::from(other_form),
                13 => 6,
                6 => needed.words as u32,
                14 => position,
                _ => 0,
            };
            let mut after = table.clone();
            let said = compare::rules(&mut library, &index, if wrong(14) { out_of_range } else { &[0, 5, 5] }, lent, &mut after);
            assert_eq!(said, Err(Refusal { number: first, extra }), "form {}, {due:b}", form.number);
            assert_eq!(after, table, "a refusal alters no record");
        }
    }
}

#[test]
fn damage_short_memory_and_vertices_out_of_range_are_refused() {
    let (mut library, mut chance) = (Library::start(), Chance::new(115));
    let mut met = std::collections::BTreeSet::new();
    for _ in 0..300 {
        let n = chance.between(0, 14);
        let graph = chance.any_graph(n);
        let d = chance.between(1, 3);
        let index = Index::of(&graph, &chance.orders(n, d));
        for form in [FORM_1, FORM_2, FORM_3] {
            let bytes = encode(&form, &index);
            for image in [chance.any_damage(&bytes), chance.any_damage(&bytes), bytes] {
                for lent in Lent::around(&image) {
                    let most = if chance.coin() { n.max(1) } else { n + 1 };
                    let changed: Vec<u32> = (0..chance.below(6)).map(|_| chance.below(most) as u32).collect();
                    let before = table(&mut chance, n, 8);
                    let mut after = before.clone();
                    let said = compare::rules(&mut library, &image, &changed, lent, &mut after);
                    assert!(said.is_ok() || after == before, "a refusal alters no record");
                    met.insert(said.map_or_else(|refusal| refusal.number, |()| 0));
                }
            }
        }
    }
    assert_eq!(met, [0, 6, 10, 11, 12, 13, 14, 15].into(), "the refusals met");
}

/// The largest lines in exact memory on a small stack: all that is behind a changed vertex is suspect; marks and words are 0 afterwards.
#[test]
fn the_longest_lines_on_a_small_stack() {
    for (form, n) in [(FORM_1, FORM_1.most_vertices), (FORM_2, FORM_2.most_vertices)] {
        let mut library = Library::start();
        library.stack = STACK;
        let line = Graph { n, edges: (1..n).map(|v| (v - 1, v)).collect() };
        let bytes = image(&form, &line, &[(0..n).collect()]);
        let needed = Lent::needed(&bytes);
        let last = n as u32 - 1;
        let before: Vec<Rule> = (0..=n as u32).map(|vertex| Rule { rule: !vertex, vertex, state: vertex % 5 }).collect();
        let all: Vec<u32> = (0..n as u32).rev().collect();
        let cases: [(&[u32], u32); 5] = [(&[], n as u32), (&[last], last), (&[last, last / 2, last], last / 2), (&[0], 0), (&all, 0)];
        for (changed, first) in cases {
            let state = |record: &Rule| if record.vertex > last { UNKNOWN } else if record.vertex >= first { SUSPECT } else { record.state };
            let told: Vec<Rule> = before.iter().map(|record| Rule { state: state(record), ..*record }).collect();
            let (mut marks, mut words, mut after) = (vec![7; needed.marks], vec![7; needed.words], before.clone());
            assert_eq!(library.settle_rules(&bytes, changed, &mut marks, &mut words, &mut after), Ok(()));
            assert!(after == told, "the records");
            assert!(marks.iter().all(|&mark| mark == 0) && words.iter().all(|&word| word == 0), "marks and words");
            let (vertices, mut states): (Vec<u32>, Vec<u32>) = before.iter().map(|record| (record.vertex, record.state)).unzip();
            marks.fill(7);
            words.fill(7);
            assert_eq!(library.settle_lists(&bytes, changed, &mut marks, &mut words, &vertices, &mut states), Ok(()));
            assert!(states.iter().eq(told.iter().map(|record| &record.state)), "the states");
            assert!(marks.iter().all(|&mark| mark == 0) && words.iter().all(|&word| word == 0), "marks and words");
        }
    }
}
