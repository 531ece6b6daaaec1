//! The chain of a yes beside the independent program, in both forms: every pair, lists that are longer than needed, exact and too short, refusals in order, marks, words and
//! the list after each; and the longest chains on a bounded stack.

use independent::chance::{Chance, Kind};
use independent::closure::Closure;
use independent::stored::{encode, image};
use independent::{Form, Graph, Index, Refusal, FORM_1, FORM_2, ORDINARY};
use outside::compare::{self, Lent};
use outside::Library;

/// The bytes of stack that any chain has to do with.
const STACK: u32 = 262_144;

#[test]
fn chains_of_every_pair_of_random_graphs() {
    let (mut library, mut chance) = (Library::start(), Chance::new(141));
    let mut longest = 0;
    for round in 0..140 {
        let n = chance.between(1, 14);
        let graph = chance.graph(Kind::ALL[round % Kind::ALL.len()], n);
        let d = chance.between(1, 3);
        let index = Index::of(&graph, &chance.orders(n, d));
        let closure = Closure::of(&graph);
        for form in ORDINARY {
            let bytes = encode(&form, &index);
            let needed = Lent::needed(&bytes);
            for (u, v) in (0..n).flat_map(|u| (0..n).map(move |v| (u, v))) {
                let mut into = |lent: Lent, size: usize| compare::chain(&mut library, &bytes, u as u32, v as u32, lent, size);
                let Some(steps) = index.chain(u, v).map(|chain| chain.len()) else {
                    assert!(!closure.reaches(u, v), "a no exactly where there is no path");
                    for (lent, size) in [(needed, 0), (needed.more(3, 2), 1), (needed, n)] {
                        assert_eq!(into(lent, size), Ok(None), "a no, whatever the list's length");
                    }
                    continue;
                };
                assert!(closure.reaches(u, v), "steps exactly where there is a path");
                longest = longest.max(steps);
                assert_eq!(into(needed.more(3, 2), steps + 2), Ok(Some(steps as u32)));
                assert_eq!(into(needed, steps), Ok(Some(steps as u32)));
                for short in [steps - 1, 0] {
                    assert_eq!(into(needed, short), Err(Refusal { number: 16, extra: steps as u32 }));
                }
            }
        }
    }
    assert!(longest > 10, "some chains are long: {longest}");
}

/// Every choice of things that are wrong at once, over a chain of three steps: the first refusal in the order of checking is given.
#[test]
fn the_first_refusal_due_is_given() {
    let mut library = Library::start();
    let g = Graph::new(6, &[(0, 1), (1, 2), (2, 1), (0, 3), (3, 4), (2, 4), (5, 5)]);
    for form in ORDINARY {
        let good = image(&form, &g, &[(0..6).collect(), (0..6).rev().collect()]);
        let needed = Lent::needed(&good);
        let numbers: Vec<u32> = [10, 11, 12, 13, 6, 14, 15, 16].into_iter().filter(|&number| number != 6 || form == FORM_2).collect();
        for (due, other_form, (source, target, end)) in (1..1_u32 << numbers.len()).flat_map(|due| [(due, 3, (6, 9, 0)), (due, 4, (0, 6, 1))]) {
            let wrong = |number: u32| numbers.iter().position(|&other| other == number).is_some_and(|i| due >> i & 1 == 1);
            let mut index = good.clone();
            if wrong(15) {
                *index.last_mut().unwrap() ^= 1;
            }
            if wrong(12) {
                index[8] = 7;
            }
            if wrong(11) {
                index[0] = other_form;
            }
            if wrong(10) {
                index.truncate(47);
            }
            let lent = Lent { marks: if wrong(13) { 5 } else { 8 }, words: if wrong(6) { needed.words - 1 } else { needed.words + 1 } };
            let (source, target) = if wrong(14) { (source, target) } else { (0, 4) };
            let first = numbers.iter().copied().find(|&number| wrong(number)).unwrap();
            let extra = match first {
                11 => u32::from(other_form),
                13 => 6,
                6 => needed.words as u32,
                14 => end,
                16 => 3,
                _ => 0,
            };
            let said = compare::chain(&mut library, &index, source, target, lent, if wrong(16) { 2 } else { 3 });
            assert_eq!(said, Err(Refusal { number: first, extra }), "form {}, {due:b}", form.number);
        }
    }
}

#[test]
fn damage_short_memory_and_vertices_out_of_range_are_refused() {
    let (mut library, mut chance) = (Library::start(), Chance::new(142));
    let mut met = std::collections::BTreeSet::new();
    for _ in 0..300 {
        let n = chance.between(0, 14);
        let graph = chance.any_graph(n);
        let d = chance.between(1, 3);
        let index = Index::of(&graph, &chance.orders(n, d));
        for form in ORDINARY {
            let bytes = encode(&form, &index);
            for image in [chance.any_damage(&bytes), chance.any_damage(&bytes), bytes] {
                for lent in Lent::around(&image) {
                    let [u, v] = [0; 2].map(|_| chance.below(n + 1) as u32);
                    let (v, size) = (chance.one_of(&[v, v, u32::MAX]), chance.below(4));
                    met.insert(compare::chain(&mut library, &image, u, v, lent, size).map_or_else(|refusal| refusal.number, |_| 0));
                }
            }
        }
    }
    assert_eq!(met, [0, 6, 10, 11, 12, 13, 14, 15, 16].into(), "the refusals met");
}

/// Half of the vertices in a line, each of which leads to one of the others too, of a lower number, that leads nowhere: the lowest child never reaches the target.
fn line_with_dead_ends(n: usize) -> Graph {
    let half = n / 2;
    Graph { n, edges: (half..n).map(|v| (v, v - half)).chain((half + 1..n).map(|v| (v - 1, v))).collect() }
}

/// A chain on the bounded stack: these steps into a list that is longer, exact and one short, with marks and words at 0 after each and what is behind them kept.
fn on_the_stack(form: &Form, graph: &Graph, source: usize, target: usize, told: &[u32]) {
    let mut library = Library::start();
    library.stack = STACK;
    let n = graph.n;
    let bytes = image(form, graph, &[(0..n).collect()]);
    let needed = Lent::needed(&bytes).words;
    for (size, said) in [
        (told.len() + 1, Ok(Some(told.len() as u32))),
        (told.len(), Ok(Some(told.len() as u32))),
        (told.len() - 1, Err(Refusal { number: 16, extra: told.len() as u32 })),
    ] {
        let (mut marks, mut words, mut steps) = (vec![7; n + 1], vec![7; needed + 1], vec![7; size]);
        assert_eq!(library.chain(&bytes, source as u32, target as u32, &mut marks, &mut words, &mut steps), said);
        assert!(marks.pop() == Some(7) && marks.iter().all(|&mark| mark == 0), "marks");
        assert!(words.pop() == Some(7) && words.iter().all(|&word| word == 0), "words");
        let written = if said.is_ok() { told.len() } else { 0 };
        assert!(steps[..written] == told[..written] && steps[written..].iter().all(|&step| step == 7), "the steps");
    }
    let mut steps = [7; 2];
    let no = library.chain(&bytes, target as u32, source as u32, &mut vec![7; n], &mut vec![7; needed], &mut steps);
    assert_eq!((no, steps), (Ok(None), [7; 2]), "back there is no chain");
}

#[test]
fn the_longest_chains_on_a_bounded_stack() {
    for (form, n) in [(FORM_1, FORM_1.most_vertices), (FORM_2, FORM_1.most_vertices), (FORM_2, FORM_2.most_vertices)] {
        let line = Graph { n, edges: (1..n).map(|v| (v - 1, v)).collect() };
        on_the_stack(&form, &line, 0, n - 1, &(0..n as u32).collect::<Vec<u32>>());
        on_the_stack(&form, &line.turned(), n - 1, 0, &(0..n as u32).rev().collect::<Vec<u32>>());
        let half = n / 2;
        on_the_stack(&form, &line_with_dead_ends(n), half, n - 1, &(half as u32..n as u32).collect::<Vec<u32>>());
    }
}
