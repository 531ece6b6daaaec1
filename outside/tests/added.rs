//! Edges added between two builds, beside the independent program, in both forms: adding them, and questions over an index and the added edges, beside plain search over
//! both lists; loops closed, climbs of 256 edges, junk behind the count, refusals in order, marks and words after each; all on a small stack.

use independent::chance::{Chance, Kind};
use independent::closure::Closure;
use independent::stored::{encode, image};
use independent::{Added, Graph, Index, Refusal, FORM_1, FORM_2, MOST_ADDED, ORDINARY};
use outside::compare::{self, Lent};
use outside::{inputs, Library};

/// The bytes of stack that a question over added edges has to do with.
const STACK: u32 = 16_384;

/// The graph with these edges too.
fn with(graph: &Graph, edges: &[(usize, usize)]) -> Graph {
    Graph { n: graph.n, edges: graph.edges.iter().chain(edges).copied().collect() }
}

#[test]
fn every_pair_of_random_graphs_and_added_edges() {
    let (mut library, mut chance) = (Library::start(), Chance::new(1001));
    library.stack = STACK;
    let (mut more, mut loops) = (0, 0);
    for round in 0..200 {
        let n = chance.between(1, 14);
        let graph = chance.graph(Kind::ALL[round % Kind::ALL.len()], n);
        let d = chance.between(1, 3);
        let index = Index::of(&graph, &chance.orders(n, d));
        let count = chance.one_of(&[0, 1, 2, 3, 5, 8]);
        let edges: Vec<(usize, usize)> = (0..count).map(|_| (chance.below(n), chance.below(n))).collect();
        let added = inputs::added(&mut chance, n, &edges);
        let (before, all) = (Closure::of(&graph), with(&graph, &edges));
        let after = Closure::of(&all);
        let fresh = Index::of(&all, &chance.orders(n, 1));
        for form in ORDINARY {
            let bytes = encode(&form, &index);
            for (u, v) in (0..n).flat_map(|u| (0..n).map(move |v| (u, v))) {
                let lent = chance.one_of(&[Lent::needed(&bytes), Lent::needed(&bytes).more(3, 2)]);
                let said = compare::ask_added(&mut library, &bytes, &added, u as u32, v as u32, lent);
                assert_eq!(said, Ok(after.reaches(u, v)), "a path over both lists, {u} to {v}");
                assert_eq!(said, Ok(fresh.question(u, v).answer.yes), "a fresh index over them all");
                more += usize::from(after.reaches(u, v) && !before.reaches(u, v));
                loops += usize::from(u != v && after.reaches(u, v) && after.reaches(v, u) && !(before.reaches(u, v) && before.reaches(v, u)));
            }
        }
    }
    assert!(more > 1_000 && loops > 500, "added edges open ways, {more}, and close loops, {loops}");
}

#[test]
fn without_added_edges_it_is_the_question() {
    let (mut library, mut chance) = (Library::start(), Chance::new(1002));
    for _ in 0..60 {
        let n = chance.between(1, 10);
        let graph = chance.any_graph(n);
        let index = Index::of(&graph, &chance.orders(n, 2));
        for form in ORDINARY {
            let bytes = encode(&form, &index);
            let none = inputs::added(&mut chance, n, &[]);
            for (u, v) in (0..n).flat_map(|u| (0..n).map(move |v| (u, v))) {
                let said = compare::ask_added(&mut library, &bytes, &none, u as u32, v as u32, Lent::needed(&bytes));
                assert_eq!(said, Ok(index.question(u, v).answer.yes));
            }
        }
    }
}

/// Lines of `run` vertices each, without an edge from line to line.
fn lines(count: usize, run: usize) -> Graph {
    let edges = (0..count * run).filter(|v| v % run != 0).map(|v| (v - 1, v)).collect();
    Graph { n: count * run, edges }
}

/// 256 added edges, from the foot of each line to the head of the next, in an order where each opens the next from behind: a round finds one.
#[test]
fn a_climb_of_256_added_edges() {
    let mut chance = Chance::new(1003);
    for (form, run) in [(FORM_1, 15), (FORM_2, 15), (FORM_2, 389)] {
        let mut library = Library::start();
        library.stack = STACK;
        let (graph, lines) = (lines(MOST_ADDED + 1, run), MOST_ADDED + 1);
        let n = graph.n;
        let bytes = image(&form, &graph, &[(0..n).collect()]);
        let mut edges: Vec<(usize, usize)> = (1..lines).map(|i| (i * run - 1, i * run)).collect();
        edges.reverse();
        let added = inputs::added(&mut chance, n, &edges);
        for (u, v, yes) in [(0, n - 1, true), (1, n - 1, true), (n - 1, 0, false), (run, 0, false), (run, n - run, true), (n - 1, n - 1, true)] {
            let said = compare::ask_added(&mut library, &bytes, &added, u as u32, v as u32, Lent::needed(&bytes).more(1, 1));
            assert_eq!(said, Ok(yes), "{u} to {v}");
        }
        // without the last of them, which leads out of the first line, nothing leads out of it
        let short = Added { count: MOST_ADDED as u32 - 1, ..added.clone() };
        assert_eq!(compare::ask_added(&mut library, &bytes, &short, 0, run as u32, Lent::needed(&bytes)), Ok(false), "what stands behind the count is not looked at");
        // the first of them, which leads to the last line, leads back instead
        let mut closed = added.clone();
        (closed.sources[0], closed.targets[0]) = (n as u32 - 1 - run as u32, 0);
        assert_eq!(compare::ask_added(&mut library, &bytes, &closed, n as u32 - 1 - run as u32, run as u32, Lent::needed(&bytes)), Ok(true), "round a loop");
    }
}

/// Every choice of things that are wrong at once: the first refusal in the order of checking is given.
#[test]
fn the_first_refusal_due_is_given() {
    let (mut library, mut chance) = (Library::start(), Chance::new(1004));
    let g = Graph::new(6, &[(0, 1), (1, 2), (2, 1), (0, 3), (3, 4), (2, 4), (5, 5)]);
    for form in ORDINARY {
        let good = image(&form, &g, &[(0..6).collect(), (0..6).rev().collect()]);
        let needed = Lent::needed(&good);
        let numbers: Vec<u32> = [10, 11, 12, 13, 6, 14, 15, 21, 7].into_iter().filter(|&number| number != 6 || form == FORM_2).collect();
        for (due, other_form, (source, target, end)) in (1..1_u32 << numbers.len()).flat_map(|due| [(due, 3, (6, 9, 0)), (due, 4, (0, 6, 1))]) {
            let wrong = |number: u32| numbers.iter().position(|&other| other == number).is_some_and(|i| due >> i & 1 == 1);
            let mut index = good.clone();
            if wrong(15) {
                *index.last_mut().unwrap() ^= 1;
            }
            if wrong(12) {
                index[8] = 7;
            }
            if wrong(11) {
                index[0] = other_form;
            }
            if wrong(10) {
                index.truncate(47);
            }
            let mut added = inputs::added(&mut chance, 6, &[(4, 3), (3, 5), (5, 0)]);
            if wrong(7) {
                (added.sources[1], added.targets[2]) = (6, u32::MAX);
            }
            if wrong(21) {
                added.count = chance.one_of(&[257, 300, u32::MAX]);
            }
            let lent = Lent { marks: if wrong(13) { 5 } else { 8 }, words: if wrong(6) { needed.words - 1 } else { needed.words + 1 } };
            let (source, target) = if wrong(14) { (source, target) } else { (0, 4) };
            let first = numbers.iter().copied().find(|&number| wrong(number)).unwrap();
            let extra = match first {
                11 => u32::from(other_form),
                13 => 6,
                6 => needed.words as u32,
                14 => end,
                7 => 1,
                _ => 0,
            };
            let said = compare::ask_added(&mut library, &index, &added, source, target, lent);
            assert_eq!(said, Err(Refusal { number: first, extra }), "form {}, {due:b}", form.number);
        }
    }
}

#[test]
fn damage_short_memory_and_bad_edges_are_refused() {
    let (mut library, mut chance) = (Library::start(), Chance::new(1005));
    let mut met = std::collections::BTreeSet::new();
    for _ in 0..300 {
        let n = chance.between(0, 14);
        let graph = chance.any_graph(n);
        let d = chance.between(1, 3);
        let index = Index::of(&graph, &chance.orders(n, d));
        for form in ORDINARY {
            let bytes = encode(&form, &index);
            for image in [chance.any_damage(&bytes), chance.any_damage(&bytes), bytes] {
                for lent in Lent::around(&image) {
                    let [u, v] = [0; 2].map(|_| chance.below(n + 1) as u32);
                    let edges: Vec<(usize, usize)> = (0..chance.below(4)).map(|_| (chance.below(n + 1), chance.below(n + 1))).collect();
                    let mut added = inputs::added(&mut chance, n, &edges);
                    if chance.below(8) == 0 {
                        added.count = chance.one_of(&[257, u32::MAX]);
                    }
                    met.insert(compare::ask_added(&mut library, &image, &added, u, v, lent).map_or_else(|refusal| refusal.number, |_| 0));
                }
            }
        }
    }
    assert_eq!(met, [0, 6, 7, 10, 11, 12, 13, 14, 15, 21].into(), "the refusals met");
}

/// From none to 256: each is taken, and the next is refused; an end that is no vertex is refused before that, and nothing changes.
#[test]
fn adding_until_256_stand() {
    let (mut library, mut chance) = (Library::start(), Chance::new(1006));
    for n in [1, 6, 4_096, 200_000] {
        let mut added = inputs::added(&mut chance, n, &[]);
        for count in 0..MOST_ADDED as u32 {
            let [u, v] = [0; 2].map(|_| chance.below(n) as u32);
            for (from, to) in [(n as u32, v), (u, n as u32), (u32::MAX, u32::MAX)] {
                assert_eq!(compare::add(&mut library, &mut added, n as u32, from, to), Err(Refusal { number: 7, extra: 0 }));
            }
            assert_eq!(compare::add(&mut library, &mut added, n as u32, u, v), Ok(()));
            assert_eq!((added.count, added.sources[count as usize], added.targets[count as usize]), (count + 1, u, v));
        }
        for count in [256, 257, u32::MAX] {
            added.count = count;
            assert_eq!(compare::add(&mut library, &mut added, n as u32, 0, 0), Err(Refusal { number: 21, extra: 0 }));
            assert_eq!(compare::add(&mut library, &mut added, n as u32, 0, n as u32), Err(Refusal { number: 7, extra: 0 }));
            assert_eq!(added.count, count);
        }
    }
    let mut none = inputs::added(&mut chance, 0, &[]);
    assert_eq!(compare::add(&mut library, &mut none, 0, 0, 0), Err(Refusal { number: 7, extra: 0 }), "without vertices there is no edge");
}

/// A state made by adding one edge after another, asked after each.
#[test]
fn a_day_of_corrections() {
    let (mut library, mut chance) = (Library::start(), Chance::new(1007));
    for form in ORDINARY {
        let n = 40;
        let mut graph = chance.graph(Kind::Dag, n);
        let bytes = image(&form, &graph, &chance.orders(n, 2));
        let mut added = inputs::added(&mut chance, n, &[]);
        for _ in 0..60 {
            let (from, to) = (chance.below(n), chance.below(n));
            assert_eq!(compare::add(&mut library, &mut added, n as u32, from as u32, to as u32), Ok(()));
            graph.edges.push((from, to));
            let closure = Closure::of(&graph);
            for _ in 0..20 {
                let (u, v) = (chance.below(n), chance.below(n));
                let said = compare::ask_added(&mut library, &bytes, &added, u as u32, v as u32, Lent::needed(&bytes));
                assert_eq!(said, Ok(closure.reaches(u, v)));
            }
        }
    }
}
