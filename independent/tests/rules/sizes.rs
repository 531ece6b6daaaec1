//! The bounds of either form themselves and one beyond them, and graphs as large and as deep as they come.

use crate::given::{built, falling, lent_words, refused, rising, words_for, Lent};
use independent::bounds::work_words;
use independent::chance::{Chance, Kind};
use independent::closure::{Closure, Search};
use independent::{ask, list, open, Answer, Counts, Form, Graph, Index, FORMS, FORM_1, FORM_2, FORM_4, ORDINARY};

fn line(n: usize) -> Graph {
    let edges: Vec<(usize, usize)> = (1..n).map(|v| (v - 1, v)).collect();
    Graph::new(n, &edges)
}

#[test]
fn the_forms_are_those_of_the_documents() {
    let numbers = |form: Form| (form.most_vertices, form.most_edges, form.most_child_entries);
    assert_eq!(numbers(FORM_1), (4_096, 16_384, 16_384));
    assert_eq!(numbers(FORM_2), (200_000, 1_000_000, 1_000_000));
    assert_eq!((numbers(FORM_4), FORM_4.most_labellings), (numbers(FORM_2), 1));
    // The sections without gaps come to the total that the documents give.
    let mut chance = Chance::new(42);
    for _ in 0..1_000 {
        let [n, k, c, d] = [4_000, 4_000, 16_000, 5].map(|most| chance.between(1, most));
        let counts = Counts { n, k, c, d };
        for form in FORMS {
            let counts = Counts {
                d: d.min(form.most_labellings),
                ..counts
            };
            let sections: usize = counts.sections(&form).iter().sum();
            assert_eq!(form.total_length(&counts), 48 + form.width * sections);
            assert_eq!(counts.header(&form)[11], 48 + (form.width * sections) as u32);
        }
        assert_eq!(FORM_1.words_needed(&counts), 0);
        assert_eq!(FORM_2.words_needed(&counts), 16 * n + 4 * c + 64);
    }
}

#[test]
fn as_many_vertices_as_the_form_allows_are_taken_and_one_more_refused() {
    for (form, most, total) in [(FORM_1, 4_096, 50 + 16 * 4_096), (FORM_2, 200_000, 52 + 32 * 200_000)] {
        let none = |n| Lent::new(&form, &Graph::new(n, &[]), &[rising(n)]);
        assert_eq!(none(most).build(), Ok(total));
        assert_eq!(none(most + 1).build(), refused(1, 0));
    }
}

#[test]
fn as_many_edges_as_the_form_allows_are_taken_and_one_more_refused() {
    for (form, most, total) in [(FORM_1, 16_384, 50 + 16 * 2 + 2), (FORM_2, 1_000_000, 52 + 32 * 2 + 4)] {
        let many = |edges| Lent::new(&form, &Graph::new(2, &vec![(0, 1); edges]), &[rising(2)]);
        assert_eq!(many(most).build(), Ok(total));
        assert_eq!(many(most + 1).build(), refused(3, 0));
    }
}

#[test]
fn the_largest_index_of_form_1_is_built_opened_asked_and_listed_in_both() {
    let mut chance = Chance::new(41);
    let mut graph = chance.graph(Kind::Dense, 4_096);
    for (u, v) in &mut graph.edges {
        (*u, *v) = (*u.min(v), *u.max(v));
    }
    let orders = chance.orders(4_096, 5);
    let index = Index::of(&graph, &orders);
    let closure = Closure::of(&graph);
    for _ in 0..100_000 {
        let (u, v) = (chance.below(4_096), chance.below(4_096));
        assert_eq!(index.question(u, v).answer.yes, closure.reaches(u, v));
    }
    for form in ORDINARY {
        let bytes = built(&form, &graph, &orders);
        let (mut marks, mut words) = ([9; 4_100], words_for(&bytes));
        let counts = open(&bytes, &mut marks, &mut words).unwrap();
        assert_eq!((counts.n, counts.d), (4_096, 5));
        assert_eq!(counts.k, 4_096);
        assert_eq!(marks[4_096..], [9; 4]);
        let answer = ask(&bytes, 7, 4_000, &mut marks, &mut words).unwrap();
        assert_eq!(answer, index.question(7, 4_000).answer);
        let mut out = lent_words(4_096);
        let count = list(&bytes, 7, &mut marks, &mut words, &mut out).unwrap();
        let downstream = closure.downstream(7);
        assert_eq!(count as usize, downstream.len());
        assert!(downstream.iter().zip(&out).all(|(&v, &w)| v as u32 == w));
    }
}

#[test]
fn an_index_of_200000_vertices_agrees_with_plain_search() {
    let mut chance = Chance::new(43);
    for kind in [Kind::Sparse, Kind::Dag, Kind::Layered] {
        let graph = chance.graph_of(kind, 200_000, FORM_2.most_edges);
        let orders = chance.orders(200_000, 2);
        let index = Index::of(&graph, &orders);
        let search = Search::of(&graph);
        for _ in 0..20 {
            let u = chance.below(200_000);
            let found = search.from(u);
            for _ in 0..100 {
                let v = chance.below(200_000);
                assert_eq!(index.question(u, v).answer.yes, found[v]);
            }
            assert_eq!(index.downstream(u), search.downstream(u));
        }
        let bytes = built(&FORM_2, &graph, &orders);
        let counts = open(&bytes, &mut vec![0; 200_000], &mut words_for(&bytes));
        assert_eq!(counts, Ok(Counts::of(&index)));
    }
}

/// A line that joins another at its end; under the rising order all of the second is opened before the end is found.
#[test]
fn a_line_of_half_the_groups_is_walked_to_its_end() {
    for (form, half) in [(FORM_1, 2_048), (FORM_2, 2_048), (FORM_2, 100_000)] {
        let mut edges = line(half).edges;
        edges.extend((half + 1..2 * half).map(|v| (v - 1, v)));
        edges.push((2 * half - 1, half - 1));
        let bytes = built(&form, &Graph::new(2 * half, &edges), &[rising(2 * half)]);
        let mut marks = vec![9; 2 * half];
        let told = Answer {
            yes: true,
            reason: 5,
            opened: half as u32,
            labelling: 1,
        };
        let (first, last) = (half as u32, half as u32 - 1);
        assert_eq!(ask(&bytes, first, last, &mut marks, &mut words_for(&bytes)), Ok(told));
        assert!(marks[..half].iter().all(|&mark| mark == 0));
        assert!(marks[half..].iter().all(|&mark| mark == 1));
    }
}

#[test]
fn lines_and_cycles_as_long_as_the_form_allows() {
    for form in ORDINARY {
        let n = form.most_vertices;
        let last = n as u32 - 1;
        for orders in [[rising(n)], [falling(n)]] {
            let bytes = built(&form, &line(n), &orders);
            let (mut marks, mut words) = (vec![0; n], words_for(&bytes));
            let answer = ask(&bytes, 0, last, &mut marks, &mut words).unwrap();
            assert_eq!((answer.yes, answer.reason), (true, 2));
            let answer = ask(&bytes, last, 0, &mut marks, &mut words).unwrap();
            assert_eq!((answer.yes, answer.reason), (false, 3));

            let mut cycle = line(n);
            cycle.edges.push((n - 1, 0));
            let bytes = built(&form, &cycle, &orders);
            let counts = Counts { n, k: 1, c: 0, d: 1 };
            assert_eq!(open(&bytes, &mut marks, &mut words_for(&bytes)), Ok(counts));
        }
    }
}

#[test]
fn a_line_beyond_the_bounds_does_not_exhaust_the_stack() {
    let graph = line(300_000);
    let index = Index::of(&graph, &[falling(300_000)]);
    assert_eq!(index.groups.levels[0], 299_999);
    assert!(index.question(0, 299_999).answer.yes);
    assert_eq!(index.downstream(5_000).len(), 294_999);
}

/// As many child entries as the form allows between two sides of groups, some of two vertices: no list of so many edges
/// gives this.
#[test]
fn soundness_knows_no_bound_on_edges() {
    for (form, side) in [(FORM_1, 128), (FORM_2, 1_000)] {
        let mut edges: Vec<(usize, usize)> = (0..side).flat_map(|u| (side..2 * side).map(move |v| (u, v))).collect();
        edges.extend((0..100).flat_map(|v| [(v, 2 * side + v), (2 * side + v, v)]));
        let graph = Graph::new(2 * side + 100, &edges);
        let orders = [rising(graph.n)];
        assert_eq!(Lent::new(&form, &graph, &orders).build(), refused(3, 0));
        let bytes = independent::stored::image(&form, &graph, &orders);
        let counts = Counts {
            n: graph.n,
            k: 2 * side,
            c: form.most_child_entries,
            d: 1,
        };
        assert_eq!(open(&bytes, &mut vec![0; graph.n], &mut words_for(&bytes)), Ok(counts));
    }
}

#[test]
fn work_words_at_the_bounds() {
    assert_eq!(work_words(0, 0), 64);
    assert_eq!(work_words(4_096, 16_384), 131_136);
    assert_eq!(work_words(200_000, 1_000_000), 7_200_064);
    for (form, total) in [(FORM_1, 50), (FORM_2, 52)] {
        let mut lent = Lent::new(&form, &Graph::new(0, &[]), &[vec![]]);
        lent.work = lent_words(63);
        assert_eq!(lent.build(), refused(6, 64));
        lent.work = lent_words(64);
        assert_eq!(lent.build(), Ok(total));
    }
}
