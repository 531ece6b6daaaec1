//! The turned index: what it answers and lists against plain search of the graph as given, its form, and its refusals.

use crate::given::{built, falling, g, lent_bytes, lent_words, refused, rising, words_for, WORD};
use independent::bounds::work_words;
use independent::chance::{Chance, Kind};
use independent::closure::Closure;
use independent::graph::flat;
use independent::stored::image;
use independent::{ask, ask_all, ask_turned, build, build_turned, host, list, list_turned, open, open_turned};
use independent::{Counts, Graph, Refusal, FORM_1, FORM_2, FORM_3};

/// The turned index of a graph, in exact memory.
fn built_turned(graph: &Graph, orders: &[Vec<usize>]) -> Vec<u8> {
    let (mut work, mut out) = (lent_words(work_words(graph.n, graph.edges.len())), lent_bytes(60_000));
    let (sources, targets, d) = (graph.sources(), graph.targets(), orders.len() as u32);
    let total = build_turned(
        graph.n as u32,
        &sources,
        &targets,
        &flat(orders),
        d,
        &mut work,
        &mut out,
    )
    .unwrap();
    assert!(work.iter().all(|&word| word == 0));
    out.truncate(total as usize);
    out
}

#[test]
fn its_bytes_are_those_of_the_turned_graph_in_form_2_but_for_the_number() {
    let mut chance = Chance::new(131);
    for round in 0..200 {
        let n = chance.between(0, 20);
        let graph = chance.graph(Kind::ALL[round % Kind::ALL.len()], n);
        let orders = chance.orders(n, 2);
        let turned = built_turned(&graph, &orders);
        assert_eq!(turned, image(&FORM_3, &graph.turned(), &orders));
        assert_eq!(turned[..4], [3, 0, 0, 0]);
        assert_eq!(turned[4..], built(&FORM_2, &graph.turned(), &orders)[4..]);
    }
}

#[test]
fn it_says_who_feeds_whom_and_names_agree() {
    let mut chance = Chance::new(132);
    for round in 0..200 {
        let n = chance.between(1, 14);
        let graph = chance.graph(Kind::ALL[round % Kind::ALL.len()], n);
        let (d, e) = (chance.between(1, 3), chance.between(1, 3));
        let ordinary = built(&FORM_2, &graph, &chance.orders(n, d));
        let turned = built_turned(&graph, &chance.orders(n, e));
        let names = 48..48 + 4 * n;
        assert_eq!(turned[names.clone()], ordinary[names]);
        let (mut marks, mut words) = (vec![9; n], words_for(&ordinary));
        let mut turned_words = words_for(&turned);
        assert_eq!(open_turned(&turned, &mut marks, &mut turned_words).unwrap().n, n);
        let closure = Closure::of(&graph);
        for u in 0..n {
            for v in 0..n {
                let feeds = ask(&ordinary, u as u32, v as u32, &mut marks, &mut words).unwrap();
                let fed = ask_turned(&turned, v as u32, u as u32, &mut marks, &mut turned_words).unwrap();
                assert_eq!((feeds.yes, fed.yes), (closure.reaches(u, v), closure.reaches(u, v)));
            }
            let upstream = |v: &usize| {
                closure.reaches(*v, u)
                    && (*v != u || (0..n).any(|w| w != u && closure.reaches(u, w) && closure.reaches(w, u)))
            };
            let told: Vec<u32> = (0..n).filter(upstream).map(|v| v as u32).collect();
            let mut out = vec![0; n];
            let count = list_turned(&turned, u as u32, &mut marks, &mut turned_words, &mut out).unwrap();
            assert_eq!(out[..count as usize], told);
        }
    }
}

#[test]
fn the_upstream_lists_of_g() {
    let turned = built_turned(&g(), &[rising(6), falling(6)]);
    let told: [&[u32]; 6] = [&[], &[0, 1, 2], &[0, 1, 2], &[0], &[0, 1, 2, 3], &[]];
    for (vertex, told) in told.iter().enumerate() {
        let (mut marks, mut words, mut out) = (
            lent_bytes(7),
            [words_for(&turned), vec![WORD]].concat(),
            vec![7; told.len() + 1],
        );
        assert_eq!(
            list_turned(&turned, vertex as u32, &mut marks, &mut words, &mut out),
            Ok(told.len() as u32)
        );
        assert_eq!(out, [told, &[7][..]].concat());
        assert_eq!(marks, [&[0; 6], &lent_bytes(7)[6..]].concat());
        assert!(words.pop() == Some(WORD) && words.iter().all(|&word| word == 0));
        if let Some(short) = told.len().checked_sub(1) {
            let said = list_turned(&turned, vertex as u32, &mut marks, &mut words, &mut vec![7; short]);
            assert_eq!(said, refused(16, told.len() as u32));
        }
    }
}

/// What each call on stored bytes says, as its refusal: first the ordinary ones and the host's, then the turned ones.
fn refusals(index: &[u8]) -> ([Option<Refusal>; 7], [Option<Refusal>; 3]) {
    let (mut marks, mut words, mut out) = ([9; 6], [7; 300], [7; 6]);
    let ordinary = [
        open(index, &mut marks, &mut words).err(),
        ask(index, 0, 1, &mut marks, &mut words).err(),
        list(index, 0, &mut marks, &mut words, &mut out).err(),
        ask_all(index, &[0], &[1], &mut marks, &mut words, &mut out).err(),
        host::open(index, &mut marks).err(),
        host::ask(index, 0, 1, &mut marks).err(),
        host::ask_all(index, &[0], &[1], &mut marks, &mut out).err(),
    ];
    let turned = [
        open_turned(index, &mut marks, &mut words).err(),
        ask_turned(index, 0, 1, &mut marks, &mut words).err(),
        list_turned(index, 0, &mut marks, &mut words, &mut out).err(),
    ];
    (ordinary, turned)
}

#[test]
fn each_call_takes_its_own_forms() {
    for form in [FORM_1, FORM_2, FORM_3] {
        let good = image(&form, &g(), &[rising(6)]);
        for number in 0..6 {
            let mut index = good.clone();
            index[0] = number;
            let (ordinary, turned) = refusals(&index);
            let other = Some(Refusal {
                number: 11,
                extra: number as u32,
            });
            for (i, said) in ordinary.iter().enumerate() {
                let taken = number == 1 || number == 2 && i < 4;
                assert_eq!(*said == other, !taken, "form {number}, call {i}");
            }
            assert!(
                turned.iter().all(|said| (*said == other) == (number != 3)),
                "form {number}"
            );
            if number as u32 == form.number {
                let taken = if number == 3 {
                    turned[..].iter()
                } else {
                    ordinary[..4].iter()
                };
                assert!(
                    taken.clone().all(Option::is_none),
                    "form {number} is taken by its calls"
                );
            }
        }
    }
    let lists: [u32; 0] = [];
    let said = build(
        3,
        0,
        &lists,
        &lists,
        &lists,
        1,
        &mut lent_words(64),
        &mut lent_bytes(60),
    );
    assert_eq!(said, refused(11, 3));
}

#[test]
fn its_bounds_are_those_of_form_2() {
    let turned = |n: u32, sources: &[u32], targets: &[u32], d: u32, orders: &[u32], work: usize, out: usize| {
        build_turned(
            n,
            sources,
            targets,
            orders,
            d,
            &mut lent_words(work),
            &mut lent_bytes(out),
        )
    };
    let many = vec![0; 1_000_001];
    assert_eq!(turned(200_001, &[], &[0], 0, &[], 0, 0), refused(1, 0));
    assert_eq!(turned(200_000, &[], &[0], 0, &[], 0, 0), refused(2, 0));
    assert_eq!(turned(1, &many, &many, 0, &[], 0, 0), refused(3, 0));
    assert_eq!(turned(1, &many[1..], &many[1..], 0, &[], 0, 0), refused(4, 0));
    assert_eq!(turned(2, &[], &[], 1, &[0], 0, 0), refused(5, 0));
    assert_eq!(turned(2, &[0], &[1], 1, &[0, 0], 99, 0), refused(6, 100));
    assert_eq!(turned(2, &[0, 0, 2], &[1, 2, 0], 1, &[0, 0], 108, 0), refused(7, 1));
    assert_eq!(turned(2, &[0], &[1], 1, &[0, 0], 100, 0), refused(8, 0));
    let total = FORM_3.total_length(&Counts { n: 2, k: 2, c: 1, d: 1 });
    assert_eq!(
        turned(2, &[0], &[1], 1, &[0, 1], 100, total - 1),
        refused(9, total as u32)
    );
    assert_eq!(turned(2, &[0], &[1], 1, &[0, 1], 100, total), Ok(total as u32));
}
