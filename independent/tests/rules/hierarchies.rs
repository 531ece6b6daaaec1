//! Plain hierarchies: which graphs are taken, what form 4 holds, what is answered, and an index of form 2 turned into it and back.

use crate::given::{built, g, h, lent_bytes, lent_words, refused, rising, words_for, WORD};
use independent::bounds::work_words;
use independent::chance::{Chance, Kind};
use independent::closure::Closure;
use independent::every::{every_graph, every_order};
use independent::graph::flat;
use independent::stored::image;
use independent::{
    ask, ask_hierarchy, build, build_hierarchy, from_hierarchy, host, open, open_hierarchy, open_turned, to_hierarchy,
};
use independent::{Counts, Graph, Index, Refusal, FORM_1, FORM_2, FORM_3, FORM_4};

/// What the build says, with the work memory and the output after it.
fn built_into(graph: &Graph, orders: &[Vec<usize>], out: usize) -> (Result<u32, Refusal>, Vec<u32>, Vec<u8>) {
    let (mut work, mut out) = (lent_words(work_words(graph.n, graph.edges.len()) + 2), lent_bytes(out));
    let (sources, targets, d) = (graph.sources(), graph.targets(), orders.len() as u32);
    let said = build_hierarchy(
        graph.n as u32,
        &sources,
        &targets,
        &flat(orders),
        d,
        &mut work,
        &mut out,
    );
    (said, work, out)
}

/// The stored hierarchy, where it is one.
fn hierarchy(graph: &Graph, order: &[usize]) -> Result<Vec<u8>, Refusal> {
    let (said, _, mut out) = built_into(graph, &[order.to_vec()], 20_000);
    out.truncate(said? as usize);
    Ok(out)
}

/// The smallest name of a group into which edges lead from two other groups, by plain search.
fn child_of_two(graph: &Graph) -> Option<usize> {
    let closure = Closure::of(graph);
    let name = |v: usize| {
        (0..graph.n)
            .find(|&w| closure.reaches(v, w) && closure.reaches(w, v))
            .unwrap()
    };
    (0..graph.n).find(|&child| {
        let into = graph.edges.iter().filter(|&&(_, v)| name(v) == child);
        let mut parents: Vec<usize> = into.map(|&(u, _)| name(u)).filter(|&parent| parent != child).collect();
        parents.sort();
        parents.dedup();
        parents.len() > 1
    })
}

/// A forest with some edges repeated, some self-loops, and some vertices grown into cycles.
fn forest(chance: &mut Chance, n: usize) -> Graph {
    let mut graph = chance.graph(Kind::Forest, n);
    for _ in 0..chance.below(4) {
        if !graph.edges.is_empty() {
            graph.edges.push(chance.one_of(&graph.edges));
        }
        if n > 0 {
            let v = chance.below(n);
            graph.edges.push((v, v));
            if let Some(&(u, v)) = graph.edges.iter().find(|edge| edge.1 == v) {
                graph.edges.push((v, u));
            }
        }
    }
    graph
}

#[test]
fn exactly_the_graphs_without_a_child_of_two_are_taken() {
    for n in 0..=4 {
        for graph in every_graph(n) {
            let said = hierarchy(&graph, &rising(n));
            match child_of_two(&graph) {
                Some(name) => assert_eq!(said, refused(22, name as u32), "{graph:?}"),
                None => assert_eq!(said, Ok(image(&FORM_4, &graph, &[rising(n)])), "{graph:?}"),
            }
        }
    }
}

#[test]
fn form_4_is_form_2_without_the_m_numbers() {
    let mut chance = Chance::new(141);
    for _ in 0..300 {
        let n = chance.between(0, 30);
        let (graph, order) = (forest(&mut chance, n), chance.order(n));
        let bytes = hierarchy(&graph, &order).unwrap();
        let of_form_2 = built(&FORM_2, &graph, &[order.clone()]);
        let index = Index::of(&graph, &[order]);
        let Counts { n, k, c, .. } = Counts::of(&index);
        assert_eq!(bytes.len(), 52 + 4 * n + 24 * k + 4 * c);
        assert_eq!(bytes[..20], [&[4, 0, 0, 0], &of_form_2[4..20]].concat());
        let labels = 52 + 4 * n + 12 * k + 4 * c;
        assert_eq!(bytes[48..labels], of_form_2[48..labels]);
        for place in 0..k {
            let pair = &bytes[labels + 8 * place..][..8];
            let triple = &of_form_2[labels + 12 * place..][..12];
            assert_eq!(pair, [&triple[..4], &triple[8..]].concat());
            assert_eq!(triple[..4], triple[4..8], "m is s");
        }
        assert_eq!(bytes[labels + 8 * k..], of_form_2[labels + 12 * k..]);
    }
}

#[test]
fn outer_containment_is_a_path_and_nothing_is_opened() {
    let mut chance = Chance::new(142);
    for _ in 0..200 {
        let n = chance.between(1, 14);
        let (graph, order) = (forest(&mut chance, n), chance.order(n));
        let (bytes, of_form_2) = (
            hierarchy(&graph, &order).unwrap(),
            built(&FORM_2, &graph, &[order.clone()]),
        );
        let (closure, index) = (Closure::of(&graph), Index::of(&graph, &[order]));
        for u in 0..n {
            for v in 0..n {
                let (mut marks, mut words) = (lent_bytes(n + 1), [words_for(&bytes), vec![WORD]].concat());
                let said = ask_hierarchy(&bytes, u as u32, v as u32, &mut marks, &mut words).unwrap();
                assert_eq!(said.yes, closure.reaches(u, v));
                assert_eq!(
                    index.labellings[0].outer_holds(index.groups.place(u), index.groups.place(v)),
                    said.yes
                );
                assert!((1..=4).contains(&said.reason) && said.opened == 0);
                assert_eq!(said.labelling, u32::from([2, 4].contains(&said.reason)));
                assert_eq!(marks, [&vec![0; n][..], &lent_bytes(n + 1)[n..]].concat());
                assert!(words.pop() == Some(WORD) && words.iter().all(|&word| word == 0));
                assert_eq!(ask(&of_form_2, u as u32, v as u32, &mut marks, &mut words), Ok(said));
            }
        }
    }
}

#[test]
fn there_and_back_gives_the_same_bytes() {
    let mut chance = Chance::new(143);
    for _ in 0..200 {
        let n = chance.between(0, 20);
        let (graph, order) = (forest(&mut chance, n), chance.order(n));
        let (bytes, of_form_2) = (hierarchy(&graph, &order).unwrap(), built(&FORM_2, &graph, &[order]));
        let (mut marks, mut out) = (lent_bytes(n), lent_bytes(20_000));
        let total = to_hierarchy(&of_form_2, &mut marks, &mut words_for(&of_form_2), &mut out).unwrap() as usize;
        assert_eq!(out[..total], bytes);
        assert_eq!(out[total..], lent_bytes(20_000)[total..]);
        let total = from_hierarchy(&bytes, &mut marks, &mut words_for(&bytes), &mut out).unwrap() as usize;
        assert_eq!(out[..total], of_form_2);
    }
}

#[test]
fn m_equal_to_s_without_a_hierarchy_is_refused() {
    // 1 leads to 0, 0 to 2, and 1 to 2 besides: the traversal comes to 2 through 0, so every m is an s, and 2 is a child of two.
    let bridged = Graph::new(3, &[(1, 0), (0, 2), (1, 2)]);
    let index = Index::of(&bridged, &[rising(3)]);
    assert_eq!(index.labellings[0].m, index.labellings[0].s);
    let bytes = image(&FORM_4, &bridged, &[rising(3)]);
    assert_eq!(
        open_hierarchy(&bytes, &mut [0; 3], &mut words_for(&bytes)),
        refused(15, 0)
    );
    let of_form_2 = built(&FORM_2, &bridged, &[rising(3)]);
    let said = to_hierarchy(&of_form_2, &mut [0; 3], &mut words_for(&of_form_2), &mut [0; 400]);
    assert_eq!(said, refused(22, 2));
}

#[test]
fn a_build_gives_22_behind_8_and_before_9() {
    let (order, twice) = (vec![rising(4)], vec![vec![0, 1, 1, 3]]);
    // In H group 1 is the child of 0 and 3.
    assert_eq!(built_into(&h(), &twice, 0).0, refused(8, 0));
    let (said, work, out) = built_into(&h(), &order, 1);
    assert_eq!((said, out), (refused(22, 1), lent_bytes(1)));
    let needed = work_words(4, 3);
    assert_eq!(work, [&vec![0; needed][..], &lent_words(needed + 2)[needed..]].concat());
    let tree = Graph::new(4, &[(0, 1), (0, 2), (3, 3)]);
    let total = 52 + 4 * 4 + 24 * 4 + 4 * 2;
    assert_eq!(built_into(&tree, &order, total - 1).0, refused(9, total as u32));
    assert_eq!(built_into(&tree, &order, total).0, Ok(total as u32));
    for d in [0, 2, 5, 6] {
        assert_eq!(built_into(&tree, &vec![rising(4); d], 400).0, refused(4, 0));
    }
    // The name is told, not the place: groups 0, 2 and 3, of which 3 is the last by place.
    let named = Graph::new(5, &[(0, 1), (1, 0), (0, 3), (2, 3), (0, 4), (2, 4)]);
    assert_eq!(hierarchy(&named, &rising(5)), refused(22, 3));
}

#[test]
fn the_first_refusal_due_is_given_in_turning() {
    let (tree, shared) = (Graph::new(4, &[(0, 1), (0, 2), (3, 3)]), h());
    for (graph, d, told) in [(&tree, 1, 9), (&tree, 2, 4), (&shared, 1, 22), (&shared, 2, 4)] {
        let index = built(&FORM_2, graph, &vec![rising(4); d]);
        let needed = words_for(&index).len();
        let (mut marks, mut words, mut out) = (lent_bytes(6), vec![WORD; needed + 1], lent_bytes(9));
        let said = to_hierarchy(&index, &mut marks, &mut words, &mut out);
        assert_eq!(said.unwrap_err().number, told);
        assert_eq!(marks, [&[0; 4], &lent_bytes(6)[4..]].concat());
        assert_eq!(words, [vec![0; needed], vec![WORD]].concat());
        assert_eq!(out, lent_bytes(9));
        assert_eq!(to_hierarchy(&index, &mut [0; 3], &mut [], &mut out), refused(13, 4));
        assert_eq!(
            to_hierarchy(&index, &mut [0; 4], &mut [], &mut out),
            refused(6, needed as u32)
        );
    }
    let bytes = hierarchy(&tree, &rising(4)).unwrap();
    let total = built(&FORM_2, &tree, &[rising(4)]).len() as u32;
    let said = from_hierarchy(
        &bytes,
        &mut [9; 4],
        &mut words_for(&bytes),
        &mut vec![7; total as usize - 1],
    );
    assert_eq!(said, refused(9, total));
}

#[test]
fn each_call_takes_its_own_forms() {
    let tree = Graph::new(6, &[(0, 1), (1, 2), (2, 1), (0, 3), (3, 4), (5, 5)]);
    let (mut marks, mut words, mut out) = ([9; 6], [7; 300], [0; 400]);
    for form in [FORM_1, FORM_2, FORM_3, FORM_4] {
        let bytes = image(&form, &tree, &[rising(6)]);
        let other = refused(11, form.number);
        let said = open_hierarchy(&bytes, &mut marks, &mut words).map(|counts| counts.n as u32);
        assert_eq!(said, if form == FORM_4 { Ok(6) } else { other });
        let said = ask_hierarchy(&bytes, 0, 4, &mut marks, &mut words).map(|answer| answer.reason);
        assert_eq!(said, if form == FORM_4 { Ok(2) } else { other });
        let said = to_hierarchy(&bytes, &mut marks, &mut words, &mut out);
        assert_eq!(said.is_ok(), form == FORM_2);
        assert!(form == FORM_2 || said == other);
        let said = from_hierarchy(&bytes, &mut marks, &mut words, &mut out);
        assert_eq!(said.is_ok(), form == FORM_4);
        assert!(form == FORM_4 || said == other);
    }
    let bytes = image(&FORM_4, &tree, &[rising(6)]);
    assert_eq!(open(&bytes, &mut marks, &mut words), refused(11, 4));
    assert_eq!(open_turned(&bytes, &mut marks, &mut words), refused(11, 4));
    assert_eq!(host::open(&bytes, &mut marks), refused(11, 4));
    assert_eq!(
        build(4, 0, &[], &[], &[], 1, &mut [0; 64], &mut [0; 60]),
        refused(11, 4)
    );
    // Two labellings are 12, with the length that they would have or without.
    for d in [0, 2] {
        let mut bytes = bytes.clone();
        bytes[16] = d;
        assert_eq!(open_hierarchy(&bytes, &mut marks, &mut words), refused(12, 0));
    }
    let twice = image(&FORM_4, &tree, &[rising(6), rising(6)]);
    assert_eq!(open_hierarchy(&twice, &mut marks, &mut words), refused(12, 0));
}

#[test]
fn its_bounds_are_those_of_form_2() {
    let none = |n: usize, edges: usize| {
        let (sources, order) = (vec![0; edges], flat(&[rising(n)]));
        let (mut work, mut out) = (vec![0; work_words(n, edges)], vec![0; 52 + 28 * n]);
        build_hierarchy(n as u32, &sources, &sources, &order, 1, &mut work, &mut out)
    };
    assert_eq!(none(200_000, 0), Ok(52 + 28 * 200_000));
    assert_eq!(none(200_001, 0), refused(1, 0));
    assert_eq!(none(1, 1_000_000), Ok(52 + 28));
    assert_eq!(none(1, 1_000_001), refused(3, 0));
}

#[test]
fn every_order_of_a_small_forest_opens() {
    for graph in [
        g(),
        h(),
        Graph::new(4, &[(0, 1), (0, 2), (2, 3)]),
        Graph::new(4, &[(3, 0), (1, 2)]),
    ] {
        for order in every_order(graph.n) {
            let Ok(bytes) = hierarchy(&graph, &order) else { continue };
            let counts = open_hierarchy(&bytes, &mut [0; 6], &mut words_for(&bytes)).unwrap();
            assert_eq!(counts, Counts::of(&Index::of(&graph, &[order])));
        }
    }
}
