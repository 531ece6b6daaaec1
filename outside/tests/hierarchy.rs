//! Plain hierarchies, form 4, beside the independent program and beside form 2: which graphs are built, what opens, every question's answer and reason, an index of form 2
//! turned into form 4 and back, refusals in order, marks, words and outputs.

use independent::chance::{Chance, Fields, Kind};
use independent::every::{every_graph, every_image, every_order};
use independent::stored::{encode, image};
use independent::{Graph, Index, FORM_1, FORM_2, FORM_3, FORM_4};
use outside::compare::{self, Input, Lent};
use outside::inputs::{forest, spoil};
use outside::{Face, Library, Way};
use std::collections::BTreeSet;

/// A build in enough memory: the number of its refusal.
fn build(library: &mut Library, graph: &Graph, orders: &[Vec<usize>]) -> u32 {
    let input = Input::of(&FORM_4, graph, orders);
    compare::build(library, Face::Hierarchy, &input, input.work_needed() + 1, input.room() + 3)
}

/// The hierarchy's index, built, opened and asked every pair, or a sample of them: the answers are those of form 2, which are right, and nothing is opened.
fn built_and_asked(library: &mut Library, chance: &mut Chance, graph: &Graph, order: Vec<usize>) -> Index {
    let orders = [order];
    let bytes = library.built(Face::Hierarchy, &Input::of(&FORM_4, graph, &orders));
    let index = Index::of(graph, &orders);
    assert!(bytes == encode(&FORM_4, &index), "the bytes of {graph:?} under {orders:?}");
    assert_eq!(compare::open_by(library, Face::Hierarchy, &bytes, Lent::needed(&bytes).more(1, 1)), 0);
    let pairs = compare::pairs(chance, graph.n, 400);
    let stored = [(bytes, Face::Hierarchy), (encode(&FORM_2, &index), Face::Ordinary)];
    for answer in compare::ask_stored(library, graph, &index, &stored, &pairs) {
        assert!((1..=4).contains(&answer.reason) && answer.opened == 0, "{answer} in {graph:?}");
        assert_eq!(answer.labelling, u32::from([2, 4].contains(&answer.reason)), "{answer} in {graph:?}");
    }
    index
}

/// All forests on n vertices: each vertex has a parent or none, and no cycle is closed.
fn every_forest(n: usize) -> Vec<Graph> {
    let all = (0..(n + 1).pow(n as u32)).map(|choice| {
        let parent = |v: usize| Some(choice / (n + 1).pow(v as u32) % (n + 1)).filter(|&parent| parent < n);
        Graph { n, edges: (0..n).filter_map(|v| parent(v).map(|parent| (parent, v))).collect() }
    });
    all.filter(|graph| Index::of(graph, &[]).groups.list.len() == n && graph.edges.iter().all(|(u, v)| u != v)).collect()
}

#[test]
fn every_forest_of_up_to_5_vertices() {
    let (mut library, mut chance) = (Library::start(), Chance::new(141));
    for n in 0..=5 {
        let forests = every_forest(n);
        assert_eq!(forests.len(), (n + 1).pow(n.saturating_sub(1) as u32));
        for graph in forests {
            let orders = if n < 5 { every_order(n) } else { chance.orders(n, 3) };
            for order in orders {
                built_and_asked(&mut library, &mut chance, &graph, order);
            }
        }
    }
}

#[test]
fn forests_with_groups_repeats_and_self_loops() {
    let (mut library, mut chance) = (Library::start(), Chance::new(142));
    for _ in 0..300 {
        let n = chance.between(0, 60);
        let (graph, order) = (forest(&mut chance, n), chance.order(n));
        let index = built_and_asked(&mut library, &mut chance, &graph, order);
        for way in [Way::ToHierarchy, Way::FromHierarchy] {
            let (bytes, told) = (encode(&way.from(), &index), encode(&way.to(), &index));
            let Lent { marks, words } = Lent::needed(&bytes);
            let mut out = vec![7; told.len() + 2];
            assert_eq!(library.convert(way, &bytes, &mut vec![7; marks], &mut vec![7; words], &mut out), Ok(told.len() as u32));
            assert!(out == [&told[..], &[7, 7]].concat(), "{way:?}: there and back gives the same bytes");
            for (lent, room) in [(Lent::needed(&bytes), told.len()), (Lent::needed(&bytes).more(3, 2), told.len() + 5), (Lent::needed(&bytes), told.len() - 1)] {
                compare::convert(&mut library, way, &bytes, lent, room);
            }
        }
    }
}

#[test]
fn every_graph_of_up_to_4_vertices_is_built_or_refused_with_22() {
    let (mut library, mut chance) = (Library::start(), Chance::new(143));
    let mut met = BTreeSet::new();
    for n in 0..=4 {
        for graph in every_graph(n) {
            met.insert(build(&mut library, &graph, &[chance.order(n)]));
        }
    }
    assert_eq!(met, [0, 22].into());
}

/// A forest and an edge more, into a child from a group that is not its parent: 22 names the smallest such group, whatever the output's length, and the words are 0; bytes
/// of it in form 4 are not sound, and its form 2 index is not turned into form 4.
#[test]
fn graphs_with_one_shared_child() {
    let (mut library, mut chance) = (Library::start(), Chance::new(144));
    let mut shared = 0;
    for _ in 0..600 {
        let n = chance.between(3, 30);
        let (mut graph, order) = (forest(&mut chance, n), chance.order(n));
        graph.edges.push((chance.below(n), chance.below(n)));
        let index = Index::of(&graph, &[order.clone()]);
        let kept_out = FORM_4.kept_out_by(&index.groups);
        let refusal = if kept_out.is_some() { 22 } else { 0 };
        compare::build_around(&mut library, Face::Hierarchy, &Input::of(&FORM_4, &graph, &[order.clone()]));
        assert_eq!(build(&mut library, &graph, &[order]), refusal);
        let (of_2, of_4) = (encode(&FORM_2, &index), encode(&FORM_4, &index));
        assert_eq!(compare::convert(&mut library, Way::ToHierarchy, &of_2, Lent::needed(&of_2), of_4.len()), refusal);
        assert_eq!(compare::convert(&mut library, Way::ToHierarchy, &of_2, Lent::needed(&of_2), 0), if refusal == 22 { 22 } else { 9 });
        let unsound = if refusal == 22 { 15 } else { 0 };
        assert_eq!(compare::open_by(&mut library, Face::Hierarchy, &of_4, Lent::needed(&of_4)), unsound);
        assert_eq!(compare::convert(&mut library, Way::FromHierarchy, &of_4, Lent::needed(&of_4), of_2.len()), unsound);
        shared += usize::from(kept_out.is_some());
    }
    assert!(shared > 100, "{shared} graphs have a shared child");
}

/// 1 leads to 0, 0 to 2, and 1 to 2 besides: the traversal comes to 2 through 0, so each m is an s; but 2 is a child of two.
#[test]
fn m_equal_to_s_without_a_hierarchy_is_refused() {
    let mut library = Library::start();
    let bridged = Graph::new(3, &[(1, 0), (0, 2), (1, 2)]);
    let orders = [vec![0, 1, 2]];
    let index = Index::of(&bridged, &orders);
    assert_eq!(index.labellings[0].m, index.labellings[0].s);
    let (of_2, of_4) = (encode(&FORM_2, &index), encode(&FORM_4, &index));
    assert_eq!(compare::open_by(&mut library, Face::Hierarchy, &of_4, Lent::needed(&of_4)), 15);
    assert_eq!(compare::ask_by(&mut library, Face::Hierarchy, &of_4, 1, 2, Lent::needed(&of_4)), 15);
    assert_eq!(compare::convert(&mut library, Way::ToHierarchy, &of_2, Lent::needed(&of_2), of_4.len()), 22);
    assert_eq!(build(&mut library, &bridged, &orders), 22);
}

/// Every image of up to 3 vertices, with each number of the header and each field behind it altered.
#[test]
fn each_field_of_small_images_altered() {
    let mut library = Library::start();
    for n in 0..=3 {
        for bytes in every_image(&FORM_4, n, 1) {
            let values = || (0..=n as u32 + 1).chain([0xff, 0xffff, 0x1_0000, u32::MAX]);
            let mut altered = Vec::new();
            for value in values() {
                for number in 0..12 {
                    let mut other = bytes.clone();
                    other[4 * number..4 * number + 4].copy_from_slice(&value.to_le_bytes());
                    altered.push(other);
                }
                for field in 0..Fields::of(&mut bytes.clone()).count {
                    let mut other = bytes.clone();
                    Fields::of(&mut other).set(field, value as usize);
                    altered.push(other);
                }
            }
            for other in altered {
                let lent = Lent { marks: n, words: 16 * n + 4 * n + 64 };
                compare::open_by(&mut library, Face::Hierarchy, &other, lent);
                compare::ask_by(&mut library, Face::Hierarchy, &other, 0, 1, lent);
            }
        }
    }
}

#[test]
fn damage_short_memory_and_vertices_out_of_range_are_refused() {
    let (mut library, mut chance) = (Library::start(), Chance::new(145));
    let (mut met, mut converted) = (BTreeSet::new(), BTreeSet::new());
    for round in 0..300 {
        let n = chance.between(0, 14);
        let graph = if round % 4 == 0 { chance.graph(Kind::ALL[round / 4 % Kind::ALL.len()], n) } else { forest(&mut chance, n) };
        let orders = chance.orders(n, if round % 5 == 0 { 2 } else { 1 });
        let index = Index::of(&graph, &orders);
        for way in [Way::ToHierarchy, Way::FromHierarchy] {
            let (bytes, room) = (encode(&way.from(), &index), encode(&way.to(), &index).len());
            for image in [chance.any_damage(&bytes), chance.any_damage(&bytes), encode(&way.to(), &index), bytes] {
                for lent in Lent::around(&image) {
                    let (source, target) = (chance.below(n + 1) as u32, chance.below(n + 1) as u32);
                    met.insert(compare::open_by(&mut library, Face::Hierarchy, &image, lent));
                    met.insert(compare::ask_by(&mut library, Face::Hierarchy, &image, source, target, lent));
                    for room in [room, room + 3, room - 1, 0] {
                        converted.insert((way.from().number, compare::convert(&mut library, way, &image, lent, room)));
                    }
                }
            }
        }
    }
    assert_eq!(met, [0, 6, 10, 11, 12, 13, 14, 15].into(), "the refusals met");
    let told = [2, 4].into_iter().flat_map(|form| [0, 6, 9, 10, 11, 12, 13, 15].map(|refusal| (form, refusal)));
    assert_eq!(converted, told.chain([(2, 4), (2, 22)]).collect(), "the refusals met in converting, by the form that is turned");
}

#[test]
fn builds_into_exact_and_short_memory_with_bad_edges_and_orders() {
    let (mut library, mut chance) = (Library::start(), Chance::new(146));
    for _ in 0..300 {
        let n = chance.between(0, 30);
        let graph = forest(&mut chance, n);
        let mut input = Input::of(&FORM_4, &graph, &chance.orders(n, 1));
        compare::build_around(&mut library, Face::Hierarchy, &input);
        spoil(&mut chance, &mut input);
        compare::build_around(&mut library, Face::Hierarchy, &input);
    }
}

/// 22 comes behind 8 and before 9, and carries the smallest name, not the place: in the second graph the groups 3 and 4 are shared, at places 2 and 3.
#[test]
fn the_smallest_shared_name_is_told() {
    let mut library = Library::start();
    for (graph, name) in [
        (Graph::new(4, &[(0, 1), (0, 2), (3, 1)]), 1),
        (Graph::new(5, &[(0, 1), (1, 0), (0, 4), (2, 4), (0, 3), (2, 3)]), 3),
    ] {
        let n = graph.n;
        let mut input = Input::of(&FORM_4, &graph, &[(0..n).collect()]);
        let refusal = library.build(Face::Hierarchy, &input, &mut vec![7; input.work_needed()], &mut []).unwrap_err();
        assert_eq!((refusal.number, refusal.extra), (22, name));
        input.orders[0] = 1;
        assert_eq!(compare::build(&mut library, Face::Hierarchy, &input, input.work_needed(), 0), 8);
    }
}

/// Bytes that are right but for the number in front, and bytes that are right: each call takes its own form and gives 11 for the others, with nothing altered.
#[test]
fn each_call_takes_its_own_form() {
    let (mut library, mut chance) = (Library::start(), Chance::new(147));
    for _ in 0..20 {
        let n = chance.between(1, 12);
        let graph = forest(&mut chance, n);
        let orders = chance.orders(n, 1);
        let good = image(&FORM_4, &graph, &orders);
        for number in [0, 1, 2, 3, 4, 5, 260, 0x1_0004, 0x8000_0004, u32::MAX] {
            let bytes = [&number.to_le_bytes()[..], &good[4..]].concat();
            for lent in [Lent::needed(&good), Lent { marks: 0, words: 0 }] {
                let own = [
                    compare::open_by(&mut library, Face::Hierarchy, &bytes, lent),
                    compare::ask_by(&mut library, Face::Hierarchy, &bytes, 0, 0, lent),
                    compare::convert(&mut library, Way::FromHierarchy, &bytes, lent, 2_000),
                ];
                assert!(own.iter().all(|&refusal| (refusal == 11) == (number != 4)), "form {number}: {own:?}");
                let others = [
                    compare::open_by(&mut library, Face::Ordinary, &bytes, lent),
                    compare::open_by(&mut library, Face::Turned, &bytes, lent),
                    compare::open_by(&mut library, Face::Host, &bytes, lent),
                    compare::list(&mut library, Face::Ordinary, &bytes, 0, lent, n),
                    compare::convert(&mut library, Way::ToHierarchy, &bytes, lent, 2_000),
                ];
                assert!(number != 4 || others.iter().all(|&refusal| refusal == 11), "form 4 to other calls: {others:?}");
            }
        }
        for form in [FORM_1, FORM_2, FORM_3] {
            let bytes = image(&form, &graph, &orders);
            assert_eq!(compare::open_by(&mut library, Face::Hierarchy, &bytes, Lent::needed(&bytes)), 11);
        }
        let mut input = Input::of(&FORM_4, &graph, &orders);
        assert_eq!(compare::build(&mut library, Face::Ordinary, &input, input.work_needed(), input.room()), 11);
        for form in [0, 1, 2, 3, 4, 5] {
            input.form = form;
            assert_eq!(compare::build(&mut library, Face::Hierarchy, &input, input.work_needed(), 4_000), 0, "it is told no form");
        }
    }
}

/// What is within form 2's bounds, which are form 4's, and what is one over them; d is 1.
#[test]
fn bounds_are_those_of_form_2_with_one_labelling() {
    let mut library = Library::start();
    let (most, most_edges) = (FORM_4.most_vertices, FORM_4.most_edges);
    for (n, m, refusal) in [(most, 3, 0), (most + 1, 3, 1), (5, most_edges, 0), (5, most_edges + 1, 3), (most + 1, most_edges + 1, 1)] {
        let mut input = Input::of(&FORM_4, &Graph { n, edges: vec![(0, 1); m] }, &[(0..n).collect()]);
        assert_eq!(compare::build(&mut library, Face::Hierarchy, &input, input.work_needed(), input.room()), refusal, "{n} vertices, {m} edges");
        input.targets.pop();
        assert_eq!(compare::build(&mut library, Face::Hierarchy, &input, 0, 0), if refusal == 1 { 1 } else { 2 }, "{n} vertices, {m} and {} edge ends", m - 1);
    }
    for d in [0, 2, 5, 6] {
        assert_eq!(build(&mut library, &Graph::new(3, &[(0, 1)]), &vec![vec![0, 1, 2]; d]), 4, "{d} orders");
    }
    let none = |n: usize| image(&FORM_4, &Graph::new(n, &[]), &[(0..n).collect()]);
    for (n, refusal) in [(FORM_1.most_vertices + 1, 0), (most, 0), (most + 1, 12)] {
        assert_eq!(compare::open_by(&mut library, Face::Hierarchy, &none(n), Lent { marks: n, words: 16 * n + 64 }), refusal, "{n} vertices");
    }
    let two = image(&FORM_4, &Graph::new(3, &[(0, 1)]), &vec![vec![0, 1, 2]; 2]);
    assert_eq!(compare::open_by(&mut library, Face::Hierarchy, &two, Lent { marks: 3, words: 200 }), 12, "two labellings");
}

/// A line of 200,000 groups: built, opened, asked, turned into form 2 and back on a stack of 64 KB, in exact memory.
#[test]
fn a_line_of_200000_groups_on_a_small_stack() {
    let (mut library, n) = (Library::start(), FORM_4.most_vertices);
    library.stack = 65_536;
    let line = Graph { n, edges: (1..n).map(|v| (v - 1, v)).collect() };
    let bytes = library.built(Face::Hierarchy, &Input::of(&FORM_4, &line, &[(0..n).collect()]));
    let of_2 = image(&FORM_2, &line, &[(0..n).collect()]);
    assert!(bytes == image(&FORM_4, &line, &[(0..n).collect()]));
    let needed = Lent::needed(&bytes);
    let last = n as u32 - 1;
    assert_eq!(compare::open_by(&mut library, Face::Hierarchy, &bytes, needed), 0);
    for (source, target) in [(0, last), (last, 0)] {
        let (mut marks, mut words) = (vec![7; needed.marks], vec![7; needed.words]);
        let said = library.ask(Face::Hierarchy, &bytes, source, target, &mut marks, &mut words).expect("it is answered");
        assert_eq!((said.yes, said.reason), if source == 0 { (true, 2) } else { (false, 3) }, "{source} to {target}");
    }
    assert_eq!(compare::convert(&mut library, Way::FromHierarchy, &bytes, needed, of_2.len()), 0);
    assert_eq!(compare::convert(&mut library, Way::ToHierarchy, &of_2, needed, bytes.len()), 0);
}
