//! The turned index, form 3, beside the ordinary one of the same edge list and beside the independent program: who feeds whom, upstream lists, names, the forms that each
//! call takes, refusals in order, marks, words and outputs.

use independent::chance::{Chance, Kind};
use independent::closure::Closure;
use independent::stored::{encode, image};
use independent::{Form, Graph, Index, FORM_1, FORM_2, FORM_3, ORDINARY};
use outside::compare::{self, Input, Lent};
use outside::inputs::spoil;
use outside::{Face, Library};

/// What the library builds of an edge list: the ordinary index in each form, and the turned one, each under orders of its own.
struct Both {
    graph: Graph,
    ordinary: [Vec<u8>; 2],
    turned: Vec<u8>,
    turned_index: Index,
}

impl Both {
    fn built(library: &mut Library, chance: &mut Chance, graph: Graph) -> Both {
        let mut orders = || {
            let d = chance.between(1, 5);
            chance.orders(graph.n, d)
        };
        let (ordinary_orders, turned_orders) = (orders(), orders());
        let ordinary = ORDINARY.map(|form| library.built(Face::Ordinary, &Input::of(&form, &graph, &ordinary_orders)));
        let turned = library.built(Face::Turned, &Input::of(&FORM_3, &graph, &turned_orders));
        let turned_index = Index::of(&graph.turned(), &turned_orders);
        assert!(turned == encode(&FORM_3, &turned_index), "its bytes are those of the turned edges in form 3");
        Both { graph, ordinary, turned, turned_index }
    }
}

/// Whether the library says yes, of each pair.
fn yes(library: &mut Library, face: Face, index: &[u8], pairs: &[(u32, u32)]) -> Vec<bool> {
    let Lent { marks, words } = Lent::needed(index);
    library.ask_many(face, index, &vec![7; marks], &vec![7; words], pairs).into_iter().map(|reply| reply.said.expect("it is answered").yes).collect()
}

#[test]
fn u_feeds_v_by_the_one_exactly_when_v_is_fed_by_u_through_the_other() {
    let (mut library, mut chance) = (Library::start(), Chance::new(131));
    for round in 0..150 {
        let n = chance.between(1, 20);
        let graph = chance.graph(Kind::ALL[round % Kind::ALL.len()], n);
        let both = Both::built(&mut library, &mut chance, graph);
        let pairs = compare::pairs(&mut chance, n, 400);
        let turned_pairs: Vec<(u32, u32)> = pairs.iter().map(|&(u, v)| (v, u)).collect();
        let fed = yes(&mut library, Face::Turned, &both.turned, &turned_pairs);
        let closure = Closure::of(&both.graph);
        assert!(pairs.iter().zip(&fed).all(|(&(u, v), &fed)| fed == closure.reaches(u as usize, v as usize)), "a path of the edges as given: {:?}", both.graph);
        for bytes in &both.ordinary {
            assert_eq!(yes(&mut library, Face::Ordinary, bytes, &pairs), fed, "by {} bytes: {:?}", bytes.len(), both.graph);
        }
        compare::ask_stored(&mut library, &both.graph.turned(), &both.turned_index, &[(both.turned.clone(), Face::Turned)], &pairs);
    }
}

/// The numbers of a section, by its position, as the header tells its offset.
fn section(index: &[u8], form: &Form, section: usize) -> Vec<u64> {
    let number = |bytes: &[u8]| bytes.iter().rev().fold(0, |number, &byte| number << 8 | u64::from(byte));
    let offset = |i: usize| number(&index[4 * (5 + i)..4 * (6 + i)]) as usize;
    index[offset(section)..offset(section + 1)].chunks(form.width).map(number).collect()
}

#[test]
fn names_agree() {
    let (mut library, mut chance) = (Library::start(), Chance::new(132));
    for round in 0..300 {
        let n = chance.between(0, 40);
        let graph = chance.graph(Kind::ALL[round % Kind::ALL.len()], n);
        let both = Both::built(&mut library, &mut chance, graph);
        for (form, bytes) in ORDINARY.iter().zip(&both.ordinary) {
            for part in [0, 1] {
                assert_eq!(section(&both.turned, &FORM_3, part), section(bytes, form, part), "names and group list: {:?}", both.graph);
            }
        }
    }
}

#[test]
fn upstream_lists() {
    let (mut library, mut chance) = (Library::start(), Chance::new(133));
    for round in 0..150 {
        let n = chance.between(0, 16);
        let graph = chance.graph(Kind::ALL[round % Kind::ALL.len()], n);
        let Both { graph, turned, .. } = Both::built(&mut library, &mut chance, graph);
        let (closure, turned_closure) = (Closure::of(&graph), Closure::of(&graph.turned()));
        let Lent { marks, words } = Lent::needed(&turned);
        for vertex in 0..n {
            let told = turned_closure.downstream(vertex);
            assert!((0..n).all(|v| v == vertex || told.contains(&v) == closure.reaches(v, vertex)), "upstream of {vertex} is what reaches it");
            let mut list = vec![0; told.len()];
            assert_eq!(library.list(Face::Turned, &turned, vertex as u32, &mut vec![7; marks], &mut vec![7; words], &mut list), Ok(told.len() as u32));
            assert!(list.iter().map(|&v| v as usize).eq(told), "the list of {vertex}: {graph:?}");
        }
        for vertex in 0..=n as u32 {
            compare::list_around(&mut library, Face::Turned, &turned, vertex);
        }
    }
}

/// The numbers of the refusals of all calls on stored bytes: the ordinary ones, those of the C host, and those on a turned index.
fn refusals(library: &mut Library, index: &[u8], vertex: u32, lent: Lent) -> ([u32; 4], [u32; 2], [u32; 3]) {
    let ordinary = compare::calls(library, index, vertex, lent);
    let host = [compare::open_by(library, Face::Host, index, lent), compare::ask_by(library, Face::Host, index, 0, vertex, lent)];
    (ordinary, host, turned_calls(library, index, vertex, lent))
}

/// Open, a question and a list of the same bytes; the question's target and the list's vertex may be out of range.
fn turned_calls(library: &mut Library, index: &[u8], vertex: u32, lent: Lent) -> [u32; 3] {
    [
        compare::open_by(library, Face::Turned, index, lent),
        compare::ask_by(library, Face::Turned, index, 0, vertex, lent),
        compare::list(library, Face::Turned, index, vertex, lent, 5),
    ]
}

/// Bytes that are right but for the number in front, and bytes that are right: each call takes its own forms and gives 11 for the others, with nothing altered, whatever
/// else is wrong.
#[test]
fn each_call_takes_its_own_forms() {
    let (mut library, mut chance) = (Library::start(), Chance::new(134));
    for round in 0..40 {
        let n = chance.between(1, 12);
        let graph = chance.graph(Kind::ALL[round % Kind::ALL.len()], n);
        let index = Index::of(&graph, &chance.orders(n, 2));
        for form in [FORM_1, FORM_2, FORM_3] {
            let good = encode(&form, &index);
            for number in [0, 1, 2, 3, 4, 5, 257, 258, 259, 0x1_0003, 0x8000_0003, u32::MAX] {
                let bytes = [&number.to_le_bytes()[..], &good[4..]].concat();
                for lent in [Lent::needed(&good), Lent { marks: 0, words: 0 }] {
                    let (ordinary, host, turned) = refusals(&mut library, &bytes, chance.below(n + 1) as u32, lent);
                    let other = |refusals: &[u32], taken: bool| refusals.iter().all(|&refusal| (refusal == 11) != taken);
                    assert!(other(&ordinary, [1, 2].contains(&number)), "form {number} to the ordinary calls: {ordinary:?}");
                    assert!(other(&host, number == 1), "form {number} to the host: {host:?}");
                    assert!(other(&turned, number == 3), "form {number} to the turned calls: {turned:?}");
                }
            }
            let (ordinary, _, turned) = refusals(&mut library, &good, 0, Lent::needed(&good));
            assert_eq!((ordinary[0], turned[0]), if form == FORM_3 { (11, 0) } else { (0, 11) }, "form {} is right", form.number);
        }
    }
}

/// The ordinary build is told a form, and takes no turned one; the turned one is told none.
#[test]
fn a_build_of_form_3_is_the_turned_one() {
    let (mut library, mut chance) = (Library::start(), Chance::new(135));
    let graph = chance.graph(Kind::Cycles, 9);
    let mut input = Input::of(&FORM_3, &graph, &chance.orders(9, 2));
    for (form, refusal) in [(1, 0), (2, 0), (3, 11), (4, 11)] {
        input.form = form;
        assert_eq!(compare::build(&mut library, Face::Ordinary, &input, input.work_needed(), input.room() + 500), refusal, "form {form}");
        assert_eq!(compare::build(&mut library, Face::Turned, &input, input.work_needed(), input.room() + 500), 0);
    }
}

#[test]
fn damage_short_memory_and_vertices_out_of_range_are_refused() {
    let (mut library, mut chance) = (Library::start(), Chance::new(136));
    let mut met = std::collections::BTreeSet::new();
    for round in 0..250 {
        let n = chance.between(0, 14);
        let graph = chance.graph(Kind::ALL[round % Kind::ALL.len()], n);
        let d = chance.between(1, 3);
        let bytes = image(&FORM_3, &graph, &chance.orders(n, d));
        for image in [chance.any_damage(&bytes), chance.any_damage(&bytes), bytes] {
            for lent in Lent::around(&image) {
                met.extend(turned_calls(&mut library, &image, chance.below(n + 1) as u32, lent));
                met.insert(compare::ask_by(&mut library, Face::Turned, &image, chance.one_of(&[n as u32, u32::MAX]), n as u32, lent));
            }
        }
    }
    assert_eq!(met, [0, 6, 10, 11, 12, 13, 14, 15, 16].into(), "the refusals met");
}

#[test]
fn builds_into_exact_and_short_memory_with_bad_edges_and_orders() {
    let (mut library, mut chance) = (Library::start(), Chance::new(137));
    for round in 0..300 {
        let n = chance.between(0, 30);
        let graph = chance.graph(Kind::ALL[round % Kind::ALL.len()], n);
        let d = chance.between(1, 5);
        let mut input = Input::of(&FORM_3, &graph, &chance.orders(n, d));
        compare::build_around(&mut library, Face::Turned, &input);
        spoil(&mut chance, &mut input);
        compare::build_around(&mut library, Face::Turned, &input);
    }
}

/// 7 names the edge as it stands in the lists given, whichever end is bad.
#[test]
fn the_first_bad_edge_is_named() {
    let mut library = Library::start();
    for (sources, targets, edge) in [([0, 1, 2], [1, 2, 3], 2), ([0, 3, 2], [1, 2, 3], 1), ([0, 1, 3], [3, 2, 1], 0)] {
        let input = Input { form: 3, n: 3, sources: sources.to_vec(), targets: targets.to_vec(), orders: vec![0, 1, 2], d: 1 };
        assert_eq!(compare::build(&mut library, Face::Turned, &input, input.work_needed(), 500), 7);
        let refusal = library.build(Face::Turned, &input, &mut vec![7; input.work_needed()], &mut [7; 500]).unwrap_err();
        assert_eq!((refusal.number, refusal.extra), (7, edge));
    }
}

/// What is within form 2's bounds, which are form 3's, and what is one over them.
#[test]
fn bounds_are_those_of_form_2() {
    let mut library = Library::start();
    let (most, most_edges) = (FORM_2.most_vertices, FORM_2.most_edges);
    for (n, m, refusal) in [(most, 3, 0), (most + 1, 3, 1), (5, most_edges, 0), (5, most_edges + 1, 3), (most + 1, most_edges + 1, 1)] {
        let mut input = Input::of(&FORM_3, &Graph { n, edges: vec![(0, 1); m] }, &[(0..n).collect()]);
        assert_eq!(compare::build(&mut library, Face::Turned, &input, input.work_needed(), input.room()), refusal, "{n} vertices, {m} edges");
        input.targets.pop();
        assert_eq!(compare::build(&mut library, Face::Turned, &input, 0, 0), if refusal == 1 { 1 } else { 2 }, "{n} vertices, {m} and {} edge ends", m - 1);
    }
    for (n, refusal) in [(FORM_1.most_vertices + 1, 0), (most, 0), (most + 1, 12)] {
        let bytes = image(&FORM_3, &Graph::new(n, &[]), &[(0..n).collect()]);
        let lent = Lent { marks: n, words: 16 * n + 64 };
        assert_eq!(compare::open_by(&mut library, Face::Turned, &bytes, lent), refusal, "{n} vertices");
    }
}

/// A line of 200,000 groups: built, opened, asked and listed on a stack of 64 KB, in exact memory.
#[test]
fn a_line_of_200000_groups_on_a_small_stack() {
    let (mut library, n) = (Library::start(), FORM_3.most_vertices);
    library.stack = 65_536;
    let line = Graph { n, edges: (1..n).map(|v| (v - 1, v)).collect() };
    let bytes = library.built(Face::Turned, &Input::of(&FORM_3, &line, &[(0..n).collect()]));
    assert!(bytes == image(&FORM_3, &line.turned(), &[(0..n).collect()]));
    let needed = Lent::needed(&bytes);
    let last = n as u32 - 1;
    assert_eq!(compare::open_by(&mut library, Face::Turned, &bytes, needed), 0);
    for (source, target) in [(last, 0), (0, last)] {
        let (mut marks, mut words) = (vec![7; needed.marks], vec![7; needed.words]);
        let said = library.ask(Face::Turned, &bytes, source, target, &mut marks, &mut words).expect("it is answered");
        assert_eq!(said.yes, source == last, "{source} is fed by {target}");
    }
    let mut upstream = vec![7; n];
    assert_eq!(library.list(Face::Turned, &bytes, last, &mut vec![7; needed.marks], &mut vec![7; needed.words], &mut upstream), Ok(last));
    assert!(upstream.pop() == Some(7) && upstream.into_iter().eq(0..last));
}
