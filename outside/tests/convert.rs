//! An index turned from form 1 into form 2 and back, beside the independent program: bytes, every question's answer, refusals in order, marks, words and output.

use independent::chance::{Chance, Kind};
use independent::stored::{encode, image};
use independent::{Counts, Graph, Index, FORM_1, FORM_2, ORDINARY};
use outside::compare::{self, Lent};
use outside::{Face, Library, Way};

/// Form 1 turned into form 2, and back.
const WAYS: [Way; 2] = [Way::Up, Way::Down];

/// The other form of an index, as the library writes it.
fn converted(library: &mut Library, way: Way, index: &[u8]) -> Vec<u8> {
    let Lent { marks, words } = Lent::needed(index);
    let mut out = vec![0; 2 * index.len()];
    let total = library.convert(way, index, &mut vec![7; marks], &mut vec![7; words], &mut out).expect("it fits");
    out.truncate(total as usize);
    out
}

#[test]
fn there_and_back_gives_the_same_bytes() {
    let (mut library, mut chance) = (Library::start(), Chance::new(91));
    for round in 0..300 {
        let n = chance.between(0, 40);
        let graph = chance.graph(Kind::ALL[round % Kind::ALL.len()], n);
        let d = chance.between(1, 5);
        let index = Index::of(&graph, &chance.orders(graph.n, d));
        for way in WAYS {
            let bytes = encode(&way.from(), &index);
            let turned = converted(&mut library, way, &bytes);
            assert!(turned == encode(&way.to(), &index), "the bytes are those of a build");
            assert!(converted(&mut library, way.back(), &turned) == bytes, "there and back");
            for (lent, room) in [(Lent::needed(&bytes), turned.len()), (Lent::needed(&bytes).more(3, 2), turned.len() + 5), (Lent::needed(&bytes), turned.len() - 1)] {
                compare::convert(&mut library, way, &bytes, lent, room);
            }
        }
    }
}

/// Every question of the turned bytes and of those that were turned: the same answer, reason, count, labelling and marks.
#[test]
fn every_question_keeps_its_answer() {
    let (mut library, mut chance) = (Library::start(), Chance::new(92));
    for round in 0..100 {
        let n = chance.between(1, 20);
        let graph = chance.graph(Kind::ALL[round % Kind::ALL.len()], n);
        let d = chance.between(1, 3);
        let index = Index::of(&graph, &chance.orders(n, d));
        let pairs = compare::pairs(&mut chance, n, 400);
        let before = encode(&FORM_1, &index);
        let after = converted(&mut library, Way::Up, &before);
        let [of_1, of_2] = [&before, &after].map(|bytes| {
            let Lent { marks, words } = Lent::needed(bytes);
            library.ask_many(Face::Ordinary, bytes, &vec![7; marks], &vec![7; words], &pairs)
        });
        for ((one, other), (u, v)) in of_1.into_iter().zip(of_2).zip(pairs) {
            assert_eq!((one.said, one.marks), (other.said, other.marks), "{u} to {v}");
        }
    }
}

#[test]
fn damaged_images_and_the_wrong_form_are_refused() {
    let (mut library, mut chance) = (Library::start(), Chance::new(93));
    for _ in 0..300 {
        let n = chance.between(0, 12);
        let graph = chance.any_graph(n);
        let d = chance.between(1, 3);
        let index = Index::of(&graph, &chance.orders(n, d));
        for way in WAYS {
            let (bytes, room) = (encode(&way.from(), &index), encode(&way.to(), &index).len());
            let number = chance.one_of(&[0, 3, 4, u32::MAX, way.to().number]);
            let other_form = [&number.to_le_bytes()[..], &bytes[4..]].concat();
            assert_eq!(compare::convert(&mut library, way, &other_form, Lent::needed(&bytes), room), 11);
            for image in [chance.any_damage(&bytes), chance.any_damage(&bytes), encode(&way.to(), &index), bytes] {
                for lent in Lent::around(&image) {
                    for room in [room, room + 3, room - 1, 0] {
                        compare::convert(&mut library, way, &image, lent, room);
                    }
                }
            }
        }
    }
}

/// Two sides of groups and so many edges between them, vertices in a line, and vertices in a cycle.
fn sides(c: usize) -> Graph {
    Graph { n: 400, edges: (0..c).map(|i| (i / 200, 200 + i % 200)).collect() }
}

fn line(n: usize) -> Graph {
    Graph { n, edges: (1..n).map(|v| (v - 1, v)).collect() }
}

fn cycle(n: usize) -> Graph {
    Graph { n, edges: (0..n).map(|v| (v, (v + 1) % n)).collect() }
}

/// n, k and c at form 1's bounds fit and are turned back; one over any of them is 19, which comes before 9.
#[test]
fn what_is_beyond_form_1_is_refused_with_19() {
    let (mut library, mut chance) = (Library::start(), Chance::new(94));
    for (graph, fits) in [(sides(16_384), true), (sides(16_385), false), (line(4_096), true), (line(4_097), false), (cycle(4_096), true), (cycle(4_097), false)] {
        let index = Index::of(&graph, &chance.orders(graph.n, 1));
        let Counts { n, k, c, .. } = Counts::of(&index);
        assert_eq!(n <= 4_096 && k <= 4_096 && c <= 16_384, fits);
        let bytes = encode(&FORM_2, &index);
        let total = encode(&FORM_1, &index).len();
        for (room, refusal) in [(total, 0), (total - 1, 9), (0, 9)] {
            let refusal = if fits { refusal } else { 19 };
            assert_eq!(compare::convert(&mut library, Way::Down, &bytes, Lent::needed(&bytes).more(1, 1), room), refusal, "n {n}, k {k}, c {c} into {room}");
        }
        if fits {
            assert!(converted(&mut library, Way::Up, &encode(&FORM_1, &index)) == bytes, "form 1 at its bounds is turned into form 2");
        }
    }
}

/// The largest indexes of form 1, of every kind, there and back.
#[test]
fn the_largest_indexes_of_form_1() {
    let (mut library, mut chance) = (Library::start(), Chance::new(95));
    for kind in Kind::ALL {
        let graph = chance.graph(kind, 4_096);
        let index = Index::of(&graph, &chance.orders(graph.n, 5));
        let stored = ORDINARY.map(|form| encode(&form, &index));
        for (i, way) in WAYS.into_iter().enumerate() {
            assert!(converted(&mut library, way, &stored[i]) == stored[1 - i]);
        }
    }
}

/// A region is refused with 19, with marks and words at 0, on a stack of 64 KB.
#[test]
fn a_region_does_not_fit_form_1() {
    let (mut library, n) = (Library::start(), FORM_2.most_vertices);
    library.stack = 65_536;
    let bytes = image(&FORM_2, &line(n), &[(0..n).collect()]);
    assert_eq!(compare::convert(&mut library, Way::Down, &bytes, Lent::needed(&bytes).more(1, 1), bytes.len()), 19);
    assert_eq!(compare::convert(&mut library, Way::Up, &bytes, Lent::needed(&bytes).more(1, 1), bytes.len()), 11);
}
