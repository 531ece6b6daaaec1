//! Open beside the independent program, in both forms: bytes open exactly when some edge list and some orders made them.

use independent::chance::{Chance, Fields, Kind};
use independent::every::every_image;
use independent::stored::encode;
use independent::{Counts, Form, Index, FORM_1, ORDINARY};
use outside::compare::{self, Lent};
use outside::{Face, Library, FACES};
use std::collections::BTreeSet;

/// What open makes of bytes that are said to be of n vertices, of which `set` holds those that some graph and orders yield: it opens exactly these. Whatever opens or is
/// refused with 15 leaves marks below n and the words needed at 0; all else leaves them as they were.
fn opens(library: &mut Library, form: &Form, n: usize, set: &BTreeSet<Vec<u8>>, bytes: &[u8]) {
    let held = Counts::read(bytes, &ORDINARY);
    let needed = held.map_or(0, |(form, counts)| form.words_needed(&counts));
    for face in if *form == FORM_1 { &FACES[..] } else { &FACES[..1] } {
        let behind = if *face == Face::Host { 0 } else { 2 };
        let (mut marks, mut words) = (vec![7; n + 3], vec![7; needed + behind]);
        assert_eq!(library.open(*face, bytes, &mut marks, &mut words).is_ok(), set.contains(bytes), "{bytes:?}");
        let left = if held.is_ok() { 0 } else { 7 };
        assert!(marks[..n].iter().all(|&mark| mark == left) && marks[n..] == [7; 3], "marks {marks:?} after {bytes:?}");
        let (first, behind) = words.split_at(needed);
        assert!(first.iter().all(|&word| word == 0) && behind.iter().all(|&word| word == 7), "words after {bytes:?}");
    }
}

/// Every image of the set opens; of all its single-field alterations, swaps of neighbouring fields, cuts and lengthenings exactly those open that are in the set.
fn images_of_all_graphs(form: &Form, n: usize, d: usize, step: usize) {
    let mut library = Library::start();
    let set: BTreeSet<Vec<u8>> = every_image(form, n, d);
    let mut opens = |bytes: &[u8]| opens(&mut library, form, n, &set, bytes);
    for (i, bytes) in set.iter().enumerate() {
        opens(bytes);
        if i % step != 0 {
            continue;
        }
        let fields = Fields::of(&mut bytes.clone()).count;
        for field in 0..fields {
            for value in (0..=n + 1).chain([0xffff, 0x1_0000, u32::MAX as usize]) {
                let mut altered = bytes.clone();
                Fields::of(&mut altered).set(field, value);
                opens(&altered);
            }
            if field + 1 < fields {
                let mut swapped = bytes.clone();
                Fields::of(&mut swapped).swap(field, field + 1);
                opens(&swapped);
            }
        }
        for size in [0, 47, 48, bytes.len() - 1, bytes.len() - 2] {
            opens(&bytes[..size.min(bytes.len() - 1)]);
        }
        opens(&[bytes.as_slice(), &[0]].concat());
        opens(&[bytes.as_slice(), &[0, 0]].concat());
    }
}

#[test]
fn all_images_of_up_to_two_vertices() {
    for form in ORDINARY {
        for (n, d) in [(0, 1), (1, 1), (1, 2), (2, 1), (2, 2)] {
            images_of_all_graphs(&form, n, d, 1);
        }
    }
}

#[test]
fn all_images_of_three_vertices() {
    for form in ORDINARY {
        images_of_all_graphs(&form, 3, 1, 1);
        images_of_all_graphs(&form, 3, 2, 16);
    }
}

#[test]
fn all_images_of_four_vertices() {
    for form in ORDINARY {
        images_of_all_graphs(&form, 4, 1, 64);
    }
}

/// The same without leaving any image out: minutes, so only when asked for (`cargo test --release --test open -- --ignored`).
#[test]
#[ignore]
fn all_alterations_of_all_images() {
    for form in ORDINARY {
        images_of_all_graphs(&form, 3, 2, 1);
        images_of_all_graphs(&form, 4, 1, 1);
    }
}

#[test]
fn damaged_images_of_random_graphs() {
    let (mut library, mut chance) = (Library::start(), Chance::new(21));
    for _ in 0..400 {
        let n = chance.between(0, 30);
        let graph = chance.any_graph(n);
        let d = chance.between(1, 5);
        let index = Index::of(&graph, &chance.orders(graph.n, d));
        for form in ORDINARY {
            let bytes = encode(&form, &index);
            compare::open_around(&mut library, &bytes);
            for _ in 0..10 {
                compare::open_around(&mut library, &chance.any_damage(&bytes));
            }
        }
    }
}

#[test]
fn the_largest_images_of_form_1_open() {
    let (mut library, mut chance) = (Library::start(), Chance::new(22));
    for kind in Kind::ALL {
        let graph = chance.graph(kind, 4_096);
        let index = Index::of(&graph, &chance.orders(graph.n, 5));
        for form in ORDINARY {
            let bytes = encode(&form, &index);
            for image in [chance.any_damage(&bytes), bytes] {
                compare::open(&mut library, &image, Lent::needed(&image));
            }
        }
    }
}
