//! The header's twelve numbers, each altered, and marks and words that are too few, in both forms: open, ask, list and the call for all pairs beside the independent
//! program, with every lent buffer.

use independent::chance::{Chance, Kind};
use independent::stored::{encode, little_endian};
use independent::{Counts, Form, Graph, Index, ORDINARY};
use outside::compare::{self, Lent};
use outside::Library;
use std::collections::BTreeSet;

const NUMBERS: usize = 12;

fn number(bytes: &[u8], i: usize) -> u32 {
    little_endian(&bytes[4 * i..4 * i + 4]) as u32
}

fn altered(bytes: &[u8], i: usize, value: u32) -> Vec<u8> {
    let mut bytes = bytes.to_vec();
    bytes[4 * i..4 * i + 4].copy_from_slice(&value.to_le_bytes());
    bytes
}

/// No vertices, the graph G of the document under both its orders, and larger ones with and without loops.
fn images(form: &Form) -> Vec<Vec<u8>> {
    let mut chance = Chance::new(61);
    let g = Graph { n: 6, edges: vec![(0, 1), (1, 2), (2, 1), (0, 3), (3, 4), (2, 4), (5, 5)] };
    let mut indexes = vec![Index::of(&Graph { n: 0, edges: vec![] }, &[vec![]]), Index::of(&g, &[(0..6).collect(), (0..6).rev().collect()])];
    for (kind, n, d) in [(Kind::Cycles, 30, 1), (Kind::Dag, 40, 5), (Kind::Star, 300, 2)] {
        let graph = chance.graph(kind, n);
        indexes.push(Index::of(&graph, &chance.orders(graph.n, d)));
    }
    indexes.iter().map(|index| encode(form, index)).collect()
}

/// Values for one number of a header: near its own, all other numbers of the header, small ones, the bounds of the documents, and the ends of 16 and 32 bits.
fn values(header: &[u32; NUMBERS], own: u32) -> BTreeSet<u32> {
    let near = [1, 2, 3, 16, 256, 1 << 16, 1 << 24].into_iter().flat_map(|by| [own.wrapping_sub(by), own.wrapping_add(by), own ^ by]);
    let bounds = [4_096, 16_384, 200_000, 1_000_000].into_iter().flat_map(|most| most - 1..=most + 1);
    let ends = [0x7fff, 0x8000, 0xffff, 0x1_0000, 0x7fff_ffff, 0x8000_0000, u32::MAX - 1, u32::MAX];
    let mut values: BTreeSet<u32> = near.chain(bounds).chain(ends).chain(0..=8).chain(header.iter().copied()).collect();
    values.remove(&own);
    values
}

/// With any one of its numbers altered a header is refused: with 11 for a form that is not 1 or 2, with 12 for all else; but the labellings of no groups take no bytes, so
/// any d of 1 to 5 is right there.
#[test]
fn each_number_of_the_header_altered() {
    let mut library = Library::start();
    for bytes in ORDINARY.iter().flat_map(images) {
        let header: [u32; NUMBERS] = std::array::from_fn(|i| number(&bytes, i));
        let [_, n, k, ..] = header;
        let Lent { marks, words } = Lent::needed(&bytes);
        for i in 0..NUMBERS {
            for value in values(&header, header[i]) {
                let right = i == 4 && k == 0 && (1..=5).contains(&value);
                let other_form = i == 0 && ![1, 2].contains(&value);
                for lent in [Lent { marks: marks.saturating_sub(1), words }, Lent { marks: marks + 3, words: words.saturating_sub(1) }, Lent { marks: marks + 3, words: words + 1 }] {
                    for vertex in [0, n] {
                        let refusals = compare::calls(&mut library, &altered(&bytes, i, value), vertex, lent);
                        assert!(right || refusals == [if other_form { 11 } else { 12 }; 4], "number {i} is {value}: {refusals:?}");
                    }
                }
            }
        }
    }
}

/// One count altered, with the offsets and the total that it gives and bytes of that total: 12 exactly where a count is out of its bounds, otherwise what the contents say.
/// With fewer labellings what is left is sound.
#[test]
fn each_count_altered_in_a_header_that_fits() {
    let mut library = Library::start();
    for form in ORDINARY {
        let mut met = BTreeSet::new();
        for bytes in images(&form) {
            let header: [u32; NUMBERS] = std::array::from_fn(|i| number(&bytes, i));
            for i in 1..5 {
                for value in values(&header, header[i]).into_iter().filter(|&value| value <= 1_000_001) {
                    let mut counts = header;
                    counts[i] = value;
                    let [_, n, k, c, d, ..] = counts.map(|count| count as usize);
                    let counts = Counts { n, k, c, d };
                    // Labellings without end would be of many bytes.
                    if form.total_length(&counts) > 10_000_000 {
                        continue;
                    }
                    let mut fitting: Vec<u8> = counts.header(&form).iter().flat_map(|number| number.to_le_bytes()).collect();
                    fitting.extend(&bytes[48..]);
                    fitting.resize(form.total_length(&counts), 0);
                    let refusals = compare::calls(&mut library, &fitting, 0, Lent::needed(&fitting));
                    let bounded = n <= form.most_vertices && k <= n && c <= form.most_child_entries && (1..=5).contains(&d);
                    assert_eq!(refusals[0] != 12, bounded, "{counts:?}: {refusals:?}");
                    met.extend(refusals);
                }
            }
        }
        assert_eq!(met, BTreeSet::from([0, 12, 14, 15, 16]), "the refusals met in form {}", form.number);
    }
}

/// Marks that are fewer than n are refused with 13 by each call, before words, vertices and contents are looked at; then words that are too few with 6, before vertices and
/// contents. Nothing is altered.
#[test]
fn marks_and_words_one_short() {
    let (mut library, mut chance) = (Library::start(), Chance::new(62));
    for bytes in ORDINARY.iter().flat_map(images).filter(|bytes| number(bytes, 1) > 0) {
        let n = number(&bytes, 1);
        let labels = number(&bytes, 10) as usize;
        let needed = Lent::needed(&bytes);
        for vertex in [0, n - 1, n, u32::MAX] {
            for unsound in [false, true] {
                let mut bytes = bytes.clone();
                bytes[labels] ^= u8::from(unsound);
                for marks in [needed.marks - 1, chance.below(needed.marks), 0] {
                    for words in [needed.words, needed.words.saturating_sub(1), 0] {
                        assert_eq!(compare::calls(&mut library, &bytes, vertex, Lent { marks, words }), [13; 4], "{marks} marks for {n} vertices");
                    }
                }
                for words in [needed.words.wrapping_sub(1), chance.below(needed.words.max(1)), 0].into_iter().filter(|&words| words < needed.words) {
                    assert_eq!(compare::calls(&mut library, &bytes, vertex, Lent { words, ..needed }), [6; 4], "{words} words for {n} vertices");
                }
                let first_after = if vertex >= n { 14 } else if unsound { 15 } else { continue };
                assert_eq!(compare::calls(&mut library, &bytes, vertex, needed)[1], first_after, "{needed:?} is enough");
            }
        }
    }
}
