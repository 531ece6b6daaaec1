//! Soundness: the index made again from what the bytes say, against all images there are, in each form.

use crate::given::{built, falling, g, h, refused, rising, words_for, WORD};
use independent::chance::{Chance, Damage, Fields, Kind};
use independent::every::{every_graph, every_image, every_order};
use independent::{ask, list, open, open_hierarchy, Form, Index, FORM_1, FORM_2, FORM_4, ORDINARY};
use std::collections::BTreeSet;

fn is_sound(bytes: &[u8]) -> bool {
    open(bytes, &mut [0; 8], &mut [WORD; 300]).is_ok() || open_hierarchy(bytes, &mut [0; 8], &mut [WORD; 300]).is_ok()
}

/// The images, in a form, for so many vertices and each of these numbers of labellings.
fn images(form: &Form, n: usize, labellings: &[usize]) -> BTreeSet<Vec<u8>> {
    labellings.iter().flat_map(|&d| every_image(form, n, d)).collect()
}

/// The fields behind the header.
fn fields(image: &[u8]) -> usize {
    Fields::of(&mut image.to_vec()).count
}

/// The image with this field behind the header altered.
fn altered(image: &[u8], field: usize, value: usize) -> Vec<u8> {
    let mut bytes = image.to_vec();
    Fields::of(&mut bytes).set(field, value);
    bytes
}

/// The values that a field is altered to.
fn values(n: usize) -> impl Iterator<Item = usize> {
    (0..=n + 1).chain([0xffff, 0x1_0000, u32::MAX as usize])
}

/// Checks every image, and every image with one field altered, the 16-bit halves of the header's too.
fn agree_on_alterations(n: usize, known: &BTreeSet<Vec<u8>>) {
    for image in known {
        assert!(is_sound(image));
        let agrees = |bytes: Vec<u8>| assert_eq!(is_sound(&bytes), known.contains(&bytes), "{bytes:?} of {image:?}");
        for value in values(n) {
            for half in 0..24 {
                let mut bytes = image.clone();
                bytes[2 * half..2 * half + 2].copy_from_slice(&(value as u16).to_le_bytes());
                agrees(bytes);
            }
            for field in 0..fields(image) {
                agrees(altered(image, field, value));
            }
        }
    }
}

#[test]
fn soundness_agrees_with_every_image_of_no_vertex() {
    let known = ORDINARY.map(|form| images(&form, 0, &[1, 2, 3, 4, 5]));
    assert!(known.iter().all(|images| images.len() == 5));
    let of_form_4 = images(&FORM_4, 0, &[1]);
    agree_on_alterations(0, &known.into_iter().flatten().chain(of_form_4).collect());
}

#[test]
fn soundness_agrees_with_every_image_of_one_to_three_vertices() {
    for n in 1..=3 {
        let of_both_forms = ORDINARY.iter().flat_map(|form| images(form, n, &[1, 2]));
        agree_on_alterations(n, &of_both_forms.collect());
    }
}

#[test]
fn soundness_agrees_with_every_image_of_four_vertices() {
    agree_on_alterations(4, &images(&FORM_1, 4, &[1]));
}

#[test]
fn soundness_agrees_with_every_image_of_four_vertices_in_form_2() {
    agree_on_alterations(4, &images(&FORM_2, 4, &[1]));
}

#[test]
fn soundness_agrees_with_every_plain_hierarchy_of_one_to_four_vertices() {
    for n in 1..=4 {
        agree_on_alterations(n, &images(&FORM_4, n, &[1]));
    }
}

/// Checks every image with any two fields behind the header altered.
fn agree_on_double_alterations(n: usize, known: &BTreeSet<Vec<u8>>) {
    for image in known {
        for first in 0..fields(image) {
            for second in 0..first {
                for value in values(n) {
                    for other in values(n) {
                        let bytes = altered(&altered(image, first, value), second, other);
                        assert_eq!(is_sound(&bytes), known.contains(&bytes));
                    }
                }
            }
        }
    }
}

#[test]
fn soundness_agrees_on_two_fields_altered() {
    for form in ORDINARY {
        agree_on_double_alterations(1, &images(&form, 1, &[1, 2]));
        agree_on_double_alterations(2, &images(&form, 2, &[1, 2]));
    }
    agree_on_double_alterations(3, &images(&FORM_1, 3, &[1]));
    agree_on_double_alterations(3, &images(&FORM_4, 3, &[1]));
}

#[test]
fn soundness_agrees_on_all_contents_of_one_group_of_two() {
    for form in ORDINARY {
        let known = images(&form, 2, &[1]);
        let cycle = independent::Graph::new(2, &[(0, 1), (1, 0)]);
        let image = built(&form, &cycle, &[vec![0, 1]]);
        let mut sound = 0;
        for contents in 0..4_usize.pow(fields(&image) as u32) {
            let mut bytes = image.clone();
            let mut numbers = Fields::of(&mut bytes);
            for field in 0..numbers.count {
                numbers.set(field, contents >> (2 * field) & 3);
            }
            assert_eq!(is_sound(&bytes), known.contains(&bytes));
            sound += usize::from(is_sound(&bytes));
        }
        assert_eq!(sound, 1);
    }
}

#[test]
fn soundness_agrees_on_damage_for_four_vertices() {
    let mut chance = Chance::new(51);
    for form in ORDINARY {
        let known = images(&form, 4, &[1]);
        let mut still_sound = 0;
        for image in &known {
            assert!(is_sound(image));
            for _ in 0..3 {
                for kind in Damage::ALL {
                    let damaged = chance.damage(kind, image);
                    // Other forms and counts of vertices and labellings are judged above.
                    let [same_form, same_n, same_d] =
                        [0, 4, 16].map(|at| damaged.get(at..at + 4) == image.get(at..at + 4));
                    if same_form && same_n && same_d {
                        assert_eq!(is_sound(&damaged), known.contains(&damaged), "{damaged:?}");
                        still_sound += usize::from(is_sound(&damaged) && damaged != *image);
                    }
                }
            }
        }
        assert!(still_sound > 100);
    }
}

#[test]
fn every_image_tries_all_graphs_and_orders() {
    assert_eq!(every_graph(3).count(), 64);
    assert_eq!(every_order(4).len(), 24);
    assert_eq!(every_order(0), [vec![]]);
    // Two vertices: one group; two groups apart, ranked either way; two groups in a line, either way.
    assert_eq!(images(&FORM_1, 2, &[1]).len(), 1 + 2 + 2);
}

#[test]
fn every_built_image_opens() {
    let mut chance = Chance::new(52);
    for round in 0..2_000 {
        let n = chance.between(0, 30);
        let graph = chance.graph(Kind::ALL[round % Kind::ALL.len()], n);
        let d = chance.between(1, 5);
        let orders = chance.orders(n, d);
        let index = Index::of(&graph, &orders);
        for form in ORDINARY {
            let bytes = built(&form, &graph, &orders);
            let counts = open(&bytes, &mut vec![0; n], &mut words_for(&bytes)).unwrap();
            assert_eq!(counts, independent::Counts::of(&index));
            let held = independent::sound::sound_index(&bytes, &form, &counts);
            assert_eq!(held.as_ref(), Some(&index));
        }
    }
}

#[test]
fn an_inner_interval_over_a_group_not_below_is_refused() {
    // In H under the rising order, group 3 has e 4 and m 4. With m 1 its inner interval covers group 2.
    for (form, labels) in [(FORM_1, 88), (FORM_2, 128)] {
        let mut bytes = built(&form, &h(), &[rising(4)]);
        let m_of_3 = labels + form.width * (3 * 3 + 1);
        assert_eq!(bytes[m_of_3], 4);
        bytes[m_of_3] = 1;
        let mut words = words_for(&bytes);
        assert_eq!(open(&bytes, &mut [0; 4], &mut words), refused(15, 0));
        assert_eq!(ask(&bytes, 3, 2, &mut [0; 4], &mut words), refused(15, 0));
    }
}

#[test]
fn a_labelling_that_no_traversal_gives_is_refused() {
    // G under A with its first labelling twice is sound; the labels of another graph are not.
    for form in ORDINARY {
        let twice = built(&form, &g(), &[rising(6), rising(6)]);
        assert!(is_sound(&twice));
        let mut other = g();
        other.edges.pop();
        other.edges.push((3, 5));
        let other = built(&form, &other, &[rising(6), falling(6)]);
        let mut mixed = built(&form, &g(), &[rising(6), falling(6)]);
        let labels = mixed.len() - 40 * form.width;
        let other_labels = other.len() - 40 * form.width;
        mixed[labels..].copy_from_slice(&other[other_labels..]);
        assert_eq!(open(&mixed, &mut [0; 6], &mut words_for(&mixed)), refused(15, 0));
    }
}

#[test]
fn one_field_of_g_altered_is_refused_unless_2_joins_0() {
    for form in ORDINARY {
        let image = built(&form, &g(), &[rising(6), falling(6)]);
        let mut sound = Vec::new();
        for field in 0..fields(&image) {
            // Of a number too large for 16 bits form 1 would keep the low ones.
            for value in values(6).filter(|&value| form == FORM_2 || value < 0x1_0000) {
                let bytes = altered(&image, field, value);
                if bytes != image && is_sound(&bytes) {
                    sound.push((field, value));
                }
            }
        }
        assert_eq!(sound, [(2, 0)]);
    }
}

#[test]
fn no_damage_stops_a_call() {
    let mut chance = Chance::new(53);
    let mut refusals = BTreeSet::new();
    for round in 0..20_000 {
        let n = chance.between(0, 12);
        let graph = chance.graph(Kind::ALL[round % Kind::ALL.len()], n);
        let d = chance.between(1, 5);
        let image = built(&ORDINARY[round % 2], &graph, &chance.orders(n, d));
        let kind = Damage::ALL[round / Kind::ALL.len() % Damage::ALL.len()];
        let damaged = chance.damage(kind, &image);
        let (mut marks, mut words, mut out) = (vec![3; 64], vec![WORD; 300], [0; 4]);
        let (u, v) = (chance.below(13) as u32, chance.below(13) as u32);
        refusals.extend(open(&damaged, &mut marks, &mut words).err().map(|r| r.number));
        refusals.extend(ask(&damaged, u, v, &mut marks, &mut words).err().map(|r| r.number));
        let listed = list(&damaged, u, &mut marks, &mut words, &mut out);
        refusals.extend(listed.err().map(|r| r.number));
    }
    assert!([6, 10, 11, 12, 14, 15, 16]
        .iter()
        .all(|number| refusals.contains(number)));
}
