//! The refusals of build: each exactly when it should be given, in order, with lent memory as told, in either form.

use crate::given::{falling, g, h, lent_bytes, lent_words, refused, rising, Lent};
use independent::bounds::work_words;
use independent::{Form, Graph, Refusal, FORM_1, FORM_2, ORDINARY};

fn good(form: &Form) -> Lent {
    Lent::new(form, &g(), &[rising(6), falling(6)])
}

/// The total length of a good build.
fn total(form: &Form) -> u32 {
    if *form == FORM_1 {
        180
    } else {
        312
    }
}

/// Makes refusal `number` due; the refusal that is then given if none above it is due.
fn spoil(form: &Form, lent: &mut Lent, number: u32) -> Refusal {
    let needed = work_words(6, 7);
    let extra = match number {
        11 => {
            lent.form = 0x0102_0304;
            0x0102_0304
        }
        1 => {
            lent.n = form.most_vertices as u32 + 1;
            0
        }
        2 => {
            lent.targets.pop();
            0
        }
        3 => {
            lent.sources.resize(form.most_edges + 1, 0);
            lent.targets.resize(form.most_edges + 1, 0);
            0
        }
        4 => {
            lent.d = 6;
            0
        }
        5 => {
            lent.orders.pop();
            0
        }
        6 => {
            lent.work.truncate(needed - 1);
            needed
        }
        7 => {
            lent.targets[2] = 6;
            lent.sources[4] = u32::MAX;
            2
        }
        8 => {
            lent.orders[7] = lent.orders[8];
            1
        }
        9 => {
            lent.out.truncate(total(form) as usize - 1);
            total(form) as usize
        }
        _ => unreachable!(),
    };
    Refusal {
        number,
        extra: extra as u32,
    }
}

#[test]
fn the_first_refusal_due_is_given() {
    let numbers = [11, 1, 2, 3, 4, 5, 6, 7, 8, 9];
    for (form, due) in ORDINARY
        .iter()
        .flat_map(|form| (0_u32..1 << numbers.len()).map(move |due| (form, due)))
    {
        // A million edges too many are tried beside few others.
        if *form == FORM_2 && due >> 3 & 1 == 1 && due.count_ones() > 3 {
            continue;
        }
        let mut lent = good(form);
        let chosen = (0..numbers.len()).filter(|i| due >> i & 1 == 1);
        // The second list is made shorter after both are made longer.
        let refusals: Vec<Refusal> = chosen.rev().map(|i| spoil(form, &mut lent, numbers[i])).collect();
        let (work, out) = (lent.work.clone(), lent.out.clone());
        let result = lent.build();
        let Some(&first) = refusals.last() else {
            assert_eq!(result, Ok(total(form)));
            continue;
        };
        assert_eq!(result, Err(first), "{refusals:?}");
        assert_eq!(lent.out, out);
        let mut told = work;
        if [8, 9].contains(&first.number) {
            told[..work_words(6, 7)].fill(0);
        }
        assert_eq!(lent.work, told);
    }
}

#[test]
fn a_finished_build_clears_the_needed_words_and_writes_the_image() {
    for form in ORDINARY {
        let mut lent = good(&form);
        let (work, out) = (lent.work.clone(), lent.out.clone());
        assert_eq!(lent.build(), Ok(total(&form)));
        let needed = work_words(6, 7);
        assert!(lent.work[..needed].iter().all(|&word| word == 0));
        assert_eq!(lent.work[needed..], work[needed..]);
        let (written, behind) = lent.out.split_at(total(&form) as usize);
        assert_eq!(behind, &out[written.len()..]);
        assert_eq!(
            written,
            independent::stored::image(&form, &g(), &[rising(6), falling(6)])
        );
    }
}

#[test]
fn forms_other_than_1_and_2_are_refused_with_11_before_all_else() {
    for form in [0, 3, 4, 256, 257, 65_537, u32::MAX] {
        let mut lent = good(&FORM_1);
        lent.form = form;
        assert_eq!(lent.build(), refused(11, form));
        lent.n = u32::MAX;
        assert_eq!(lent.build(), refused(11, form));
    }
}

#[test]
fn edge_lists_of_different_length_are_refused_with_2() {
    for more in [1, 20_000] {
        let mut lent = good(&FORM_1);
        lent.sources.resize(7 + more, 0);
        assert_eq!(lent.build(), refused(2, 0));
        std::mem::swap(&mut lent.sources, &mut lent.targets);
        assert_eq!(lent.build(), refused(2, 0));
    }
}

#[test]
fn labellings_other_than_1_to_5_are_refused_with_4() {
    for d in [0, 6, 7, 256, 65_536, u32::MAX] {
        let mut lent = good(&FORM_1);
        lent.d = d;
        lent.orders = flat_orders(d.min(9));
        assert_eq!(lent.build(), refused(4, 0));
    }
    for d in 1..=5 {
        let mut lent = Lent::new(&FORM_1, &g(), &vec![rising(6); d]);
        assert_eq!(lent.build(), Ok(100 + 40 * d as u32));
        let mut lent = Lent::new(&FORM_2, &g(), &vec![rising(6); d]);
        assert_eq!(lent.build(), Ok(152 + 80 * d as u32));
    }
}

fn flat_orders(d: u32) -> Vec<u32> {
    (0..d).flat_map(|_| 0..6).collect()
}

#[test]
fn orders_one_short_and_one_long_are_refused_with_5() {
    for length in [0, 6, 11, 13, 18] {
        let mut lent = good(&FORM_2);
        lent.orders = flat_orders(3)[..length].to_vec();
        assert_eq!(lent.build(), refused(5, 0));
    }
    let mut none = Lent::new(&FORM_1, &Graph::new(0, &[]), &[vec![]]);
    none.orders.push(0);
    assert_eq!(none.build(), refused(5, 0));
}

#[test]
fn work_one_short_is_refused_with_6() {
    let needed = work_words(6, 7);
    for length in [0, 1, needed - 1] {
        let mut lent = good(&FORM_2);
        lent.work = lent_words(length);
        assert_eq!(lent.build(), refused(6, needed as u32));
        assert_eq!(lent.work, lent_words(length));
    }
    for form in ORDINARY {
        let mut lent = good(&form);
        lent.work = lent_words(needed);
        assert_eq!(lent.build(), Ok(total(&form)));
        assert_eq!(lent.work, vec![0; needed]);
    }
}

#[test]
fn the_first_edge_out_of_range_is_named_by_7() {
    for first in 0..7 {
        for bad in [6, 7, 65_536, u32::MAX] {
            let mut lent = good(&FORM_2);
            lent.sources[first] = bad;
            lent.targets[6] = bad;
            assert_eq!(lent.build(), refused(7, first as u32));
            std::mem::swap(&mut lent.sources, &mut lent.targets);
            assert_eq!(lent.build(), refused(7, first as u32));
        }
    }
    let mut none = Lent::new(&FORM_1, &Graph::new(0, &[]), &[vec![]]);
    none.sources.push(0);
    none.targets.push(0);
    none.work = lent_words(68);
    assert_eq!(none.build(), refused(7, 0));
}

#[test]
fn the_first_order_that_is_no_permutation_is_named_by_8() {
    for first in 0..5 {
        for bad in [0, 6, u32::MAX] {
            let mut lent = Lent::new(&FORM_2, &h(), &vec![rising(4); 5]);
            lent.orders[4 * first + 2] = bad;
            lent.orders[19] = 4;
            assert_eq!(lent.build(), refused(8, first as u32));
        }
    }
}

#[test]
fn output_one_short_is_refused_with_9() {
    for form in ORDINARY {
        let needed = total(&form);
        for length in [0, 48, needed as usize - 1] {
            let mut lent = good(&form);
            lent.out = lent_bytes(length);
            assert_eq!(lent.build(), refused(9, needed));
            assert_eq!(lent.out, lent_bytes(length));
        }
        let mut lent = good(&form);
        lent.out = lent_bytes(needed as usize);
        assert_eq!(lent.build(), Ok(needed));
    }
}
