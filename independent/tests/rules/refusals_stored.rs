//! The refusals of open, ask, list and the call for all pairs: each exactly when it should be given, in order, with lent
//! memory as told, in either form; and those of the C host.

use crate::given::{built, falling, g, lent_bytes, lent_words, refused, rising, words_for, WORD};
use independent::{ask, ask_all, host, list, open, Counts, Form, Refusal, FORM_1, FORM_2, ORDINARY};

/// All that a call on stored bytes is lent. Four marks lie beyond n, three words beyond those needed, and two numbers beyond
/// the list.
struct Stored {
    index: Vec<u8>,
    source: u32,
    target: u32,
    targets: Vec<u32>,
    marks: Vec<u8>,
    words: Vec<u32>,
    out: Vec<u32>,
    /// The words that this index needs.
    needed: usize,
}

fn good(form: &Form) -> Stored {
    let index = built(form, &g(), &[rising(6), falling(6)]);
    let needed = words_for(&index).len();
    Stored {
        index,
        source: 0,
        target: 4,
        targets: vec![4],
        marks: lent_bytes(10),
        words: vec![WORD; needed + 3],
        out: lent_words(7),
        needed,
    }
}

fn set_header(index: &mut [u8], field: usize, value: u32) {
    index[4 * field..4 * field + 4].copy_from_slice(&value.to_le_bytes());
}

/// Makes refusal `number` due; the refusal that is then given if none above it is due.
fn spoil(stored: &mut Stored, number: u32) -> Refusal {
    let extra = match number {
        10 => {
            stored.index.truncate(47);
            0
        }
        11 => {
            set_header(&mut stored.index, 0, 0x0102_0304);
            0x0102_0304
        }
        12 => {
            set_header(&mut stored.index, 2, 7);
            0
        }
        13 => {
            stored.marks.truncate(5);
            6
        }
        6 => {
            stored.words.truncate(175);
            176
        }
        2 => {
            stored.targets.push(0);
            0
        }
        14 => {
            stored.source = 6;
            stored.target = 6;
            0
        }
        15 => {
            *stored.index.last_mut().unwrap() ^= 1;
            0
        }
        16 => {
            stored.out.truncate(3);
            4
        }
        _ => unreachable!(),
    };
    Refusal { number, extra }
}

/// Tries all sets of these refusals, and checks the first, the marks, the words and the list.
fn first_of_form<T: std::fmt::Debug>(form: &Form, numbers: &[u32], call: impl Fn(&mut Stored) -> Result<T, Refusal>) {
    for due in 1_u32..1 << numbers.len() {
        let mut stored = good(form);
        let chosen = (0..numbers.len()).filter(|i| due >> i & 1 == 1);
        // The bytes are cut after they are altered.
        let refusals: Vec<Refusal> = chosen.rev().map(|i| spoil(&mut stored, numbers[i])).collect();
        let first = *refusals.last().unwrap();
        let (mut marks, mut words, out) = (stored.marks.clone(), stored.words.clone(), stored.out.clone());
        assert_eq!(call(&mut stored).unwrap_err(), first, "{refusals:?}");
        if [15, 2, 16].contains(&first.number) {
            marks[..6].fill(0);
            words[..stored.needed].fill(0);
        }
        assert_eq!(stored.marks, marks, "{refusals:?}");
        assert_eq!(stored.words, words, "{refusals:?}");
        assert_eq!(stored.out, out);
    }
}

/// The same in both forms; in form 1 words cannot be too few.
fn first_is_given<T: std::fmt::Debug>(numbers: &[u32], call: impl Fn(&mut Stored) -> Result<T, Refusal>) {
    let without_6: Vec<u32> = numbers.iter().copied().filter(|&number| number != 6).collect();
    first_of_form(&FORM_1, &without_6, &call);
    first_of_form(&FORM_2, numbers, &call);
}

#[test]
fn open_gives_the_first_refusal_due() {
    first_is_given(&[10, 11, 12, 13, 6, 15], |s| open(&s.index, &mut s.marks, &mut s.words));
}

#[test]
fn ask_gives_the_first_refusal_due() {
    first_is_given(&[10, 11, 12, 13, 6, 14, 15], |s| {
        ask(&s.index, s.source, s.target, &mut s.marks, &mut s.words)
    });
}

#[test]
fn list_gives_the_first_refusal_due() {
    first_is_given(&[10, 11, 12, 13, 6, 14, 15, 16], |s| {
        list(&s.index, s.source, &mut s.marks, &mut s.words, &mut s.out)
    });
}

#[test]
fn ask_all_gives_the_first_refusal_due() {
    first_is_given(&[10, 11, 12, 13, 6, 15, 2], |s| {
        ask_all(&s.index, &[0], &s.targets, &mut s.marks, &mut s.words, &mut s.out)
    });
    for form in ORDINARY {
        let mut s = good(&form);
        let (mut marks, mut words) = (s.marks.clone(), s.words.clone());
        let said = ask_all(&s.index, &[0, 9], &[4, 4], &mut s.marks, &mut s.words, &mut s.out);
        assert_eq!(said, refused(16, 2));
        marks[..6].fill(0);
        words[..s.needed].fill(0);
        assert_eq!((s.marks, s.words, s.out), (marks, words, lent_words(7)));
    }
}

#[test]
fn ask_all_answers_as_asking_one_by_one_does() {
    for form in ORDINARY {
        let Stored { index, needed, .. } = good(&form);
        let (sources, targets) = ([0, 6, 3, 0, 5], [4, 0, 4, 9, 5]);
        let (mut marks, mut words, mut answers) = (lent_bytes(8), vec![WORD; needed + 1], lent_words(31));
        assert_eq!(
            ask_all(&index, &sources, &targets, &mut marks, &mut words, &mut answers),
            Ok(5)
        );
        assert_eq!(words, [vec![0; needed], vec![WORD]].concat());
        for (i, six) in answers[..30].chunks(6).enumerate() {
            let mut alone = lent_bytes(8);
            let said = ask(&index, sources[i], targets[i], &mut alone, &mut words_for(&index));
            assert_eq!(six, independent::batch::six(said));
            if i == 4 {
                assert_eq!(marks, alone);
            }
        }
        assert_eq!(answers[30], lent_words(31)[30]);
    }
}

#[test]
fn open_returns_the_counts_and_clears_marks_below_n_and_the_words_needed() {
    for form in ORDINARY {
        let mut stored = good(&form);
        let mut told = stored.marks.clone();
        told[..6].fill(0);
        let counts = Counts { n: 6, k: 5, c: 4, d: 2 };
        assert_eq!(open(&stored.index, &mut stored.marks, &mut stored.words), Ok(counts));
        assert_eq!(stored.marks, told);
        assert_eq!(stored.words, [vec![0; stored.needed], vec![WORD; 3]].concat());
        let (mut marks, mut words) = ([9; 6], words_for(&stored.index));
        assert_eq!(open(&stored.index, &mut marks, &mut words), Ok(counts));
        assert_eq!(marks, [0; 6]);
        assert_eq!(words, vec![0; stored.needed]);
    }
}

#[test]
fn words_one_short_are_refused_with_6() {
    let index = good(&FORM_2).index;
    assert_eq!(words_for(&index).len(), 16 * 6 + 4 * 4 + 64);
    for length in [0, 1, 175] {
        let (mut marks, mut words, mut out) = (lent_bytes(6), vec![WORD; length], lent_words(6));
        assert_eq!(open(&index, &mut marks, &mut words), refused(6, 176));
        assert_eq!(ask(&index, 9, 9, &mut marks, &mut words), refused(6, 176));
        assert_eq!(list(&index, 9, &mut marks, &mut words, &mut out), refused(6, 176));
        let said = ask_all(&index, &[9], &[], &mut marks, &mut words, &mut out);
        assert_eq!(said, refused(6, 176));
        assert_eq!((marks, words, out), (lent_bytes(6), vec![WORD; length], lent_words(6)));
    }
}

#[test]
fn the_host_takes_form_1_alone() {
    let [of_1, of_2] = ORDINARY.map(|form| good(&form).index);
    let (mut marks, mut answers) = (lent_bytes(6), lent_words(6));
    assert_eq!(host::open(&of_2, &mut marks), refused(11, 2));
    assert_eq!(host::ask(&of_2, 9, 9, &mut marks), refused(11, 2));
    assert_eq!(
        host::ask_all(&of_2, &[0], &[], &mut marks, &mut answers),
        refused(11, 2)
    );
    assert_eq!((&marks, &answers), (&lent_bytes(6), &lent_words(6)));
    assert_eq!(host::open(&of_1, &mut marks), open(&of_1, &mut lent_bytes(6), &mut []));
    assert_eq!(marks, [0; 6]);
    assert!(host::ask(&of_1, 0, 4, &mut marks).unwrap().yes);
    assert_eq!(host::ask_all(&of_1, &[0], &[4], &mut marks, &mut answers), Ok(1));
}

/// Opens with six marks and the words that the index needs.
fn opened(index: &[u8]) -> Result<Counts, Refusal> {
    open(index, &mut [0; 6], &mut words_for(index))
}

#[test]
fn fewer_than_48_bytes_are_refused_with_10_and_other_lengths_with_12() {
    for form in ORDINARY {
        let index = good(&form).index;
        for length in 0..index.len() {
            let number = if length < 48 { 10 } else { 12 };
            assert_eq!(opened(&index[..length]), refused(number, 0));
        }
        for more in 1..10 {
            let longer = [index.clone(), vec![0; more]].concat();
            assert_eq!(opened(&longer), refused(12, 0));
        }
    }
}

#[test]
fn each_header_field_altered_is_refused_with_11_or_12() {
    for form in ORDINARY {
        let index = good(&form).index;
        for field in 0..12 {
            let four = &index[4 * field..4 * field + 4];
            let old = u32::from_le_bytes([four[0], four[1], four[2], four[3]]);
            let near = [old.wrapping_sub(1), old + 1, old - old % 2 + 2];
            let bounds = ORDINARY.map(|form| [form.most_vertices as u32, form.most_edges as u32]);
            let bounds = bounds.into_iter().flatten().flat_map(|most| [most, most + 1]);
            let far = [0, 1, 2, 3, 4, 5, 6, old + 0x1_0000, u32::MAX]
                .into_iter()
                .chain(bounds);
            for value in near.into_iter().chain(far).filter(|&value| value != old) {
                let mut altered = index.clone();
                set_header(&mut altered, field, value);
                // The other form's number leaves a header that is wrong for that form.
                let other_form = field == 0 && ![1, 2].contains(&value);
                let told = if other_form { refused(11, value) } else { refused(12, 0) };
                assert_eq!(opened(&altered), told, "field {field} to {value}");
            }
        }
    }
}

#[test]
fn another_form_is_told_from_48_bytes_alone() {
    let mut stub = [0; 48];
    for number in [0, 3, 4, 255] {
        stub[0] = number;
        assert_eq!(open(&stub, &mut [], &mut []), refused(11, number as u32));
    }
    for number in [1, 2] {
        stub[0] = number;
        assert_eq!(open(&stub, &mut [], &mut []), refused(12, 0));
    }
}

/// Opens bytes with these counts and the header they give, and 0 in all sections; marks are lent for all vertices.
fn blank_opened(form: &Form, n: usize, k: usize, c: usize, d: usize) -> Result<Counts, Refusal> {
    let counts = Counts { n, k, c, d };
    let mut bytes: Vec<u8> = counts.header(form).iter().flat_map(|n| n.to_le_bytes()).collect();
    bytes.resize(form.total_length(&counts), 0);
    open(&bytes, &mut vec![0; n], &mut vec![WORD; form.words_needed(&counts)])
}

#[test]
fn counts_out_of_bounds_are_refused_with_12_though_the_rest_agrees() {
    for form in ORDINARY {
        let (most, entries) = (form.most_vertices, form.most_child_entries);
        assert_eq!(blank_opened(&form, most + 1, 0, 0, 1), refused(12, 0));
        assert_eq!(blank_opened(&form, 4, 5, 0, 1), refused(12, 0));
        assert_eq!(blank_opened(&form, 4, 4, entries + 1, 1), refused(12, 0));
        assert_eq!(blank_opened(&form, 4, 4, 0, 0), refused(12, 0));
        assert_eq!(blank_opened(&form, 4, 4, 0, 6), refused(12, 0));
    }
}

#[test]
fn counts_within_bounds_that_no_graph_has_are_refused_with_15() {
    for form in ORDINARY {
        let (most, entries) = (form.most_vertices, form.most_child_entries);
        assert_eq!(blank_opened(&form, most, 0, 0, 1), refused(15, 0));
        assert_eq!(blank_opened(&form, 0, 0, 3, 1), refused(15, 0));
        assert_eq!(blank_opened(&form, 3, 2, 2, 5), refused(15, 0));
        assert_eq!(blank_opened(&form, most, most, entries, 5), refused(15, 0));
    }
}

#[test]
fn marks_one_short_are_refused_with_13_before_words_are_looked_at() {
    for form in ORDINARY {
        let index = good(&form).index;
        for length in 0..6 {
            let mut marks = lent_bytes(length);
            assert_eq!(open(&index, &mut marks, &mut []), refused(13, 6));
            assert_eq!(ask(&index, 0, 0, &mut marks, &mut []), refused(13, 6));
            assert_eq!(list(&index, 0, &mut marks, &mut [], &mut [0; 6]), refused(13, 6));
            assert_eq!(ask_all(&index, &[], &[], &mut marks, &mut [], &mut []), refused(13, 6));
            assert_eq!(marks, lent_bytes(length));
        }
    }
}

#[test]
fn source_before_target_in_14() {
    for form in ORDINARY {
        let index = good(&form).index;
        let (mut marks, mut words) = (lent_bytes(6), words_for(&index));
        for bad in [6, 7, 65_536, u32::MAX] {
            assert_eq!(ask(&index, bad, bad, &mut marks, &mut words), refused(14, 0));
            assert_eq!(ask(&index, bad, 0, &mut marks, &mut words), refused(14, 0));
            assert_eq!(ask(&index, 0, bad, &mut marks, &mut words), refused(14, 1));
            assert_eq!(list(&index, bad, &mut marks, &mut words, &mut [0; 6]), refused(14, 0));
        }
        assert_eq!((marks, &words), (lent_bytes(6), &words_for(&index)));
    }
}
