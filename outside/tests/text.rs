//! The text program beside the independent program, byte for byte: its run on many texts, good and bad, and the program itself through pipes.

use independent::chance::Chance;
use outside::{compare, run_program, texts, Library};

/// What was printed, by kind: answers, or the number of the refusal that stands alone.
fn kind(printed: &[u8]) -> usize {
    let words = String::from_utf8_lossy(printed);
    words.strip_prefix("refused ").map_or(0, |rest| rest.split(' ').next().unwrap().parse().unwrap())
}

/// 12,000 texts, of which one in four is read whole before it is damaged; DROBISTEN_TEXTS asks for another number.
#[test]
fn random_texts_good_and_bad() {
    let (mut library, mut chance) = (Library::start(), Chance::new(51));
    let count: usize = std::env::var("DROBISTEN_TEXTS").map_or(12_000, |number| number.parse().expect("a number"));
    let mut kinds = [0; 18];
    for _ in 0..count / 4 {
        let good = texts::good(&mut chance);
        kinds[kind(&compare::text(&mut library, &good))] += 1;
        for _ in 0..3 {
            let bad = texts::damaged(&mut chance, &good);
            kinds[kind(&compare::text(&mut library, &bad))] += 1;
        }
    }
    println!("{} texts: answered {}, refused 4 {}, 7 {}, 8 {}, 17 {}", kinds.iter().sum::<usize>(), kinds[0], kinds[4], kinds[7], kinds[8], kinds[17]);
    assert!([0, 4, 7, 8, 17].iter().all(|&kind| kinds[kind] > 100), "each way of ending is met: {kinds:?}");
}

#[test]
fn named_texts() {
    let mut library = Library::start();
    for case in texts::named() {
        assert_eq!(String::from_utf8_lossy(&compare::text(&mut library, &case.text)), case.printed, "{}", case.name);
    }
}

/// Texts at all bounds at once: 512 vertices, 2,000 edges, five orders, and questions up to 32,768 bytes.
#[test]
fn texts_at_the_largest_sizes() {
    let (mut library, mut chance) = (Library::start(), Chance::new(52));
    for _ in 0..4 {
        let text = texts::largest(&mut chance);
        assert!((32_750..=32_768).contains(&text.len()), "{} bytes", text.len());
        assert_eq!(kind(&compare::text(&mut library, &text)), 0);
    }
}

#[test]
fn the_program_reads_and_writes_through_pipes() {
    let mut chance = Chance::new(53);
    for (case, piece) in texts::named().iter().zip([65_536, 1_000, 7, 4_096].iter().cycle()) {
        let piece = if case.text.len() > 5_000 { 100.max(*piece) } else { *piece };
        assert_eq!(String::from_utf8_lossy(&run_program(&case.text, piece)), case.printed, "{}", case.name);
    }
    for piece in [1, 3, 50, 4_095, 4_097] {
        let text = texts::good(&mut chance);
        assert_eq!(run_program(&text, piece), independent::run_text(&text));
    }
}
