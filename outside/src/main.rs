//! The long run: every call of the C header beside the independent program, round by round (round.rs), and tables of what was compared and what was said.
//! `outside ROUNDS [SEED [FIRST]]` makes so many rounds, from number FIRST on, or from 0. A difference ends it, with the case and the round: `outside 1 SEED ROUND` makes
//! that one again, and by itself where the environment has DROBISTEN_SERVER: the library then stands behind a pipe.

mod altered;
mod pieces;
mod round;
mod tally;

use outside::Library;
use round::{Run, ALTERED, OPEN, QUESTION};
use std::sync::atomic::{AtomicU64, Ordering::Relaxed};
use std::time::{Duration, Instant};
use tally::grouped;

const BETWEEN_LINES: Duration = Duration::from_secs(10);

#[global_allocator]
static MEMORY: pieces::Pieces = pieces::Pieces::new();

/// The number of the round.
static ROUND: AtomicU64 = AtomicU64::new(0);

/// The library in this process, where it is linked with it (outside/long).
#[cfg(feature = "here")]
mod here {
    extern "C" {
        pub fn serve(asked: *const u8, size: usize, said: *mut *const u8) -> usize;
        fn signal(number: i32, handler: extern "C" fn(i32)) -> usize;
    }

    const SIGSEGV: i32 = 11;

    extern "C" fn touched(_: i32) {
        eprintln!("round {}: the library has touched what it was not lent", super::ROUND.load(super::Relaxed));
        std::process::abort();
    }

    pub fn library() -> outside::Library {
        // SAFETY: the function is that of serve.h, and there is one thread
        unsafe {
            signal(SIGSEGV, touched);
            outside::Library::here(serve)
        }
    }
}

fn library() -> Library {
    #[cfg(feature = "here")]
    if std::env::var_os("DROBISTEN_SERVER").is_none() {
        return here::library();
    }
    Library::start()
}

fn main() {
    let words: Vec<u64> = std::env::args().skip(1).map(|w| w.parse().expect("a number")).collect();
    let [rounds, seed, first] = [(0, 20_000), (1, 1), (2, 0)].map(|(i, unless)| words.get(i).copied().unwrap_or(unless));
    let mut run = Run::new(library());
    let tell = std::panic::take_hook();
    std::panic::set_hook(Box::new(move |case| {
        eprintln!("a difference in round {} of seed {seed}:", ROUND.load(Relaxed));
        tell(case);
    }));
    let begun = Instant::now();
    let mut told = begun;
    for number in first..first + rounds {
        ROUND.store(number, Relaxed);
        run.round(seed, number);
        if told.elapsed() >= BETWEEN_LINES {
            told = Instant::now();
            eprintln!("{} rounds, {} calls, {} s", number + 1 - first, run.tally.all(), begun.elapsed().as_secs());
        }
    }
    let altered = run.altered.count.min(ALTERED * (first + rounds) as usize);
    println!(
        "{} rounds of seed {seed} in {} s: {} calls compared, {} of them questions and {} of openers, on {} damaged images; of the {} alterations of the smallest images {}.\n",
        grouped(rounds),
        grouped(begun.elapsed().as_secs()),
        grouped(run.tally.all()),
        grouped(run.tally.of(&QUESTION)),
        grouped(run.tally.of(&OPEN)),
        grouped(run.images),
        grouped(run.altered.count as u64),
        grouped(altered as u64),
    );
    run.tally.print();
    let reasons: Vec<(String, String)> = run.reasons.iter().map(|(reason, &count)| (reason.to_string(), grouped(count))).collect();
    println!("\n| questions answered, by reason | {} |", reasons.iter().map(|(reason, _)| reason.as_str()).collect::<Vec<_>>().join(" | "));
    println!("|---{}|", "|---:".repeat(reasons.len()));
    println!("| | {} |\n", reasons.iter().map(|(_, count)| count.as_str()).collect::<Vec<_>>().join(" | "));
}
