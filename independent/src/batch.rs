//! Request [3], "The whole Monday morning at once": lists of sources and targets, and the stored bytes checked once.

use crate::calls::{vertices_in_range, Held};
use crate::form::{Form, ORDINARY};
use crate::question::Answer;
use crate::refusal::{refuse, Refusal};

/// The numbers of one pair in the answer list.
pub const NUMBERS: usize = 6;

/// Refusal, extra, yes, reason, opened, labelling; what there is not is 0.
pub fn six(outcome: Result<Answer, Refusal>) -> [u32; NUMBERS] {
    match outcome {
        Err(refusal) => [refusal.number, refusal.extra, 0, 0, 0, 0],
        Ok(answer) => [0, 0, answer.yes as u32, answer.reason, answer.opened, answer.labelling],
    }
}

/// Writes each pair's six numbers to `answers` and returns the number of pairs: what asking one by one in list order gives.
/// Refusals 10 to 13, then 6, 15, 2 and 16; none writes an answer, and from 15 on marks below n and the words needed are 0.
/// Afterwards marks below n are those of the last pair that was not refused, or 0, and the words needed are 0.
pub fn ask_all(
    index: &[u8],
    sources: &[u32],
    targets: &[u32],
    marks: &mut [u8],
    words: &mut [u32],
    answers: &mut [u32],
) -> Result<u32, Refusal> {
    ask_all_taking(&ORDINARY, index, sources, targets, marks, words, answers)
}

/// The same of these forms.
pub(crate) fn ask_all_taking(
    taken: &[Form],
    index: &[u8],
    sources: &[u32],
    targets: &[u32],
    marks: &mut [u8],
    words: &mut [u32],
    answers: &mut [u32],
) -> Result<u32, Refusal> {
    let held = Held::of(taken, index, marks, words)?;
    let index = held.sound_or_refused(index, marks, words)?;
    if sources.len() != targets.len() {
        return refuse(2, 0);
    }
    if answers.len() < NUMBERS * sources.len() {
        return refuse(16, sources.len());
    }
    let n = held.counts.n;
    let mut last = Vec::new();
    for (i, (&source, &target)) in sources.iter().zip(targets).enumerate() {
        let outcome = vertices_in_range(n, source, target).map(|(u, v)| {
            let asked = index.question(u, v);
            last = asked.opened;
            asked.answer
        });
        answers[NUMBERS * i..NUMBERS * (i + 1)].copy_from_slice(&six(outcome));
    }
    last.into_iter().for_each(|name| marks[name] = 1);
    Ok(sources.len() as u32)
}
