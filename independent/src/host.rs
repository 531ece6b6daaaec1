//! The calls of the C host: it stays with stored form 1, so it is lent no words.

use crate::batch::ask_all_taking;
use crate::calls::{ask_taking, open_taking};
use crate::form::HOST;
use crate::question::Answer;
use crate::refusal::Refusal;
use crate::stored::Counts;

pub fn open(index: &[u8], marks: &mut [u8]) -> Result<Counts, Refusal> {
    open_taking(&HOST, index, marks, &mut [])
}

pub fn ask(index: &[u8], source: u32, target: u32, marks: &mut [u8]) -> Result<Answer, Refusal> {
    ask_taking(&HOST, index, source, target, marks, &mut [])
}

pub fn ask_all(
    index: &[u8],
    sources: &[u32],
    targets: &[u32],
    marks: &mut [u8],
    answers: &mut [u32],
) -> Result<u32, Refusal> {
    ask_all_taking(&HOST, index, sources, targets, marks, &mut [], answers)
}
