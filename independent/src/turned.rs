//! Request [13], "What feeds this rule?": an index over the turned edges, in stored form 3. Its graph has each edge the other way
//! round, so what is downstream in it is upstream in the graph given, and a question from v to u asks whether v is fed by u.

use crate::calls::{ask_taking, build_as, list_taking, open_taking};
use crate::form::{FORM_3, TURNED};
use crate::question::Answer;
use crate::refusal::Refusal;
use crate::stored::Counts;

/// Builds the index of the turned edges of an edge list, in form 3: refusals 1 to 9 as of a build.
pub fn build_turned(
    n: u32,
    sources: &[u32],
    targets: &[u32],
    orders: &[u32],
    d: u32,
    work: &mut [u32],
    out: &mut [u8],
) -> Result<u32, Refusal> {
    let (turned_sources, turned_targets) = (targets, sources);
    build_as(&FORM_3, n, turned_sources, turned_targets, orders, d, work, out)
}

pub fn open_turned(index: &[u8], marks: &mut [u8], words: &mut [u32]) -> Result<Counts, Refusal> {
    open_taking(&TURNED, index, marks, words)
}

/// Asks whether the source is fed by the target.
pub fn ask_turned(
    index: &[u8],
    source: u32,
    target: u32,
    marks: &mut [u8],
    words: &mut [u32],
) -> Result<Answer, Refusal> {
    ask_taking(&TURNED, index, source, target, marks, words)
}

/// Writes the upstream list of a vertex.
pub fn list_turned(
    index: &[u8],
    vertex: u32,
    marks: &mut [u8],
    words: &mut [u32],
    out: &mut [u32],
) -> Result<u32, Refusal> {
    list_taking(&TURNED, index, vertex, marks, words, out)
}
