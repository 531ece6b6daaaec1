//! Request [14], "A profile for plain hierarchies": graphs in which no group is a child of two others, with one order, in stored
//! form 4; and an index of form 2 turned into it and back. What is asked of it is asked as of any index; nothing is opened, since
//! where a target is not below its source its interval is outside.

use crate::calls::{ask_taking, build_as, open_taking};
use crate::convert::convert;
use crate::form::{Form, FORM_2, FORM_4, HIERARCHY};
use crate::groups::Groups;
use crate::question::Answer;
use crate::refusal::Refusal;
use crate::stored::Counts;

impl Form {
    /// What keeps groups out of a form of plain hierarchies: the smallest name of one that is a child of two others.
    pub fn kept_out_by(&self, groups: &Groups) -> Option<usize> {
        groups.two_parents().filter(|_| self.hierarchy)
    }
}

/// Builds the index of a plain hierarchy, in form 4: refusals 1 to 9 as of a build, 4 if d is not 1, and 22 behind 8. The work
/// words are 0 after 22 too.
pub fn build_hierarchy(
    n: u32,
    sources: &[u32],
    targets: &[u32],
    orders: &[u32],
    d: u32,
    work: &mut [u32],
    out: &mut [u8],
) -> Result<u32, Refusal> {
    build_as(&FORM_4, n, sources, targets, orders, d, work, out)
}

pub fn open_hierarchy(index: &[u8], marks: &mut [u8], words: &mut [u32]) -> Result<Counts, Refusal> {
    open_taking(&HIERARCHY, index, marks, words)
}

pub fn ask_hierarchy(
    index: &[u8],
    source: u32,
    target: u32,
    marks: &mut [u8],
    words: &mut [u32],
) -> Result<Answer, Refusal> {
    ask_taking(&HIERARCHY, index, source, target, marks, words)
}

/// Turns a form 2 index into form 4, which is written to `out`, and returns its total length. Refusals: those of opening, then 4
/// if it has more than one labelling, 22 if it is no plain hierarchy, 9. Marks below n and the words needed are 0 afterwards, after
/// refusals 15, 4, 22 and 9 too; the others alter nothing.
pub fn to_hierarchy(index: &[u8], marks: &mut [u8], words: &mut [u32], out: &mut [u8]) -> Result<u32, Refusal> {
    convert(&FORM_2, &FORM_4, index, marks, words, out)
}

/// Turns a form 4 index into form 2, as above. Refusals: those of opening, then 9.
pub fn from_hierarchy(index: &[u8], marks: &mut [u8], words: &mut [u32], out: &mut [u8]) -> Result<u32, Refusal> {
    convert(&FORM_4, &FORM_2, index, marks, words, out)
}
