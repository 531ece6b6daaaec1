//! Request [11], "The rule desk's product": a table of rule records, whose states follow what a retrain has changed.

use crate::calls::Held;
use crate::closure::reached;
use crate::form::ORDINARY;
use crate::index::Index;
use crate::refusal::{refuse, Refusal};

/// The states, as numbers. One that is none of these is kept like any other.
pub const FRESH: u32 = 0;
pub const SUSPECT: u32 = 1;
pub const UNKNOWN: u32 = 2;

/// A rule record: the rule's number, its vertex and its state.
#[derive(Clone, Copy, Debug, PartialEq, Eq)]
pub struct Rule {
    pub rule: u32,
    pub vertex: u32,
    pub state: u32,
}

/// Turns the states of a table: suspect where a changed vertex reaches the record's, unknown where that is n or more, and
/// otherwise as they were. Marks below n and the words needed are 0 afterwards, after refusal 15 too; refusals 10 to 14 and 6
/// alter nothing, and none alters the table.
pub fn settle_rules(
    index: &[u8],
    changed: &[u32],
    marks: &mut [u8],
    words: &mut [u32],
    rules: &mut [Rule],
) -> Result<(), Refusal> {
    let held = Held::of(&ORDINARY, index, marks, words)?;
    let n = held.counts.n;
    if let Some(position) = changed.iter().position(|&vertex| vertex as usize >= n) {
        return refuse(14, position);
    }
    let index = held.sound_or_refused(index, marks, words)?;
    index.settle(changed, rules);
    Ok(())
}

impl Index {
    /// The table afterwards, by a search from each changed vertex.
    pub fn settle(&self, changed: &[u32], rules: &mut [Rule]) {
        let place = |vertex: u32| self.groups.place(vertex as usize);
        let searches: Vec<Vec<bool>> = changed
            .iter()
            .map(|&vertex| reached(&self.groups.children, place(vertex)))
            .collect();
        for record in rules {
            if record.vertex as usize >= self.n() {
                record.state = UNKNOWN;
            } else if searches.iter().any(|found| found[place(record.vertex)]) {
                record.state = SUSPECT;
            }
        }
    }
}
