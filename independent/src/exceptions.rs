//! Request [8], "Exception lists for the small sites": document 001, section 4, from its words. A group's exceptions are the
//! groups whose outer interval lies in its own in every labelling though it does not reach them.

use crate::calls::{vertices_in_range, Held};
use crate::closure::reached;
use crate::form::HOST;
use crate::index::Index;
use crate::refusal::{refuse, Refusal};

/// The numbers of one pair in the answer list of [`ask_all`]: refusal, extra, yes.
pub const NUMBERS: usize = 3;

/// One exception of a group.
#[derive(Clone, Copy, Debug, PartialEq, Eq)]
pub struct Exception {
    /// The place of the group that is contained and not reached.
    pub place: usize,
    /// Under one labelling: some child of the group contains it, as an exception of its own. Under several all are of one
    /// kind.
    pub indirect: bool,
}

impl Index {
    /// The outer interval of y lies in that of x in every labelling.
    pub fn contains(&self, x: usize, y: usize) -> bool {
        self.labellings.iter().all(|l| l.outer_holds(x, y))
    }

    /// The exceptions of each group, by place, rising.
    pub fn exceptions(&self) -> Vec<Vec<Exception>> {
        let children = &self.groups.children;
        let places = 0..children.len();
        let reaches: Vec<Vec<bool>> = places.clone().map(|x| reached(children, x)).collect();
        let is_exception = |x: usize, y: usize| self.contains(x, y) && !reaches[x][y];
        let indirect =
            |x: usize, y: usize| self.labellings.len() == 1 && children[x].iter().any(|&h| is_exception(h, y));
        places
            .clone()
            .map(|x| {
                places
                    .clone()
                    .filter(|&y| is_exception(x, y))
                    .map(|y| Exception {
                        place: y,
                        indirect: indirect(x, y),
                    })
                    .collect()
            })
            .collect()
    }

    /// The lists as they are stored, in numbers: k, the number of entries, k+1 list starts counted in entries, the entries. An
    /// entry is twice the place, plus 1 for an indirect one.
    pub fn exception_numbers(&self) -> Vec<u32> {
        let lists = self.exceptions();
        let mut starts = vec![0];
        let mut entries = Vec::new();
        for list in &lists {
            entries.extend(list.iter().map(|e| 2 * e.place + e.indirect as usize));
            starts.push(entries.len());
        }
        let numbers = [lists.len(), entries.len()].into_iter().chain(starts).chain(entries);
        numbers.map(|x| x as u32).collect()
    }

    /// The same as 32-bit little-endian numbers.
    pub fn exception_bytes(&self) -> Vec<u8> {
        self.exception_numbers().iter().flat_map(|x| x.to_le_bytes()).collect()
    }
}

/// Writes the exception lists of a stored index of form 1 to `out` and returns their length. Refusals 10 to 13, 15, then 9.
/// Marks below n are 0 afterwards, after 15 and 9 too; 10 to 13 alter nothing.
pub fn build_exceptions(index: &[u8], marks: &mut [u8], out: &mut [u8]) -> Result<u32, Refusal> {
    let held = Held::of(&HOST, index, marks, &[])?;
    let lists = held.sound_or_refused(index, marks, &mut [])?.exception_bytes();
    if out.len() < lists.len() {
        return refuse(9, lists.len());
    }
    out[..lists.len()].copy_from_slice(&lists);
    Ok(lists.len() as u32)
}

/// Opens exception lists beside the index and returns the numbers of groups and of entries. Refusals 10 to 13, 15, then 20 for
/// lists that are not exactly those of the index. Marks as for [`build_exceptions`].
pub fn open_exceptions(index: &[u8], lists: &[u8], marks: &mut [u8]) -> Result<(u32, u32), Refusal> {
    let held = Held::of(&HOST, index, marks, &[])?;
    let numbers = belonging(&held, index, lists, marks)?.exception_numbers();
    Ok((numbers[0], numbers[1]))
}

/// Asks by exception lists whether source reaches target. Refusals 10 to 13, 15, 20, then 14. Marks as for
/// [`build_exceptions`]. Yes and no come from plain search among the groups, not from the lists.
pub fn ask_exceptions(index: &[u8], lists: &[u8], source: u32, target: u32, marks: &mut [u8]) -> Result<bool, Refusal> {
    let held = Held::of(&HOST, index, marks, &[])?;
    let index = belonging(&held, index, lists, marks)?;
    let (u, v) = vertices_in_range(held.counts.n, source, target)?;
    Ok(says(&index, u, v))
}

/// The same for lists of sources and targets, three numbers a pair: refusal, extra, yes. Refusals 10 to 13, 15, 20, 2, then 16
/// with the number of pairs; none writes an answer. A bad vertex is 14 in its own pair's answer.
pub fn ask_all_exceptions(
    index: &[u8],
    lists: &[u8],
    sources: &[u32],
    targets: &[u32],
    marks: &mut [u8],
    answers: &mut [u32],
) -> Result<u32, Refusal> {
    let held = Held::of(&HOST, index, marks, &[])?;
    let index = belonging(&held, index, lists, marks)?;
    if sources.len() != targets.len() {
        return refuse(2, 0);
    }
    if answers.len() < NUMBERS * sources.len() {
        return refuse(16, sources.len());
    }
    for (i, (&source, &target)) in sources.iter().zip(targets).enumerate() {
        let three = match vertices_in_range(held.counts.n, source, target) {
            Err(refusal) => [refusal.number, refusal.extra, 0],
            Ok((u, v)) => [0, 0, says(&index, u, v) as u32],
        };
        answers[NUMBERS * i..NUMBERS * (i + 1)].copy_from_slice(&three);
    }
    Ok(sources.len() as u32)
}

/// Refusals 15 and 20; otherwise the index.
fn belonging(held: &Held, index: &[u8], lists: &[u8], marks: &mut [u8]) -> Result<Index, Refusal> {
    let index = held.sound_or_refused(index, marks, &mut [])?;
    if index.exception_bytes() != lists {
        return refuse(20, 0);
    }
    Ok(index)
}

fn says(index: &Index, u: usize, v: usize) -> bool {
    reached(&index.groups.children, index.groups.place(u))[index.groups.place(v)]
}
