//! Request [4], "Show me the chain": the steps of a yes, by group names.

use crate::calls::{vertices_in_range, Held};
use crate::closure::reached;
use crate::form::ORDINARY;
use crate::index::Index;
use crate::refusal::{refuse, Refusal};

/// Writes the chain from source to target to `steps` and returns how many names it has; none is a no, which writes nothing,
/// whatever the list's length. Marks below n and the words needed are 0 afterwards, after refusals 15 and 16 too; refusals 10
/// to 14 and 6 alter nothing.
pub fn chain(
    index: &[u8],
    source: u32,
    target: u32,
    marks: &mut [u8],
    words: &mut [u32],
    steps: &mut [u32],
) -> Result<Option<u32>, Refusal> {
    let held = Held::of(&ORDINARY, index, marks, words)?;
    let (source, target) = vertices_in_range(held.counts.n, source, target)?;
    let index = held.sound_or_refused(index, marks, words)?;
    let Some(chain) = index.chain(source, target) else {
        return Ok(None);
    };
    if steps.len() < chain.len() {
        return refuse(16, chain.len());
    }
    for (slot, &name) in steps.iter_mut().zip(&chain) {
        *slot = name as u32;
    }
    Ok(Some(chain.len() as u32))
}

impl Index {
    /// The names from the source's group to the target's, each step to the lowest child that reaches the target, found by a
    /// search from each child in turn; none if the source does not reach the target.
    pub fn chain(&self, source: usize, target: usize) -> Option<Vec<usize>> {
        let children = &self.groups.children;
        let end = self.groups.place(target);
        let reaches_end = |group: usize| reached(children, group)[end];
        let mut group = self.groups.place(source);
        if !reaches_end(group) {
            return None;
        }
        let mut chain = vec![self.groups.list[group]];
        while group != end {
            let mut rising = children[group].iter().copied();
            group = rising
                .find(|&child| reaches_end(child))
                .expect("the way to the target goes through a child");
            chain.push(self.groups.list[group]);
        }
        Some(chain)
    }
}
