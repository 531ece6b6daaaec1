//! Request [10], "Edges between retrains": up to 256 edges kept beside an index, and a question over both.

use crate::calls::{vertices_in_range, Held};
use crate::closure::{next, reached};
use crate::form::ORDINARY;
use crate::graph::Graph;
use crate::index::Index;
use crate::refusal::{refuse, Refusal};

/// The most edges that may be added.
pub const MOST_ADDED: usize = 256;

/// 256 pairs and a count: the first `count` pairs are the added edges, what stands behind them may be anything.
#[derive(Clone, Debug, PartialEq, Eq)]
pub struct Added {
    pub sources: [u32; MOST_ADDED],
    pub targets: [u32; MOST_ADDED],
    pub count: u32,
}

/// Adds an edge beside an index of n vertices: it stands at the old count, and the count is one more. A refusal changes
/// nothing.
pub fn add(state: &mut Added, n: u32, from: u32, to: u32) -> Result<(), Refusal> {
    if from >= n || to >= n {
        return refuse(7, 0);
    }
    let at = state.count as usize;
    if at >= MOST_ADDED {
        return refuse(21, 0);
    }
    state.sources[at] = from;
    state.targets[at] = to;
    state.count += 1;
    Ok(())
}

/// Whether a path leads from source to target over the indexed edges together with the added ones. Marks below n and the
/// words needed are 0 afterwards, after refusals 15, 21 and 7 too; refusals 10 to 14 and 6 alter nothing.
pub fn ask_added(
    index: &[u8],
    state: &Added,
    source: u32,
    target: u32,
    marks: &mut [u8],
    words: &mut [u32],
) -> Result<bool, Refusal> {
    let held = Held::of(&ORDINARY, index, marks, words)?;
    let (source, target) = vertices_in_range(held.counts.n, source, target)?;
    let index = held.sound_or_refused(index, marks, words)?;
    if state.count as usize > MOST_ADDED {
        return refuse(21, 0);
    }
    let ends = state.sources.iter().zip(&state.targets).take(state.count as usize);
    let added: Vec<(usize, usize)> = ends.map(|(&u, &v)| (u as usize, v as usize)).collect();
    if let Some(edge) = added.iter().position(|&(u, v)| u >= index.n() || v >= index.n()) {
        return refuse(7, edge);
    }
    Ok(index.reaches_with(&added, source, target))
}

impl Index {
    /// Whether a path leads from source to target over edges that have this index, together with others: a search along edges
    /// from each vertex to its group's name and back, from each name to those of its children, and along the others.
    pub fn reaches_with(&self, others: &[(usize, usize)], source: usize, target: usize) -> bool {
        let groups = &self.groups;
        let mut graph = Graph::new(self.n(), others);
        for (vertex, &name) in groups.names.iter().enumerate() {
            graph.edges.extend([(vertex, name), (name, vertex)]);
        }
        for (place, children) in groups.children.iter().enumerate() {
            let ends = children.iter().map(|&child| (groups.list[place], groups.list[child]));
            graph.edges.extend(ends);
        }
        reached(&next(&graph), source)[target]
    }
}
