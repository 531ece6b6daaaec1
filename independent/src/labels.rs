//! One labelling: one traversal of the groups under one order, and the intervals it gives.
//!
//! The traversal keeps its path in a list of its own, so that a line of groups of any length can be traversed.

use crate::groups::Groups;

#[derive(Clone, Debug, PartialEq, Eq)]
pub struct Labelling {
    /// By place: the least of the group's own e and its children's s.
    pub s: Vec<usize>,
    /// By place: the least rank in the group's traversal subtree.
    pub m: Vec<usize>,
    /// By place: the group's rank, from 1.
    pub e: Vec<usize>,
    /// The places by rank.
    pub by_rank: Vec<usize>,
}

/// What a traversal leaves: the places as they were finished, and from which group each was gone on to.
struct Traversal {
    by_rank: Vec<usize>,
    above: Vec<Option<usize>>,
}

impl Labelling {
    pub fn of(groups: &Groups, order: &[usize]) -> Labelling {
        let Traversal { by_rank, above } = traverse(groups, order);
        let k = by_rank.len();

        let mut e = vec![0; k];
        for (finished_before, &place) in by_rank.iter().enumerate() {
            e[place] = finished_before + 1;
        }

        // A group is finished after its children, so by rising rank the children's s are there.
        let mut s = e.clone();
        for &place in &by_rank {
            for &child in &groups.children[place] {
                s[place] = s[place].min(s[child]);
            }
        }

        // A subtree is finished before its group, so by rising rank the least rank in each is known before the group above
        // takes it over.
        let mut m = e.clone();
        for &place in &by_rank {
            if let Some(group) = above[place] {
                m[group] = m[group].min(m[place]);
            }
        }

        Labelling { s, m, e, by_rank }
    }

    /// Whether the inner interval of x contains the e of t.
    pub fn inner_holds(&self, x: usize, t: usize) -> bool {
        self.m[x] <= self.e[t] && self.e[t] <= self.e[x]
    }

    /// Whether the outer interval of x contains that of t.
    pub fn outer_holds(&self, x: usize, t: usize) -> bool {
        self.s[x] <= self.s[t] && self.e[t] <= self.e[x]
    }
}

/// Starts from the groups that are nobody's child, in the order, and at a group goes on to each child not yet
/// visited, in the order.
fn traverse(groups: &Groups, order: &[usize]) -> Traversal {
    let mut position = vec![0; order.len()];
    for (at, &vertex) in order.iter().enumerate() {
        position[vertex] = at;
    }
    // Groups compare by where their names stand in the order.
    let in_order = |mut places: Vec<usize>| {
        places.sort_by_key(|&place| position[groups.list[place]]);
        places.into_iter()
    };

    let k = groups.list.len();
    let mut visited = vec![false; k];
    let mut above = vec![None; k];
    let mut by_rank = Vec::new();
    // Each group on the way to where the traversal stands, with what is left to look at from it. The first entry
    // is no group: from it the traversal goes on to the groups it starts from.
    let mut path = vec![(None, in_order(groups.tops()))];
    while let Some((group, left)) = path.last_mut() {
        let group = *group;
        if let Some(next) = left.find(|&place| !visited[place]) {
            visited[next] = true;
            above[next] = group;
            path.push((Some(next), in_order(groups.children[next].clone())));
        } else {
            by_rank.extend(group);
            path.pop();
        }
    }
    Traversal { by_rank, above }
}
