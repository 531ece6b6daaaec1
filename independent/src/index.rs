//! The index of a graph under given orders: its groups and one labelling for each order.

use crate::closure::reached;
use crate::graph::Graph;
use crate::groups::Groups;
use crate::labels::Labelling;

#[derive(Clone, Debug, PartialEq, Eq)]
pub struct Index {
    pub groups: Groups,
    pub labellings: Vec<Labelling>,
}

impl Index {
    /// No bound is checked here, so that the soundness of contents can be told over edge lists of any length.
    pub fn of(graph: &Graph, orders: &[Vec<usize>]) -> Index {
        let groups = Groups::of(graph);
        let labellings = orders.iter().map(|order| Labelling::of(&groups, order)).collect();
        Index { groups, labellings }
    }

    /// The number of vertices.
    pub fn n(&self) -> usize {
        self.groups.names.len()
    }

    /// The downstream list, rising: all vertices that u reaches, but u itself only if its group has more than one vertex.
    pub fn downstream(&self, u: usize) -> Vec<usize> {
        let below = reached(&self.groups.children, self.groups.place(u));
        let mut list: Vec<usize> = (0..self.n()).filter(|&v| below[self.groups.place(v)]).collect();
        if self.groups.members(u).len() == 1 {
            list.retain(|&v| v != u);
        }
        list
    }
}
