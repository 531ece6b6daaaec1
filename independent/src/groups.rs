//! Groups of vertices that reach each other: their names, places, children and levels.

use crate::closure::next;
use crate::graph::Graph;
use std::collections::BTreeSet;

#[derive(Clone, Debug, PartialEq, Eq)]
pub struct Groups {
    /// By vertex: the name of its group.
    pub names: Vec<usize>,
    /// By place: the names, rising.
    pub list: Vec<usize>,
    /// By place: the places of its children, rising.
    pub children: Vec<Vec<usize>>,
    /// By place.
    pub levels: Vec<usize>,
}

impl Groups {
    pub fn of(graph: &Graph) -> Groups {
        let names = names(graph);
        let list: Vec<usize> = (0..graph.n).filter(|&v| names[v] == v).collect();
        let children = children(graph, &names, &list);
        let levels = levels(&children);
        Groups {
            names,
            list,
            children,
            levels,
        }
    }

    /// The place of a vertex's group.
    pub fn place(&self, vertex: usize) -> usize {
        place_of(&self.list, self.names[vertex])
    }

    /// The vertices of a vertex's group, rising.
    pub fn members(&self, vertex: usize) -> Vec<usize> {
        (0..self.names.len())
            .filter(|&v| self.names[v] == self.names[vertex])
            .collect()
    }

    /// The groups that are nobody's child.
    pub fn tops(&self) -> Vec<usize> {
        let of_somebody: BTreeSet<usize> = self.children.iter().flatten().copied().collect();
        (0..self.list.len())
            .filter(|place| !of_somebody.contains(place))
            .collect()
    }

    /// The smallest name of a group that is a child of two others; none in a plain hierarchy.
    pub fn two_parents(&self) -> Option<usize> {
        let mut entries = vec![0; self.list.len()];
        self.children.iter().flatten().for_each(|&child| entries[child] += 1);
        let place = entries.iter().position(|&parents| parents > 1)?;
        Some(self.list[place])
    }
}

/// A group's name is its smallest vertex. A search goes down a path and keeps the vertices that it has come to and that are
/// in no group yet, in a row. An edge that leads back into the row closes a cycle, so all that stands from there on is in one
/// group, with `firsts` telling where the parts of the row begin that are not yet known to be one. Where the search leaves
/// the first vertex of the last part, nothing below leads further back: that part is a group.
fn names(graph: &Graph) -> Vec<usize> {
    let next = next(graph);
    let mut names = vec![None; graph.n];
    let mut position = vec![None; graph.n];
    let (mut row, mut firsts) = (Vec::new(), Vec::new());
    for start in 0..graph.n {
        let mut coming_to = position[start].is_none().then_some(start);
        // Each vertex on the way to where the search stands, with the number of its edges tried.
        let mut path: Vec<(usize, usize)> = Vec::new();
        loop {
            if let Some(vertex) = coming_to.take() {
                position[vertex] = Some(row.len());
                firsts.push(row.len());
                row.push(vertex);
                path.push((vertex, 0));
            }
            let Some((vertex, tried)) = path.last_mut() else {
                break;
            };
            let vertex = *vertex;
            if let Some(&other) = next[vertex].get(*tried) {
                *tried += 1;
                match position[other] {
                    None => coming_to = Some(other),
                    Some(back) if names[other].is_none() => {
                        firsts.truncate(firsts.partition_point(|&first| first <= back))
                    }
                    Some(_) => {}
                }
            } else {
                path.pop();
                if firsts.last().copied() == position[vertex] {
                    let group = row.split_off(firsts.pop().unwrap());
                    let name = group.iter().min().copied();
                    group.into_iter().for_each(|member| names[member] = name);
                }
            }
        }
    }
    names
        .into_iter()
        .map(|name| name.expect("every vertex is in a group"))
        .collect()
}

/// A name's position among all names.
fn place_of(list: &[usize], name: usize) -> usize {
    list.partition_point(|&other| other < name)
}

/// B is a child of A when they differ and some edge leads from A into B.
fn children(graph: &Graph, names: &[usize], list: &[usize]) -> Vec<Vec<usize>> {
    let mut sets = vec![BTreeSet::new(); list.len()];
    for &(u, v) in &graph.edges {
        if names[u] != names[v] {
            sets[place_of(list, names[u])].insert(place_of(list, names[v]));
        }
    }
    sets.into_iter().map(|set| set.into_iter().collect()).collect()
}

/// 0 without children, otherwise one more than the greatest level among the children: settled for a group once it is for
/// all its children, which it is in the end because no group is below itself.
fn levels(children: &[Vec<usize>]) -> Vec<usize> {
    let mut parents = vec![Vec::new(); children.len()];
    for (place, below) in children.iter().enumerate() {
        below.iter().for_each(|&child| parents[child].push(place));
    }
    let mut levels = vec![0; children.len()];
    let mut unsettled: Vec<usize> = children.iter().map(Vec::len).collect();
    let mut settled: Vec<usize> = (0..children.len()).filter(|&place| unsettled[place] == 0).collect();
    while let Some(child) = settled.pop() {
        for &place in &parents[child] {
            levels[place] = levels[place].max(levels[child] + 1);
            unsettled[place] -= 1;
            if unsettled[place] == 0 {
                settled.push(place);
            }
        }
    }
    levels
}
