//! Plain reachability: one search from each vertex. Every yes and no of an index must agree with it. For graphs too large
//! for that, [`Search`] is one search at a time.

use crate::graph::Graph;

/// For each vertex, which vertices it reaches by a path of zero or more edges.
pub struct Closure {
    rows: Vec<Vec<bool>>,
}

impl Closure {
    pub fn of(graph: &Graph) -> Closure {
        let next = next(graph);
        Closure {
            rows: (0..graph.n).map(|u| reached(&next, u)).collect(),
        }
    }

    /// The number of vertices.
    pub fn size(&self) -> usize {
        self.rows.len()
    }

    pub fn reaches(&self, u: usize, v: usize) -> bool {
        self.rows[u][v]
    }

    /// The downstream list, rising: all other vertices that u reaches, and u itself if one of them reaches it.
    pub fn downstream(&self, u: usize) -> Vec<usize> {
        let comes_back = (0..self.size()).any(|v| v != u && self.reaches(u, v) && self.reaches(v, u));
        (0..self.size())
            .filter(|&v| self.reaches(u, v) && (v != u || comes_back))
            .collect()
    }
}

/// One search at a time, along the edges and against them.
pub struct Search {
    next: Vec<Vec<usize>>,
    before: Vec<Vec<usize>>,
}

impl Search {
    pub fn of(graph: &Graph) -> Search {
        Search {
            next: next(graph),
            before: next(&graph.turned()),
        }
    }

    /// Which vertices u reaches.
    pub fn from(&self, u: usize) -> Vec<bool> {
        reached(&self.next, u)
    }

    /// The downstream list, rising, as [`Closure::downstream`] has it.
    pub fn downstream(&self, u: usize) -> Vec<usize> {
        let (found, finds) = (self.from(u), reached(&self.before, u));
        let comes_back = (0..found.len()).any(|v| v != u && found[v] && finds[v]);
        (0..found.len())
            .filter(|&v| found[v] && (v != u || comes_back))
            .collect()
    }
}

/// By vertex: where its edges lead.
pub fn next(graph: &Graph) -> Vec<Vec<usize>> {
    let mut next = vec![Vec::new(); graph.n];
    for &(u, v) in &graph.edges {
        next[u].push(v);
    }
    next
}

/// What a search from one point finds, the point included; `next` says where the edges of each point lead.
pub fn reached(next: &[Vec<usize>], from: usize) -> Vec<bool> {
    let mut found = vec![false; next.len()];
    found[from] = true;
    let mut waiting = vec![from];
    while let Some(point) = waiting.pop() {
        for &other in &next[point] {
            if !found[other] {
                found[other] = true;
                waiting.push(other);
            }
        }
    }
    found
}
