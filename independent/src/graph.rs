//! The graph as it is given: vertices 0 to n-1 and a list of edges, repeats and self-loops allowed.

#[derive(Clone, Debug, PartialEq, Eq)]
pub struct Graph {
    pub n: usize,
    /// Each edge as (source, target).
    pub edges: Vec<(usize, usize)>,
}

impl Graph {
    pub fn new(n: usize, edges: &[(usize, usize)]) -> Graph {
        Graph {
            n,
            edges: edges.to_vec(),
        }
    }

    /// From the two lent lists, which must be of one length.
    pub fn from_lists(n: u32, sources: &[u32], targets: &[u32]) -> Graph {
        let ends = sources.iter().zip(targets);
        Graph {
            n: n as usize,
            edges: ends.map(|(&u, &v)| (u as usize, v as usize)).collect(),
        }
    }

    /// Each edge the other way round.
    pub fn turned(&self) -> Graph {
        Graph {
            n: self.n,
            edges: self.edges.iter().map(|&(u, v)| (v, u)).collect(),
        }
    }

    pub fn sources(&self) -> Vec<u32> {
        self.edges.iter().map(|&(u, _)| u as u32).collect()
    }

    pub fn targets(&self) -> Vec<u32> {
        self.edges.iter().map(|&(_, v)| v as u32).collect()
    }
}

/// Whether the list holds each of 0 to n-1 exactly once.
pub fn is_permutation(list: &[usize], n: usize) -> bool {
    let mut seen = vec![false; n];
    let all_new = list.iter().all(|&v| v < n && !std::mem::replace(&mut seen[v], true));
    all_new && list.len() == n
}

/// Orders one behind the other, as `build` takes them.
pub fn flat(orders: &[Vec<usize>]) -> Vec<u32> {
    orders.iter().flatten().map(|&v| v as u32).collect()
}
