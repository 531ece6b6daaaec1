//! What calls are given, made by chance: plain hierarchies, builds with something wrong in them, pairs, added edges, tables of rules.

use crate::compare::Input;
use independent::chance::{Chance, Kind};
use independent::{Added, Graph, Rule};

/// A forest on n vertices some of whose edges are repeated or closed to a cycle, with self-loops.
pub fn forest(chance: &mut Chance, n: usize) -> Graph {
    let mut graph = chance.graph(Kind::Forest, n);
    for _ in 0..chance.below(n / 3 + 1) {
        let v = chance.below(n);
        graph.edges.push((v, v));
        if let Some(&(parent, child)) = graph.edges.iter().find(|edge| edge.1 == v) {
            graph.edges.extend([(parent, child), (child, parent)]);
        }
    }
    graph
}

/// Something wrong in a build: an edge end or an order's vertex out of range, a vertex twice in an order, no or too many labellings, lists of other lengths.
pub fn spoil(chance: &mut Chance, input: &mut Input) {
    let n = input.n as usize;
    let bad = chance.one_of(&[n as u32, n as u32 + 1, u32::MAX]);
    let place = chance.number() as usize;
    let set = |list: &mut Vec<u32>, value: u32| match list.len() {
        0 => list.push(value),
        length => list[place % length] = value,
    };
    match chance.below(7) {
        0 => set(&mut input.sources, bad),
        1 => set(&mut input.targets, bad),
        2 => set(&mut input.orders, bad),
        3 => set(&mut input.orders, chance.below(n.max(1)) as u32),
        4 => input.d = chance.one_of(&[0, 2, 6]),
        5 => input.orders.push(0),
        _ => input.sources.push(0),
    }
}

/// A vertex, which now and then is out of range.
pub fn vertex(chance: &mut Chance, n: usize) -> u32 {
    if n == 0 || chance.below(6) == 0 {
        chance.one_of(&[n as u32, n as u32 + 7, u32::MAX])
    } else {
        chance.below(n) as u32
    }
}

/// Pairs of which some are out of range.
pub fn mixed_pairs(chance: &mut Chance, n: usize, count: usize) -> Vec<(u32, u32)> {
    (0..count).map(|_| (vertex(chance, n), vertex(chance, n))).collect()
}

/// A state with these edges, and what stands behind them: numbers of any size, and vertices.
pub fn added(chance: &mut Chance, n: usize, edges: &[(usize, usize)]) -> Added {
    let mut junk = || std::array::from_fn(|_| if chance.coin() { chance.number() as u32 } else { chance.below(n + 1) as u32 });
    let mut added = Added { sources: junk(), targets: junk(), count: edges.len() as u32 };
    for (i, &(u, v)) in edges.iter().enumerate() {
        (added.sources[i], added.targets[i]) = (u as u32, v as u32);
    }
    added
}

/// A table of so many records: vertices in range and a few that are not, states that have a name and others.
pub fn table(chance: &mut Chance, n: usize, records: usize) -> Vec<Rule> {
    (0..records)
        .map(|_| {
            let vertex = chance.below(n + 2) as u32;
            let vertex = if chance.below(20) == 0 { chance.one_of(&[u32::MAX, 1 << 31, 65_536 + vertex]) } else { vertex };
            let state = chance.below(4) as u32;
            let state = if state == 3 { chance.number() as u32 } else { state };
            Rule { rule: chance.number() as u32, vertex, state }
        })
        .collect()
}
