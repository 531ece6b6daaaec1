//! Groups and labels against the document's words taken literally: search by paths, traversal by recursion.

use independent::chance::{Chance, Kind};
use independent::closure::Closure;
use independent::groups::Groups;
use independent::labels::Labelling;
use independent::Graph;

/// A traversal told as the document tells it.
struct Traversal<'a> {
    groups: &'a Groups,
    order: &'a [usize],
    e: Vec<Option<usize>>,
    s: Vec<usize>,
    m: Vec<usize>,
    visited: Vec<bool>,
    finished: usize,
}

impl Traversal<'_> {
    fn position(&self, place: usize) -> usize {
        let name = self.groups.list[place];
        self.order.iter().position(|&v| v == name).unwrap()
    }

    /// Visits these groups in the order and returns the least rank that this gave.
    fn each(&mut self, mut places: Vec<usize>) -> usize {
        places.sort_by_key(|&place| self.position(place));
        let mut least = usize::MAX;
        for place in places {
            if !self.visited[place] {
                least = least.min(self.visit(place));
            }
        }
        least
    }

    fn visit(&mut self, place: usize) -> usize {
        self.visited[place] = true;
        let children = self.groups.children[place].clone();
        let least_below = self.each(children.clone());
        self.finished += 1;
        let e = self.finished;
        self.e[place] = Some(e);
        self.m[place] = e.min(least_below);
        self.s[place] = children.iter().map(|&child| self.s[child]).fold(e, usize::min);
        self.m[place]
    }
}

fn labelling_by_recursion(groups: &Groups, order: &[usize]) -> Labelling {
    let k = groups.list.len();
    let is_child = |place: usize| groups.children.iter().any(|list| list.contains(&place));
    let mut traversal = Traversal {
        groups,
        order,
        e: vec![None; k],
        s: vec![0; k],
        m: vec![0; k],
        visited: vec![false; k],
        finished: 0,
    };
    traversal.each((0..k).filter(|&place| !is_child(place)).collect());
    let e: Vec<usize> = traversal.e.into_iter().map(Option::unwrap).collect();
    let mut by_rank: Vec<usize> = (0..k).collect();
    by_rank.sort_by_key(|&place| e[place]);
    Labelling {
        s: traversal.s,
        m: traversal.m,
        e,
        by_rank,
    }
}

fn for_each_graph(seed: u64, rounds: usize, mut check: impl FnMut(&mut Chance, Graph)) {
    let mut chance = Chance::new(seed);
    for round in 0..rounds {
        let n = chance.between(0, 20);
        let graph = chance.graph(Kind::ALL[round % Kind::ALL.len()], n);
        check(&mut chance, graph);
    }
}

#[test]
fn labels_follow_the_traversal() {
    for_each_graph(11, 3_000, |chance, graph| {
        let groups = Groups::of(&graph);
        let order = chance.order(graph.n);
        let told = labelling_by_recursion(&groups, &order);
        assert_eq!(Labelling::of(&groups, &order), told, "{graph:?} {order:?}");
    });
}

/// Names and places as the document tells them, by plain search from every vertex.
fn groups_are_mutual(graph: &Graph) {
    let groups = Groups::of(graph);
    let closure = Closure::of(graph);
    for u in 0..graph.n {
        for v in 0..graph.n {
            let mutual = closure.reaches(u, v) && closure.reaches(v, u);
            assert_eq!(groups.names[u] == groups.names[v], mutual, "{graph:?} {u} {v}");
        }
        assert!(groups.names[u] <= u);
        assert_eq!(groups.list[groups.place(u)], groups.names[u]);
    }
    assert!(groups.list.windows(2).all(|two| two[0] < two[1]));
}

#[test]
fn groups_are_the_vertices_that_reach_each_other() {
    for_each_graph(12, 3_000, |_, graph| groups_are_mutual(&graph));
    let mut chance = Chance::new(16);
    for kind in Kind::ALL {
        for n in [100, 500] {
            groups_are_mutual(&chance.graph(kind, n));
        }
    }
}

#[test]
fn groups_of_every_graph_on_four_vertices() {
    independent::every::every_graph(4).for_each(|graph| groups_are_mutual(&graph));
}

#[test]
fn children_come_from_edges_only() {
    // 0 reaches 2 through 1, but no edge leads there.
    let groups = Groups::of(&Graph::new(3, &[(0, 1), (1, 2)]));
    assert_eq!(groups.children, [vec![1], vec![2], vec![]]);
    for_each_graph(13, 1_000, |_, graph| {
        let groups = Groups::of(&graph);
        for a in 0..groups.list.len() {
            let leads_to = |b: usize| {
                let mut edges = graph.edges.iter();
                a != b && edges.any(|&(u, v)| groups.place(u) == a && groups.place(v) == b)
            };
            let told: Vec<usize> = (0..groups.list.len()).filter(|&b| leads_to(b)).collect();
            assert_eq!(groups.children[a], told);
        }
    });
}

#[test]
fn level_is_one_above_the_greatest_below() {
    for_each_graph(14, 1_000, |_, graph| {
        let groups = Groups::of(&graph);
        for (place, children) in groups.children.iter().enumerate() {
            let below = children.iter().map(|&child| groups.levels[child] + 1);
            assert_eq!(groups.levels[place], below.max().unwrap_or(0));
        }
    });
}

#[test]
fn closure_is_reflexive_and_follows_paths() {
    for_each_graph(15, 500, |_, graph| {
        // Paths of at most one edge, then joined at each vertex in turn.
        let n = graph.n;
        let mut paths = vec![vec![false; n]; n];
        for &(u, v) in &graph.edges {
            paths[u][v] = true;
        }
        for middle in 0..n {
            paths[middle][middle] = true;
            let onwards = paths[middle].clone();
            for row in paths.iter_mut().filter(|row| row[middle]) {
                for (known, &joined) in row.iter_mut().zip(&onwards) {
                    *known |= joined;
                }
            }
        }
        let closure = Closure::of(&graph);
        for (u, row) in paths.iter().enumerate() {
            for (v, &path) in row.iter().enumerate() {
                assert_eq!(closure.reaches(u, v), path);
            }
        }
    });
}
