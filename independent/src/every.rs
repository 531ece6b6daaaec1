//! The second judge of soundness, for a handful of vertices: all images there are, found by trying every set of edges
//! and every choice of orders.

use crate::form::Form;
use crate::graph::Graph;
use crate::groups::Groups;
use crate::index::Index;
use crate::labels::Labelling;
use crate::stored::encode;
use std::collections::BTreeSet;

/// The images, in a form, of all graphs on n vertices that it takes, under all choices of d orders. Repeated edges and self-loops change neither
/// what reaches what nor which groups are children, so sets of edges between different vertices give all images.
pub fn every_image(form: &Form, n: usize, d: usize) -> BTreeSet<Vec<u8>> {
    let orders = every_order(n);
    let mut images = BTreeSet::new();
    for graph in every_graph(n) {
        let groups = Groups::of(&graph);
        if form.kept_out_by(&groups).is_some() {
            continue;
        }
        let labellings: Vec<Labelling> = orders.iter().map(|order| Labelling::of(&groups, order)).collect();
        for choice in every_choice(&labellings, d) {
            let index = Index {
                groups: groups.clone(),
                labellings: choice,
            };
            images.insert(encode(form, &index));
        }
    }
    images
}

/// All graphs on n vertices without repeats and self-loops.
pub fn every_graph(n: usize) -> impl Iterator<Item = Graph> {
    let pairs: Vec<(usize, usize)> = (0..n)
        .flat_map(|u| (0..n).map(move |v| (u, v)))
        .filter(|(u, v)| u != v)
        .collect();
    (0..1_u64 << pairs.len()).map(move |chosen| {
        let edges = pairs.iter().enumerate();
        let edges = edges.filter(|(i, _)| chosen >> i & 1 == 1);
        Graph {
            n,
            edges: edges.map(|(_, &pair)| pair).collect(),
        }
    })
}

/// All permutations of 0 to n-1: those of one fewer, with n-1 put in at each position.
pub fn every_order(n: usize) -> Vec<Vec<usize>> {
    let Some(last) = n.checked_sub(1) else {
        return vec![Vec::new()];
    };
    let put = |shorter: Vec<usize>| {
        (0..n).map(move |at| {
            let mut order = shorter.clone();
            order.insert(at, last);
            order
        })
    };
    every_order(last).into_iter().flat_map(put).collect()
}

/// All lists of d of the given things.
fn every_choice<T: Clone>(things: &[T], d: usize) -> Vec<Vec<T>> {
    let mut choices = vec![Vec::new()];
    for _ in 0..d {
        let longer = |choice: &Vec<T>| {
            let choice = choice.clone();
            things
                .iter()
                .map(move |thing| [&choice[..], std::slice::from_ref(thing)].concat())
                .collect::<Vec<_>>()
        };
        choices = choices.iter().flat_map(longer).collect();
    }
    choices
}
