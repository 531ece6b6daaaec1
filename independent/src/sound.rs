//! Whether stored contents are sound: whether some edge list, of any length, and d orders yield exactly these bytes.
//!
//! The bytes are not tested piece by piece. An edge list and d orders are read off from them, the ordinary index of
//! these is made from scratch, and the bytes are sound when its stored form is the same, byte for byte.
//!
//! Why this is right. If the bytes agree, then the list and the orders read off are the ones asked for. For the
//! other direction, let the bytes be those of some graph under some orders.
//!
//! - The edges read off are v to name and name to v for each vertex v, and name to name for each child entry. They
//!   join each group to itself, and lead from one group to another exactly where the graph has a child; as no group
//!   of the graph is below itself, no two groups are joined. So names, group list, children and levels come out the
//!   same.
//! - A labelling's inner intervals are the subtrees of its traversal forest: the subtree of a group holds exactly
//!   the ranks m to e. Hence the group from which x was gone on to is the owner of the smallest interval around
//!   x's, and the groups gone on to from one group were so by rising rank. The preorder of this forest therefore
//!   is the order in which the traversal came to visit the groups.
//! - Take this visiting order as the order of a second traversal. As long as both have done the same steps, they
//!   stand at the same group with the same groups visited. The first one's next group, if it goes on, is the one
//!   that comes earliest in the visiting order of all groups not yet visited, so the second one chooses it among
//!   the children too; and if no child is left unvisited, both finish the group. So the two traversals are the
//!   same, and with them ranks and intervals. Where the other vertices stand in the order plays no part.
//!
//! A form of plain hierarchies asks for more: the graph must be one. It then is its own traversal forest, as each group is
//! gone on to from its one parent, so s and m are the same, and leaving m out loses nothing.

use crate::form::Form;
use crate::graph::{is_permutation, Graph};
use crate::groups::Groups;
use crate::index::Index;
use crate::labels::Labelling;
use crate::stored::{decode, encode, Counts};

/// The index that these bytes hold, if their contents are sound. Form and counts are those that the bytes' header gives.
pub fn sound_index(bytes: &[u8], form: &Form, counts: &Counts) -> Option<Index> {
    let told = decode(bytes, form, counts)?;
    let graph = graph_told(&told.groups, counts)?;
    let orders = told
        .labellings
        .iter()
        .map(|labelling| order_told(&told.groups, labelling))
        .collect::<Option<Vec<_>>>()?;
    let made = Index::of(&graph, &orders);
    (form.kept_out_by(&made.groups).is_none() && encode(form, &made) == bytes).then_some(made)
}

/// The graph read off from names and children; none if they speak of vertices or places that there are not.
fn graph_told(groups: &Groups, counts: &Counts) -> Option<Graph> {
    let vertices = groups.names.iter().chain(&groups.list);
    let places = groups.children.iter().flatten();
    if vertices.copied().any(|v| v >= counts.n) || places.copied().any(|p| p >= counts.k) {
        return None;
    }
    let mut edges = Vec::new();
    for (vertex, &name) in groups.names.iter().enumerate() {
        edges.push((vertex, name));
        edges.push((name, vertex));
    }
    for (&name, children) in groups.list.iter().zip(&groups.children) {
        edges.extend(children.iter().map(|&child| (name, groups.list[child])));
    }
    Some(Graph { n: counts.n, edges })
}

/// The order read off from one labelling: the names in preorder of the forest that the inner intervals describe,
/// then all other vertices, rising. None if the ranks are not 1 to k, or the names not different.
fn order_told(groups: &Groups, labelling: &Labelling) -> Option<Vec<usize>> {
    let n = groups.names.len();
    let preorder = Forest::told(labelling)?.preorder();
    let mut order: Vec<usize> = preorder.iter().map(|&place| groups.list[place]).collect();
    let mut is_name = vec![false; n];
    for &name in &order {
        is_name[name] = true;
    }
    order.extend((0..n).filter(|&v| !is_name[v]));
    is_permutation(&order, n).then_some(order)
}

/// Places below places, each list by rising rank.
struct Forest {
    roots: Vec<usize>,
    below: Vec<Vec<usize>>,
}

impl Forest {
    fn told(labelling: &Labelling) -> Option<Forest> {
        let k = labelling.e.len();
        let mut owners = vec![None; k];
        for (place, &rank) in labelling.e.iter().enumerate() {
            *owners.get_mut(rank.checked_sub(1)?)? = Some(place);
        }
        let owners = owners.into_iter().collect::<Option<Vec<usize>>>()?;

        // Of nested intervals around a rank, the smallest is the one that ends first: by rising rank each group takes those
        // that its interval holds and that no group has taken.
        let mut below = vec![Vec::new(); k];
        let mut roots: Vec<usize> = Vec::new();
        for &place in &owners {
            let taken = roots.partition_point(|&root| labelling.e[root] < labelling.m[place]);
            below[place] = roots.split_off(taken);
            roots.push(place);
        }
        Some(Forest { roots, below })
    }

    fn preorder(&self) -> Vec<usize> {
        let mut order = Vec::new();
        let mut waiting: Vec<usize> = self.roots.iter().rev().copied().collect();
        while let Some(place) = waiting.pop() {
            order.push(place);
            waiting.extend(self.below[place].iter().rev());
        }
        order
    }
}
