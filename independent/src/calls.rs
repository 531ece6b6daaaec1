//! The four calls with the refusals of the documents, in their order, and what each leaves in lent memory. They take the
//! stored forms 1 and 2; [`crate::host`] has those of the C host, which takes form 1 alone, [`crate::turned`] those on a turned
//! index, [`crate::hierarchy`] those on a plain hierarchy.

use crate::bounds::work_words;
use crate::form::{Form, ORDINARY};
use crate::graph::{is_permutation, Graph};
use crate::index::Index;
use crate::question::Answer;
use crate::refusal::{refuse, Refusal};
use crate::sound::sound_index;
use crate::stored::{encode, Counts};

/// Builds the index of a graph in the form of this number, and returns the total length of its stored form, which is
/// written to `out`. The orders stand one behind the other. The needed work words are 0 afterwards, after refusals 8 and 9
/// too; refusals 11 and 1 to 7 alter nothing.
#[allow(clippy::too_many_arguments)]
pub fn build(
    form: u32,
    n: u32,
    sources: &[u32],
    targets: &[u32],
    orders: &[u32],
    d: u32,
    work: &mut [u32],
    out: &mut [u8],
) -> Result<u32, Refusal> {
    let Some(form) = Form::among(&ORDINARY, form) else {
        return refuse(11, form as usize);
    };
    build_as(&form, n, sources, targets, orders, d, work, out)
}

/// `build` in this form, by its bounds.
#[allow(clippy::too_many_arguments)]
pub(crate) fn build_as(
    form: &Form,
    n: u32,
    sources: &[u32],
    targets: &[u32],
    orders: &[u32],
    d: u32,
    work: &mut [u32],
    out: &mut [u8],
) -> Result<u32, Refusal> {
    let (vertices, labellings) = (n as usize, d as usize);
    if vertices > form.most_vertices {
        return refuse(1, 0);
    }
    if sources.len() != targets.len() {
        return refuse(2, 0);
    }
    if sources.len() > form.most_edges {
        return refuse(3, 0);
    }
    if !(1..=form.most_labellings).contains(&labellings) {
        return refuse(4, 0);
    }
    if orders.len() != labellings * vertices {
        return refuse(5, 0);
    }
    let needed = work_words(vertices, sources.len());
    if work.len() < needed {
        return refuse(6, needed);
    }
    let mut ends = sources.iter().zip(targets);
    if let Some(edge) = ends.position(|(&u, &v)| u >= n || v >= n) {
        return refuse(7, edge);
    }

    work[..needed].fill(0);
    let orders: Vec<Vec<usize>> = (0..labellings)
        .map(|i| &orders[i * vertices..(i + 1) * vertices])
        .map(|order| order.iter().map(|&v| v as usize).collect())
        .collect();
    let mut each = orders.iter();
    if let Some(order) = each.position(|order| !is_permutation(order, vertices)) {
        return refuse(8, order);
    }
    let graph = Graph::from_lists(n, sources, targets);
    let index = Index::of(&graph, &orders);
    if let Some(name) = form.kept_out_by(&index.groups) {
        return refuse(22, name);
    }
    let bytes = encode(form, &index);
    if out.len() < bytes.len() {
        return refuse(9, bytes.len());
    }
    out[..bytes.len()].copy_from_slice(&bytes);
    Ok(bytes.len() as u32)
}

/// Opens a stored index and returns its counts. Marks below n and the words needed are 0 afterwards, after refusal 15 too;
/// refusals 10 to 13 and 6 alter nothing.
pub fn open(index: &[u8], marks: &mut [u8], words: &mut [u32]) -> Result<Counts, Refusal> {
    open_taking(&ORDINARY, index, marks, words)
}

/// Asks whether source reaches target. Afterwards marks below n are 1 at the names of opened groups and 0 elsewhere, and the
/// words needed are 0; after refusal 15 all these are 0; refusals 10 to 14 and 6 alter nothing.
pub fn ask(index: &[u8], source: u32, target: u32, marks: &mut [u8], words: &mut [u32]) -> Result<Answer, Refusal> {
    ask_taking(&ORDINARY, index, source, target, marks, words)
}

/// Writes the downstream list of a vertex to `out` and returns its count. Marks below n and the words needed are 0
/// afterwards, after refusals 15 and 16 too; refusals 10 to 14 and 6 alter nothing.
pub fn list(index: &[u8], vertex: u32, marks: &mut [u8], words: &mut [u32], out: &mut [u32]) -> Result<u32, Refusal> {
    list_taking(&ORDINARY, index, vertex, marks, words, out)
}

/// `open` of these forms.
pub(crate) fn open_taking(
    taken: &[Form],
    index: &[u8],
    marks: &mut [u8],
    words: &mut [u32],
) -> Result<Counts, Refusal> {
    let held = Held::of(taken, index, marks, words)?;
    held.sound_or_refused(index, marks, words)?;
    Ok(held.counts)
}

/// `ask` of these forms.
pub(crate) fn ask_taking(
    taken: &[Form],
    index: &[u8],
    source: u32,
    target: u32,
    marks: &mut [u8],
    words: &mut [u32],
) -> Result<Answer, Refusal> {
    let held = Held::of(taken, index, marks, words)?;
    let (source, target) = vertices_in_range(held.counts.n, source, target)?;
    let index = held.sound_or_refused(index, marks, words)?;
    let asked = index.question(source, target);
    for name in asked.opened {
        marks[name] = 1;
    }
    Ok(asked.answer)
}

/// `list` of these forms.
pub(crate) fn list_taking(
    taken: &[Form],
    index: &[u8],
    vertex: u32,
    marks: &mut [u8],
    words: &mut [u32],
    out: &mut [u32],
) -> Result<u32, Refusal> {
    let held = Held::of(taken, index, marks, words)?;
    let vertex = vertex_in_range(held.counts.n, vertex, 0)?;
    let index = held.sound_or_refused(index, marks, words)?;
    let downstream = index.downstream(vertex);
    if out.len() < downstream.len() {
        return refuse(16, downstream.len());
    }
    for (slot, &v) in out.iter_mut().zip(&downstream) {
        *slot = v as u32;
    }
    Ok(downstream.len() as u32)
}

/// Refusal 14 of a question, source first; otherwise the two vertices.
pub fn vertices_in_range(n: usize, source: u32, target: u32) -> Result<(usize, usize), Refusal> {
    Ok((vertex_in_range(n, source, 0)?, vertex_in_range(n, target, 1)?))
}

fn vertex_in_range(n: usize, vertex: u32, role: usize) -> Result<usize, Refusal> {
    if (vertex as usize) < n {
        Ok(vertex as usize)
    } else {
        refuse(14, role)
    }
}

/// What the header of stored bytes says, in a form that is taken and with enough memory lent.
pub(crate) struct Held {
    form: Form,
    pub(crate) counts: Counts,
}

impl Held {
    /// Refusals 10 to 13 and then 6; otherwise what the header says.
    pub(crate) fn of(taken: &[Form], index: &[u8], marks: &[u8], words: &[u32]) -> Result<Held, Refusal> {
        let (form, counts) = Counts::read(index, taken)?;
        if marks.len() < counts.n {
            return refuse(13, counts.n);
        }
        let needed = form.words_needed(&counts);
        if words.len() < needed {
            return refuse(6, needed);
        }
        Ok(Held { form, counts })
    }

    /// Sets the marks below n and the words needed to 0, then refusal 15 or the index.
    pub(crate) fn sound_or_refused(&self, index: &[u8], marks: &mut [u8], words: &mut [u32]) -> Result<Index, Refusal> {
        marks[..self.counts.n].fill(0);
        words[..self.form.words_needed(&self.counts)].fill(0);
        match sound_index(index, &self.form, &self.counts) {
            Some(index) => Ok(index),
            None => refuse(15, 0),
        }
    }
}
