//! The stored bytes, in each form: an index written to them, their header checked, and they taken apart.

use crate::bounds::HEADER_BYTES;
use crate::form::Form;
use crate::graph::Graph;
use crate::groups::Groups;
use crate::index::Index;
use crate::labels::Labelling;
use crate::refusal::{refuse, Refusal};

/// The four counts of a stored index: vertices, groups, child entries, labellings.
#[derive(Clone, Copy, Debug, PartialEq, Eq)]
pub struct Counts {
    pub n: usize,
    pub k: usize,
    pub c: usize,
    pub d: usize,
}

impl Counts {
    pub fn of(index: &Index) -> Counts {
        Counts {
            n: index.n(),
            k: index.groups.list.len(),
            c: index.groups.children.iter().map(Vec::len).sum(),
            d: index.labellings.len(),
        }
    }

    /// How many numbers each of the six sections holds in a form.
    pub fn sections(&self, form: &Form) -> [usize; 6] {
        let Counts { n, k, c, d } = *self;
        [n, k, k, k + 1, c, (form.by_place() + 1) * d * k]
    }

    /// The twelve numbers of the header that these counts give in a form.
    pub fn header(&self, form: &Form) -> [u32; 12] {
        let mut numbers = vec![form.number as usize, self.n, self.k, self.c, self.d];
        let mut offset = HEADER_BYTES;
        for section in self.sections(form) {
            numbers.push(offset);
            offset += form.width * section;
        }
        numbers.push(form.total_length(self));
        std::array::from_fn(|i| numbers[i] as u32)
    }

    /// The form and the counts of these bytes, or refusal 10, 11 for a form that is not taken, or 12 by the form's bounds.
    pub fn read(bytes: &[u8], taken: &[Form]) -> Result<(Form, Counts), Refusal> {
        if bytes.len() < HEADER_BYTES {
            return refuse(10, 0);
        }
        let header: [u32; 12] = std::array::from_fn(|i| little_endian(&bytes[4 * i..4 * i + 4]) as u32);
        let [number, n, k, c, d, ..] = header.map(|number| number as usize);
        let Some(form) = Form::among(taken, header[0]) else {
            return refuse(11, number);
        };
        let in_bounds = n <= form.most_vertices
            && k <= n
            && c <= form.most_child_entries
            && (1..=form.most_labellings).contains(&d);
        let counts = Counts { n, k, c, d };
        if in_bounds && header == counts.header(&form) && bytes.len() == form.total_length(&counts) {
            Ok((form, counts))
        } else {
            refuse(12, 0)
        }
    }
}

/// The stored bytes of an index in a form. A number too large for the form's width keeps its low bytes.
pub fn encode(form: &Form, index: &Index) -> Vec<u8> {
    let groups = &index.groups;
    let mut starts = vec![0];
    for children in &groups.children {
        starts.push(starts[starts.len() - 1] + children.len());
    }
    let mut numbers: Vec<usize> = Vec::new();
    numbers.extend(&groups.names);
    numbers.extend(&groups.list);
    numbers.extend(&groups.levels);
    numbers.extend(&starts);
    numbers.extend(groups.children.iter().flatten());
    for labelling in &index.labellings {
        for place in 0..groups.list.len() {
            let [s, m, e] = [labelling.s[place], labelling.m[place], labelling.e[place]];
            numbers.push(s);
            numbers.extend((!form.hierarchy).then_some(m));
            numbers.push(e);
        }
        numbers.extend(&labelling.by_rank);
    }

    let mut bytes = Vec::new();
    for number in Counts::of(index).header(form) {
        bytes.extend(number.to_le_bytes());
    }
    for number in numbers {
        bytes.extend(&number.to_le_bytes()[..form.width]);
    }
    bytes
}

/// The stored bytes of a graph's index under these orders, in a form.
pub fn image(form: &Form, graph: &Graph, orders: &[Vec<usize>]) -> Vec<u8> {
    encode(form, &Index::of(graph, orders))
}

/// The number that these bytes hold, the lowest byte first.
pub fn little_endian(bytes: &[u8]) -> usize {
    bytes.iter().rev().fold(0, |number, &byte| number << 8 | byte as usize)
}

/// The bytes taken apart into the six sections, whatever numbers these hold. Where the m numbers are left out they are the s
/// numbers, as in every plain hierarchy. None if the child starts do not cut
/// the children into one stretch for each group: not rising, or reaching beyond c.
pub fn decode(bytes: &[u8], form: &Form, counts: &Counts) -> Option<Index> {
    let mut numbers = bytes[HEADER_BYTES..].chunks_exact(form.width).map(little_endian);
    let [names, list, levels, starts, children, labels] = counts
        .sections(form)
        .map(|section| numbers.by_ref().take(section).collect::<Vec<usize>>());

    let children = starts
        .windows(2)
        .map(|ends| children.get(ends[0]..ends[1]).map(<[usize]>::to_vec))
        .collect::<Option<Vec<_>>>()?;
    let (k, by_place) = (counts.k, form.by_place());
    let labelling = |i: usize| {
        let all = (by_place + 1) * k;
        let (each_place, by_rank) = labels[all * i..all * (i + 1)].split_at(by_place * k);
        let nth = |n: usize| each_place.iter().skip(n).step_by(by_place).copied().collect();
        Labelling {
            s: nth(0),
            m: if form.hierarchy { nth(0) } else { nth(1) },
            e: nth(by_place - 1),
            by_rank: by_rank.to_vec(),
        }
    };
    Some(Index {
        groups: Groups {
            names,
            list,
            children,
            levels,
        },
        labellings: (0..counts.d).map(labelling).collect(),
    })
}
