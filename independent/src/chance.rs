//! Chance with a fixed seed: numbers, orders, graphs of several kinds, and damage to stored bytes. The same seed gives
//! the same things on every machine, so a failure that is reported with its seed can be seen again.

use crate::bounds::HEADER_BYTES;
use crate::form::{Form, FORMS, FORM_1, ORDINARY};
use crate::graph::Graph;
use crate::stored::{decode, encode, little_endian, Counts};

/// A source of numbers (splitmix64).
#[derive(Clone, Debug)]
pub struct Chance {
    state: u64,
}

/// The kinds of graph. Each is random in its edges or in the numbering of its vertices, or in both.
#[derive(Clone, Copy, Debug, PartialEq, Eq)]
pub enum Kind {
    /// About as many edges as vertices.
    Sparse,
    /// About a third of all pairs.
    Dense,
    /// No group of more than one vertex.
    Dag,
    /// Several cycles, with some edges between them.
    Cycles,
    /// Sparse, with self-loops.
    SelfLoops,
    /// Few different edges, each many times.
    Repeats,
    Line,
    Cycle,
    /// One vertex before all others, or behind them.
    Star,
    /// Two lines side by side, with rungs from one to the other.
    Ladder,
    /// Edges to the right and downwards.
    Grid,
    /// Each vertex the child of at most one.
    Forest,
    /// Layers, with edges from each to the next.
    Layered,
    /// Every vertex of one side to every vertex of the other.
    CompleteBipartite,
}

impl Kind {
    pub const ALL: [Kind; 14] = [
        Kind::Sparse,
        Kind::Dense,
        Kind::Dag,
        Kind::Cycles,
        Kind::SelfLoops,
        Kind::Repeats,
        Kind::Line,
        Kind::Cycle,
        Kind::Star,
        Kind::Ladder,
        Kind::Grid,
        Kind::Forest,
        Kind::Layered,
        Kind::CompleteBipartite,
    ];
}

/// The kinds of damage to stored bytes. Any of them may by chance leave the bytes as they were, or sound.
#[derive(Clone, Copy, Debug, PartialEq, Eq)]
pub enum Damage {
    /// One field behind the header to any small or great number.
    Field,
    /// One field behind the header up or down by one or two.
    NearField,
    /// Two fields behind the header exchanged.
    SwapFields,
    /// Two neighbouring fields behind the header exchanged.
    SwapNeighbours,
    /// The labels and ranks of two places exchanged throughout one labelling.
    SwapRanks,
    /// The last bytes cut off.
    Cut,
    /// Bytes put behind the last.
    Lengthen,
    /// One to four bytes anywhere to any number.
    Bytes,
    /// One number of the header to a near, small or great one.
    HeaderField,
    /// Counts that are possible with the header they give, and random fields behind it.
    RandomFields,
    /// Random bytes of any length.
    RandomBytes,
    /// One child entry taken out, with the header and the starts set right and the rest left.
    ChildGone,
    /// One child entry put in, with the header and the starts set right and the rest left.
    ChildAdded,
}

impl Damage {
    pub const ALL: [Damage; 13] = [
        Damage::Field,
        Damage::NearField,
        Damage::SwapFields,
        Damage::SwapNeighbours,
        Damage::SwapRanks,
        Damage::Cut,
        Damage::Lengthen,
        Damage::Bytes,
        Damage::HeaderField,
        Damage::RandomFields,
        Damage::RandomBytes,
        Damage::ChildGone,
        Damage::ChildAdded,
    ];
}

impl Chance {
    pub fn new(seed: u64) -> Chance {
        Chance { state: seed }
    }

    /// Any 64-bit number.
    pub fn number(&mut self) -> u64 {
        self.state = self.state.wrapping_add(0x9e37_79b9_7f4a_7c15);
        let mut z = self.state;
        z = (z ^ (z >> 30)).wrapping_mul(0xbf58_476d_1ce4_e5b9);
        z = (z ^ (z >> 27)).wrapping_mul(0x94d0_49bb_1331_11eb);
        z ^ (z >> 31)
    }

    /// A number from 0 to bound - 1; the bound is not 0.
    pub fn below(&mut self, bound: usize) -> usize {
        (self.number() % bound as u64) as usize
    }

    /// A number from low to high, both included.
    pub fn between(&mut self, low: usize, high: usize) -> usize {
        low + self.below(high - low + 1)
    }

    pub fn coin(&mut self) -> bool {
        self.below(2) == 0
    }

    /// One of the things, of which there is at least one.
    pub fn one_of<T: Copy>(&mut self, things: &[T]) -> T {
        things[self.below(things.len())]
    }

    pub fn shuffle<T>(&mut self, things: &mut [T]) {
        for last in (1..things.len()).rev() {
            things.swap(last, self.below(last + 1));
        }
    }

    /// A permutation of 0 to n-1.
    pub fn order(&mut self, n: usize) -> Vec<usize> {
        let mut order: Vec<usize> = (0..n).collect();
        self.shuffle(&mut order);
        order
    }

    pub fn orders(&mut self, n: usize, d: usize) -> Vec<Vec<usize>> {
        (0..d).map(|_| self.order(n)).collect()
    }

    /// A graph of this kind on n vertices, with at most as many edges as a build of form 1 takes. In one half of the cases
    /// the vertices are numbered at random, in the other as the kind suggests.
    pub fn graph(&mut self, kind: Kind, n: usize) -> Graph {
        self.graph_of(kind, n, FORM_1.most_edges)
    }

    /// The same with at most so many edges.
    pub fn graph_of(&mut self, kind: Kind, n: usize, most: usize) -> Graph {
        let numbering = if self.coin() { self.order(n) } else { (0..n).collect() };
        let mut edges = self.edges(kind, n, most);
        for (u, v) in &mut edges {
            *u = numbering[*u];
            *v = numbering[*v];
        }
        self.shuffle(&mut edges);
        edges.truncate(most);
        Graph { n, edges }
    }

    /// A graph of any kind on n vertices.
    pub fn any_graph(&mut self, n: usize) -> Graph {
        let kind = self.one_of(&Kind::ALL);
        self.graph(kind, n)
    }

    fn edges(&mut self, kind: Kind, n: usize, most: usize) -> Vec<(usize, usize)> {
        if n == 0 {
            return Vec::new();
        }
        let line = (1..n).map(|v| (v - 1, v));
        match kind {
            Kind::Sparse => {
                let count = self.between(n / 2, n + n / 2);
                self.pairs(n, count)
            }
            Kind::Dense => self.pairs(n, (n * n / 3).min(most)),
            Kind::Dag => {
                let count = self.between(n, 4 * n);
                let rising = |(u, v): (usize, usize)| (u.min(v), u.max(v));
                let pairs = self.pairs(n, count).into_iter().map(rising);
                pairs.filter(|(u, v)| u != v).collect()
            }
            Kind::Cycles => {
                let cycles = self.between(1, n / 3 + 1);
                let next_in_cycle = |v: usize| {
                    if v + cycles < n {
                        v + cycles
                    } else {
                        v % cycles
                    }
                };
                let mut edges: Vec<_> = (0..n).map(|v| (v, next_in_cycle(v))).collect();
                for _ in 0..cycles {
                    let (u, v) = (self.below(n), self.below(n));
                    let rising = u % cycles < v % cycles;
                    edges.push(if rising { (u, v) } else { (v, u) });
                }
                edges
            }
            Kind::SelfLoops => {
                let loops = self.pairs(n, n / 2 + 1).into_iter().map(|(u, _)| (u, u));
                let loops: Vec<_> = loops.collect();
                [self.pairs(n, n), loops].concat()
            }
            Kind::Repeats => {
                let few = self.pairs(n, n / 2 + 1);
                (0..4 * n).map(|_| self.one_of(&few)).collect()
            }
            Kind::Line => line.collect(),
            Kind::Cycle => line.chain([(n - 1, 0)]).collect(),
            Kind::Star => {
                let outwards = self.coin();
                let ray = |v| if outwards { (0, v) } else { (v, 0) };
                (1..n).map(ray).collect()
            }
            Kind::Ladder => {
                let sides = (2..n).map(|v| (v - 2, v));
                let rungs = (0..n / 2).map(|rung| (2 * rung, 2 * rung + 1));
                sides.chain(rungs).collect()
            }
            Kind::Grid => {
                let width = self.between(1, n);
                let right = (1..n).filter(|v| v % width != 0).map(|v| (v - 1, v));
                let down = (width..n).map(|v| (v - width, v));
                right.chain(down).collect()
            }
            Kind::Forest => {
                let parents: Vec<_> = (1..n).map(|v| (self.below(v), v)).collect();
                let kept = parents.into_iter().filter(|_| self.below(8) != 0);
                kept.collect()
            }
            Kind::Layered => {
                let width = self.between(1, n / 2 + 1);
                let next_layer = |u: usize| (u / width + 1) * width;
                let mut edges = Vec::new();
                for u in (0..n).filter(|&u| next_layer(u) < n) {
                    for _ in 0..self.between(1, 3) {
                        let next = next_layer(u) + self.below(width);
                        edges.push((u, next.min(n - 1)));
                    }
                }
                edges
            }
            Kind::CompleteBipartite => {
                let side = self.between(1, n).min(most);
                let other = (n - side).min(most / side);
                let pairs = (0..side).flat_map(|u| (0..other).map(move |v| (u, side + v)));
                pairs.collect()
            }
        }
    }

    /// So many pairs of any vertices.
    fn pairs(&mut self, n: usize, count: usize) -> Vec<(usize, usize)> {
        (0..count).map(|_| (self.below(n), self.below(n))).collect()
    }

    /// The bytes of a stored index, damaged in this way.
    pub fn damage(&mut self, kind: Damage, image: &[u8]) -> Vec<u8> {
        let mut bytes = image.to_vec();
        let mut fields = Fields::of(&mut bytes);
        match kind {
            Damage::Field if fields.count > 0 => {
                let value = self.field_value(fields.count);
                fields.set(self.below(fields.count), value);
            }
            Damage::NearField if fields.count > 0 => {
                let field = self.below(fields.count);
                let step = self.one_of(&[1, 2, usize::MAX, usize::MAX - 1]);
                let value = fields.get(field).wrapping_add(step);
                fields.set(field, value);
            }
            Damage::SwapFields if fields.count > 0 => fields.swap(self.below(fields.count), self.below(fields.count)),
            Damage::SwapNeighbours if fields.count > 1 => {
                let field = self.below(fields.count - 1);
                fields.swap(field, field + 1);
            }
            Damage::SwapRanks => self.swap_ranks(&mut bytes),
            Damage::Cut => bytes.truncate(self.below(image.len() + 1)),
            Damage::Lengthen => {
                for _ in 0..self.between(1, 8) {
                    bytes.push(self.number() as u8);
                }
            }
            Damage::Bytes if !bytes.is_empty() => {
                for _ in 0..self.between(1, 4) {
                    let at = self.below(bytes.len());
                    bytes[at] = self.number() as u8;
                }
            }
            Damage::HeaderField if bytes.len() >= HEADER_BYTES => self.header_field(&mut bytes),
            Damage::RandomFields => return self.random_fields(image),
            Damage::RandomBytes => {
                let length = self.between(0, 2 * image.len());
                return (0..length).map(|_| self.number() as u8).collect();
            }
            Damage::ChildGone => return self.other_child(image, false),
            Damage::ChildAdded => return self.other_child(image, true),
            _ => {}
        }
        bytes
    }

    /// The bytes of a stored index, damaged in any way.
    pub fn any_damage(&mut self, image: &[u8]) -> Vec<u8> {
        let kind = self.one_of(&Damage::ALL);
        self.damage(kind, image)
    }

    /// A number for a field: most often one that could stand there.
    fn field_value(&mut self, fields: usize) -> usize {
        match self.below(8) {
            0 => self.number() as usize,
            1 => self.one_of(&[
                u32::MAX as usize,
                0x8000_0000,
                0x1_0000,
                0xffff,
                0xfffe,
                0x8000,
                0x7fff,
                0x1000,
                0x0fff,
            ]),
            _ => self.below(fields),
        }
    }

    fn header_field(&mut self, bytes: &mut [u8]) {
        let at = 4 * self.below(HEADER_BYTES / 4);
        let old = little_endian(&bytes[at..at + 4]) as u32;
        let bounds = ORDINARY.map(|form| [form.most_vertices, form.most_edges].map(|most| most as u32));
        let new = match self.below(5) {
            0 => self.number() as u32,
            1 => self.below(8) as u32,
            2 => self.one_of(&[u32::MAX, 1 << 31, 1 << 16]),
            3 => self.one_of(&bounds.concat()) + self.below(2) as u32,
            _ => old.wrapping_add(self.one_of(&[1, 2, u32::MAX, u32::MAX - 1])),
        };
        bytes[at..at + 4].copy_from_slice(&new.to_le_bytes());
    }

    fn swap_ranks(&mut self, bytes: &mut [u8]) {
        let Ok((form, counts)) = Counts::read(bytes, &FORMS) else {
            return;
        };
        if counts.k == 0 {
            return;
        }
        let mut fields = Fields::of(bytes);
        let labels = counts.sections(&form)[..5].iter().sum::<usize>();
        let by_place = form.by_place();
        let first = labels + (by_place + 1) * counts.k * self.below(counts.d);
        let (a, b) = (self.below(counts.k), self.below(counts.k));
        for part in 0..by_place {
            fields.swap(first + by_place * a + part, first + by_place * b + part);
        }
        for rank in first + by_place * counts.k..first + (by_place + 1) * counts.k {
            let place = fields.get(rank);
            if place == a {
                fields.set(rank, b);
            } else if place == b {
                fields.set(rank, a);
            }
        }
    }

    fn random_fields(&mut self, image: &[u8]) -> Vec<u8> {
        let form = form_of(image);
        let most = (image.len() / (8 * form.width)).min(form.most_vertices);
        let n = self.between(0, most);
        let counts = Counts {
            n,
            k: self.between(0, n),
            c: self.between(0, most),
            d: self.between(1, form.most_labellings),
        };
        let mut bytes: Vec<u8> = Vec::new();
        for number in counts.header(&form) {
            bytes.extend(number.to_le_bytes());
        }
        for _ in 0..counts.sections(&form).iter().sum::<usize>() {
            bytes.extend(&self.between(0, n + 1).to_le_bytes()[..form.width]);
        }
        bytes
    }

    fn other_child(&mut self, image: &[u8], added: bool) -> Vec<u8> {
        let Ok((form, counts)) = Counts::read(image, &FORMS) else {
            return image.to_vec();
        };
        let Some(mut index) = decode(image, &form, &counts) else {
            return image.to_vec();
        };
        let k = index.groups.list.len();
        let children = &mut index.groups.children;
        let with_children: Vec<usize> = (0..k).filter(|&p| !children[p].is_empty()).collect();
        if added && k > 0 {
            let (parent, child) = (self.below(k), self.below(k));
            let at = children[parent].partition_point(|&other| other < child);
            children[parent].insert(at, child);
        } else if !added && !with_children.is_empty() {
            let parent = self.one_of(&with_children);
            let at = self.below(children[parent].len());
            children[parent].remove(at);
        }
        encode(&form, &index)
    }
}

/// The form that bytes say they are of; form 1 if there is none such.
fn form_of(bytes: &[u8]) -> Form {
    let number = bytes.get(..4).map_or(0, little_endian);
    Form::among(&FORMS, number as u32).unwrap_or(FORM_1)
}

/// The numbers behind the header, by their position, each of the width that the bytes' form has.
pub struct Fields<'a> {
    behind: &'a mut [u8],
    width: usize,
    pub count: usize,
}

impl Fields<'_> {
    pub fn of(bytes: &mut [u8]) -> Fields<'_> {
        let width = form_of(bytes).width;
        let behind = bytes.get_mut(HEADER_BYTES..).unwrap_or_default();
        let count = behind.len() / width;
        Fields { behind, width, count }
    }

    fn get(&self, field: usize) -> usize {
        little_endian(&self.behind[self.width * field..self.width * (field + 1)])
    }

    /// Of a number too large the low bytes.
    pub fn set(&mut self, field: usize, value: usize) {
        let bytes = &value.to_le_bytes()[..self.width];
        self.behind[self.width * field..self.width * (field + 1)].copy_from_slice(bytes);
    }

    pub fn swap(&mut self, a: usize, b: usize) {
        let (in_a, in_b) = (self.get(a), self.get(b));
        self.set(a, in_b);
        self.set(b, in_a);
    }
}
