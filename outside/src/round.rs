//! One round of the long run: a graph, what the independent program makes of it, and every call of the C header on that, most often as it should be and now and then
//! with something wrong. A round is made by its number and the seed alone, so that it can be made again by itself.

use crate::altered::Altered;
use crate::tally::Tally;
use independent::chance::Chance;
use independent::matrix::written;
use independent::stored::{encode, image};
use independent::{Added, Counts, Form, Graph, Index, FORMS, FORM_1, FORM_2, FORM_3, FORM_4};
use outside::compare::{self, Input, Lent};
use outside::inputs::{added, forest, mixed_pairs, spoil, table, vertex};
use outside::{texts, Face, Library, Way};
use std::collections::BTreeMap;

/// The pairs that are asked of each stored index, where there are so many; the altered small images and all images of a round; the calls of each other kind.
const PAIRS: usize = 12;
pub const ALTERED: usize = 10;
const IMAGES: usize = 50;
const CALLS: usize = 5;

/// What all rounds share: the library, the counts, and what is made once.
pub struct Run {
    pub library: Library,
    pub tally: Tally,
    pub altered: Altered,
    /// How often a question that was answered gave which reason.
    pub reasons: BTreeMap<u32, u64>,
    /// How many damaged images there were.
    pub images: u64,
    /// An index of form 2 with one vertex too many for form 1.
    beyond: Vec<u8>,
}

impl Run {
    pub fn new(library: Library) -> Run {
        let beyond = image(&FORM_2, &Graph::new(FORM_1.most_vertices + 1, &[]), &[(0..=FORM_1.most_vertices).collect()]);
        Run { library, tally: Tally::default(), altered: Altered::all(), reasons: BTreeMap::new(), images: 0, beyond }
    }

    pub fn round(&mut self, seed: u64, number: u64) {
        let mut round = Round::new(self, seed, number);
        round.questions();
        round.images(number as usize);
        for _ in 0..CALLS {
            round.builds();
            round.lists();
            round.chain();
            round.pairs_in_one_call();
            round.added_edges();
            round.conversions();
            round.rules();
            round.exceptions();
            round.matrix();
            round.text();
        }
    }
}

/// A graph and orders, and the index of these.
struct Made {
    graph: Graph,
    orders: Vec<Vec<usize>>,
    index: Index,
}

impl Made {
    fn of(graph: Graph, orders: Vec<Vec<usize>>) -> Made {
        let index = Index::of(&graph, &orders);
        Made { graph, orders, index }
    }
}

struct Round<'a> {
    run: &'a mut Run,
    chance: Chance,
    n: usize,
    /// A graph of any kind, the same turned, and a plain hierarchy.
    any: Made,
    turned: Made,
    hierarchy: Made,
    /// The bytes of these in forms 1 to 4: the first in 1 and 2, the second in 3, the third in 4.
    stored: [Vec<u8>; 4],
    /// The exception lists of the first.
    exceptions: Vec<u8>,
    state: Added,
}

/// Who takes a form.
fn face(form: &Form) -> Face {
    match form.number {
        3 => Face::Turned,
        4 => Face::Hierarchy,
        _ => Face::Ordinary,
    }
}

/// The header's name of a call, of those that the faces have.
fn called(names: [&'static str; 4], face: Face) -> &'static str {
    names[face as usize]
}

/// Pairs of vertices, up to half of them such that the labels leave them to a walk: by themselves these come rarely.
fn pairs_with_walks(chance: &mut Chance, index: &Index) -> Vec<(u32, u32)> {
    let walks = |&(u, v): &(u32, u32)| index.question(u as usize, v as usize).answer.opened > 0;
    let mut pairs: Vec<(u32, u32)> = compare::pairs(chance, index.n(), 5 * PAIRS).into_iter().filter(walks).take(PAIRS / 2).collect();
    pairs.extend(compare::pairs(chance, index.n(), PAIRS - pairs.len()));
    pairs
}

pub const QUESTION: [&str; 4] = ["question", "ask", "question_turned", "question_hierarchy"];
pub const OPEN: [&str; 4] = ["inspect", "open", "inspect_turned", "inspect_hierarchy"];
const BUILD: [&str; 4] = ["build", "", "build_turned", "build_hierarchy"];
const LIST: [&str; 4] = ["list", "", "list_turned", ""];
const ALL_PAIRS: [&str; 4] = ["batch", "ask_all", "", ""];

/// The stored bytes of a form, of those of forms 1 to 4.
fn of_form<'b>(stored: &'b [Vec<u8>; 4], form: &Form) -> &'b Vec<u8> {
    &stored[form.number as usize - 1]
}

impl<'a> Round<'a> {
    fn new(run: &'a mut Run, seed: u64, number: u64) -> Round<'a> {
        let mut chance = Chance::new(Chance::new(seed << 32 | number).number());
        let n = match number {
            _ if number % 4_096 == 0 => chance.between(129, 512),
            _ if number % 256 == 0 => chance.between(49, 128),
            _ if number % 16 == 0 => chance.between(13, 48),
            _ => chance.between(0, 12),
        };
        let d = chance.one_of(&[1, 1, 2, 2, 3, 4, 5]);
        let graph = chance.any_graph(n);
        let turned = Made::of(graph.turned(), chance.orders(n, d));
        let any = Made::of(graph, chance.orders(n, d));
        let hierarchy = Made::of(forest(&mut chance, n), chance.orders(n, 1));
        let stored = [encode(&FORM_1, &any.index), encode(&FORM_2, &any.index), encode(&FORM_3, &turned.index), encode(&FORM_4, &hierarchy.index)];
        let exceptions = any.index.exception_bytes();
        let count = chance.one_of(&[0, 1, 2, 3, 5, 8, 254, 256]);
        let edges: Vec<(usize, usize)> = (0..if n == 0 { 0 } else { count }).map(|_| (chance.below(n), chance.below(n))).collect();
        let state = added(&mut chance, n, &edges);
        Round { run, chance, n, any, turned, hierarchy, stored, exceptions, state }
    }

    /// One time in so many.
    fn rarely(&mut self, times: usize) -> bool {
        self.chance.below(times) == 0
    }

    /// A length: most often this one or more, and now and then one less.
    fn length(&mut self, needed: usize) -> usize {
        match self.chance.below(8) {
            0 => needed.saturating_sub(1),
            1..=3 => needed + 3,
            _ => needed,
        }
    }

    /// The bytes of an index, now and then damaged, or those of another form.
    fn bytes(&mut self, good: &[u8]) -> Vec<u8> {
        match self.chance.below(8) {
            0 => self.chance.any_damage(good),
            1 if self.rarely(3) => self.stored[self.chance.below(4)].clone(),
            _ => good.to_vec(),
        }
    }

    /// What is lent with these bytes: as much as they need, or as those that they were made of where their header is bad; now and then less.
    fn lent(&mut self, bytes: &[u8], good: &[u8]) -> Lent {
        let needed = Lent::needed(if Counts::read(bytes, &FORMS).is_ok() { bytes } else { good });
        Lent { marks: self.length(needed.marks), words: self.length(needed.words) }
    }

    /// The stored bytes of form 1 or 2, and which form that is.
    fn ordinary(&mut self) -> (Form, Vec<u8>) {
        let form = self.chance.one_of(&[FORM_1, FORM_2]);
        (form, of_form(&self.stored, &form).clone())
    }

    /// Pairs in range of sound bytes, answered; and one of each form with anything wrong.
    fn questions(&mut self) {
        let Run { library, tally, reasons, .. } = &mut *self.run;
        for (made, forms) in [(&self.any, &[FORM_1, FORM_2][..]), (&self.turned, &[FORM_3]), (&self.hierarchy, &[FORM_4])] {
            let pairs = pairs_with_walks(&mut self.chance, &made.index);
            let mut stored: Vec<(Vec<u8>, Face)> = forms.iter().map(|form| (of_form(&self.stored, form).clone(), face(form))).collect();
            if forms[0] == FORM_1 {
                stored.push((self.stored[0].clone(), Face::Host));
            }
            for answer in compare::ask_stored(library, &made.graph, &made.index, &stored, &pairs) {
                for (bytes, face) in &stored {
                    tally.count(called(QUESTION, *face), bytes[0].into(), answer.yes);
                    *reasons.entry(answer.reason).or_insert(0) += 1;
                }
            }
        }
        for (form, face) in [(FORM_1, Face::Ordinary), (FORM_1, Face::Host), (FORM_2, Face::Ordinary), (FORM_3, Face::Turned), (FORM_4, Face::Hierarchy)] {
            let good = of_form(&self.stored, &form).clone();
            let bytes = self.bytes(&good);
            let lent = self.lent(&bytes, &good);
            let [source, target] = [0; 2].map(|_| vertex(&mut self.chance, self.n));
            let said = compare::question(&mut self.run.library, face, &bytes, source, target, lent);
            self.run.tally.count(called(QUESTION, face), form.number, said.map(|answer| answer.yes));
            if let Ok(answer) = said {
                *self.run.reasons.entry(answer.reason).or_insert(0) += 1;
            }
        }
    }

    /// Altered small images as long as there are more of them, and this round's bytes damaged in any way.
    fn images(&mut self, number: usize) {
        let small = (ALTERED * number..ALTERED * (number + 1)).take_while(|&number| number < self.run.altered.count);
        let small: Vec<(Form, Vec<u8>, Vec<u8>)> = small.map(|number| self.run.altered.at(number)).map(|(form, good, bytes)| (form, good.to_vec(), bytes)).collect();
        for i in 0..IMAGES - small.len() {
            let good = self.stored[i % 4].clone();
            let damaged = self.chance.any_damage(&good);
            self.open(FORMS[i % 4], &good, &damaged);
        }
        for (form, good, bytes) in small {
            self.open(form, &good, &bytes);
        }
    }

    /// An image of a form opened by those that take it.
    fn open(&mut self, form: Form, good: &[u8], bytes: &[u8]) {
        let lent = self.lent(bytes, good);
        let faces: &[Face] = if form == FORM_1 { &[Face::Ordinary, Face::Host] } else { &[face(&form)] };
        for &face in faces {
            let refusal = compare::open_by(&mut self.run.library, face, bytes, lent);
            self.run.tally.count(called(OPEN, face), form.number, refusal);
        }
        self.run.images += 1;
    }

    fn builds(&mut self) {
        let ordinary = self.chance.one_of(&[FORM_1, FORM_2]);
        let general = self.rarely(3);
        for form in [ordinary, FORM_3, FORM_4] {
            let face = face(&form);
            let made = match face {
                Face::Hierarchy if !general => &self.hierarchy,
                _ => &self.any,
            };
            let mut input = Input::of(&form, &made.graph, if face == Face::Hierarchy { &made.orders[..1] } else { &made.orders });
            let needed = match face {
                Face::Turned => image(&form, &made.graph.turned(), &made.orders).len(),
                _ => encode(&form, &made.index).len(),
            };
            if self.rarely(4) {
                spoil(&mut self.chance, &mut input);
            }
            if self.rarely(50) {
                input.n = self.chance.one_of(&[FORM_1.most_vertices as u32 + 1, FORM_2.most_vertices as u32 + 1, u32::MAX]);
            }
            if self.rarely(2_000) {
                input.sources.resize(FORM_1.most_edges + 1, 0);
                input.targets.resize(FORM_1.most_edges + 1, 0);
            }
            let work = 16 * self.n + 4 * input.sources.len() + 64;
            let (work, out) = (self.length(work), self.length(needed));
            let refusal = compare::build(&mut self.run.library, face, &input, work, out);
            self.run.tally.count(called(BUILD, face), form.number, refusal);
        }
    }

    /// Downstream of the ordinary index, upstream of the turned one.
    fn lists(&mut self) {
        let (form, good) = self.ordinary();
        for (form, good) in [(form, good), (FORM_3, self.stored[2].clone())] {
            let (face, vertex) = (face(&form), vertex(&mut self.chance, self.n));
            let bytes = self.bytes(&good);
            let lent = self.lent(&bytes, &good);
            let made = if face == Face::Turned { &self.turned } else { &self.any };
            let needed = if (vertex as usize) < self.n { made.index.downstream(vertex as usize).len() } else { 0 };
            let size = self.length(needed);
            let refusal = compare::list(&mut self.run.library, face, &bytes, vertex, lent, size);
            self.run.tally.count(called(LIST, face), form.number, refusal);
        }
    }

    fn chain(&mut self) {
        let (form, good) = self.ordinary();
        let bytes = self.bytes(&good);
        let lent = self.lent(&bytes, &good);
        let [source, target] = [0; 2].map(|_| vertex(&mut self.chance, self.n));
        let both = (source as usize) < self.n && (target as usize) < self.n;
        let steps = if both { self.any.index.chain(source as usize, target as usize) } else { None };
        let size = self.length(steps.map_or(0, |steps| steps.len()));
        let said = compare::chain(&mut self.run.library, &bytes, source, target, lent, size);
        self.run.tally.count("chain", form.number, said.map(|steps| steps.is_some()));
    }

    /// The Monday call, of Rattle code and of the C host.
    fn pairs_in_one_call(&mut self) {
        let (form, good) = self.ordinary();
        for (form, good, face) in [(form, good, Face::Ordinary), (FORM_1, self.stored[0].clone(), Face::Host)] {
            let bytes = self.bytes(&good);
            let lent = self.lent(&bytes, &good);
            let (sources, targets, answers) = self.pairs(independent::batch::NUMBERS);
            let refusal = compare::ask_all_by(&mut self.run.library, face, &bytes, &sources, &targets, lent, answers);
            self.run.tally.count(called(ALL_PAIRS, face), form.number, refusal);
        }
    }

    /// A few pairs as two lists, which now and then differ in length, and how long the list of answers is, with so many numbers a pair.
    fn pairs(&mut self, numbers: usize) -> (Vec<u32>, Vec<u32>, usize) {
        let count = self.chance.below(7);
        let (mut sources, targets): (Vec<u32>, Vec<u32>) = mixed_pairs(&mut self.chance, self.n, count).into_iter().unzip();
        let answers = self.length(numbers * count);
        if self.rarely(20) {
            sources.push(0);
        }
        (sources, targets, answers)
    }

    /// One more added edge, and a question over those that stand; now and then there are more than can be, or one of them is bad.
    fn added_edges(&mut self) {
        let [from, to, source, target] = [0; 4].map(|_| vertex(&mut self.chance, self.n));
        let taken = compare::add(&mut self.run.library, &mut self.state, self.n as u32, from, to);
        self.run.tally.count("add", 0, taken.map_or_else(|refusal| refusal.number, |()| 0));
        let (form, good) = self.ordinary();
        let bytes = self.bytes(&good);
        let lent = self.lent(&bytes, &good);
        let mut state = self.state.clone();
        match self.chance.below(24) {
            0 => state.count = self.chance.one_of(&[257, u32::MAX]),
            1 => state.targets[self.chance.below(4)] = self.n as u32,
            2 => state.sources[self.chance.below(256)] = u32::MAX,
            _ => {}
        }
        let said = compare::ask_added(&mut self.run.library, &bytes, &state, source, target, lent);
        self.run.tally.count("ask_added", form.number, said);
    }

    fn conversions(&mut self) {
        for (way, call) in [(Way::Up, "convert_up"), (Way::Down, "convert_down"), (Way::ToHierarchy, "to_hierarchy"), (Way::FromHierarchy, "from_hierarchy")] {
            let made = if way == Way::FromHierarchy || (way == Way::ToHierarchy && !self.rarely(4)) { &self.hierarchy } else { &self.any };
            let (good, needed) = (encode(&way.from(), &made.index), encode(&way.to(), &made.index).len());
            let bytes = if way == Way::Down && self.rarely(20_000) { self.run.beyond.clone() } else { self.bytes(&good) };
            let lent = self.lent(&bytes, &good);
            let out = self.length(needed);
            let refusal = compare::convert(&mut self.run.library, way, &bytes, lent, out);
            self.run.tally.count(call, way.from().number, refusal);
        }
    }

    /// By both calls, over records and over parallel lists.
    fn rules(&mut self) {
        let (form, good) = self.ordinary();
        let bytes = self.bytes(&good);
        let lent = self.lent(&bytes, &good);
        let records = self.chance.below(7);
        let mut records = table(&mut self.chance, self.n, records);
        let rarely_bad = self.rarely(6);
        let changed: Vec<u32> = (0..self.chance.below(4))
            .map(|_| if rarely_bad || self.n == 0 { vertex(&mut self.chance, self.n) } else { self.chance.below(self.n) as u32 })
            .collect();
        let settled = compare::rules(&mut self.run.library, &bytes, &changed, lent, &mut records).map_or_else(|refusal| refusal.number, |()| 0);
        for call in ["settle_rules", "settle_lists"] {
            self.run.tally.count(call, form.number, settled);
        }
    }

    /// Lists built, opened, asked by, and asked all pairs by; now and then they are cut, longer or different in a bit.
    fn exceptions(&mut self) {
        let good = self.stored[0].clone();
        let bytes = self.bytes(&good);
        let marks = self.lent(&bytes, &good).marks;
        let size = self.length(self.exceptions.len());
        let refusal = compare::build_exceptions(&mut self.run.library, &bytes, marks, size);
        self.run.tally.count("build_exceptions", 1, refusal);

        let mut lists = self.exceptions.clone();
        let at = self.chance.below(lists.len());
        match self.chance.below(16) {
            0 => lists.truncate(at),
            1 => lists.push(0),
            2 | 3 => lists[at] ^= 1 << self.chance.below(8),
            _ => {}
        }
        let refusal = compare::open_exceptions(&mut self.run.library, &bytes, &lists, marks);
        self.run.tally.count("open_exceptions", 1, refusal);
        let [source, target] = [0; 2].map(|_| vertex(&mut self.chance, self.n));
        let said = compare::ask_exceptions(&mut self.run.library, &bytes, &lists, source, target, marks);
        self.run.tally.count("ask_exceptions", 1, said);
        let (sources, targets, answers) = self.pairs(independent::exceptions::NUMBERS);
        let refusal = compare::ask_all_exceptions(&mut self.run.library, &bytes, &lists, &sources, &targets, marks, answers);
        self.run.tally.count("ask_all_exceptions", 1, refusal);
    }

    /// The edge list written and read, each with something wrong now and then.
    fn matrix(&mut self) {
        let mut graph = self.any.graph.clone();
        if self.rarely(16) {
            graph.n = self.chance.one_of(&[FORM_2.most_vertices, FORM_2.most_vertices + 1, 9_999_999]);
        }
        let mut text = written(&graph).into_bytes();
        let (size, entries) = (self.length(text.len()), graph.edges.len());
        let mut input = Input::of(&FORM_2, &graph, &[]);
        if self.rarely(6) {
            spoil(&mut self.chance, &mut input);
        }
        let said = compare::write_matrix(&mut self.run.library, graph.n as u32, &input.sources, &input.targets, size);
        self.run.tally.count("write_matrix", 0, said.map_or_else(|refusal| refusal.number, |_| 0));

        if self.rarely(4) {
            let at = text.iter().position(|&byte| byte == b'\n').unwrap() + 1;
            text.splice(at..at, *b"% a comment\n%\n");
        }
        if self.chance.coin() {
            text = texts::damaged(&mut self.chance, &text);
        }
        let sizes = (self.length(entries), self.length(entries));
        let said = compare::read_matrix(&mut self.run.library, &text, sizes);
        self.run.tally.count("read_matrix", 0, said.map_or_else(|refusal| refusal.number, |_| 0));
    }

    /// A text through the text program: done where it is read and its build is not refused, whatever its questions come to.
    fn text(&mut self) {
        let n = self.chance.between(0, self.n.min(40));
        let mut text = texts::good_of(&mut self.chance, n);
        if self.rarely(3) {
            text = texts::damaged(&mut self.chance, &text);
        }
        let printed = compare::text(&mut self.run.library, &text);
        let refused = String::from_utf8_lossy(&printed).strip_prefix("refused ").and_then(|rest| rest.split(' ').next()?.parse().ok());
        self.run.tally.count("run", 0, refused.unwrap_or(0));
    }
}
