//! One call made twice, of the library and of the independent program, on the same input and equal buffers: outcomes and buffers must be equal. Buffers
//! are lent with a pattern in them and a few elements behind what the call may touch. Calls that the C host has too are made of both faces;
//! those on a turned index and on a plain hierarchy are made where they are asked for.

use crate::{Face, Library, Outcome, Way, FACES};
use independent::batch::{six, NUMBERS};
use independent::bounds::work_words;
use independent::calls::vertices_in_range;
use independent::chance::Chance;
use independent::closure::Closure;
use independent::graph::flat;
use independent::stored::{encode, little_endian};
use independent::{Added, Answer, Counts, Form, Graph, Index, Rule, FORMS, FORM_1, ORDINARY};
use std::fmt::{self, Display, Formatter};

/// What bytes, the words lent with an index, and lists hold before a call.
const PATTERN: u8 = 0xa5;
const WORD: u32 = 7;
const BLANK: u32 = 0xdead_beef;

/// How many marks and words a call on stored bytes is lent.
#[derive(Clone, Copy, Debug)]
pub struct Lent {
    pub marks: usize,
    pub words: usize,
}

impl Lent {
    /// As many as this index needs. Where the header is refused no number is too small; marks are then as many as it says, if so many can be lent.
    pub fn needed(index: &[u8]) -> Lent {
        let says = index.get(4..8).map_or(0, little_endian);
        match Counts::read(index, &FORMS) {
            Ok((form, counts)) => Lent { marks: counts.n, words: form.words_needed(&counts) },
            Err(_) => Lent { marks: if says <= 300_000 { says } else { 5_000 }, words: 3 },
        }
    }

    pub fn more(self, marks: usize, words: usize) -> Lent {
        Lent { marks: self.marks + marks, words: self.words + words }
    }

    /// Exact, one element less of either, and more of both.
    pub fn around(index: &[u8]) -> [Lent; 4] {
        let needed = Lent::needed(index);
        let Lent { marks, words } = needed;
        [needed, Lent { marks: marks.saturating_sub(1), words }, Lent { marks: marks + 3, words: words.saturating_sub(1) }, needed.more(3, 1)]
    }

    fn buffers(self, face: Face) -> Buffers {
        Buffers { marks: vec![PATTERN; self.marks], words: vec![WORD; if face == Face::Host { 0 } else { self.words }] }
    }
}

/// The marks and words of a call, before or after it.
#[derive(PartialEq)]
struct Buffers {
    marks: Vec<u8>,
    words: Vec<u32>,
}

impl Buffers {
    /// The same as those of the other program's call.
    fn agree(&self, theirs: &Buffers, what: &impl Display) {
        assert!(self.marks == theirs.marks, "marks after {what}: first difference at {:?}", first_difference(&self.marks, &theirs.marks));
        assert!(self.words == theirs.words, "words after {what}: first difference at {:?}", first_difference(&self.words, &theirs.words));
    }
}

/// A text that is put together only where it is shown.
struct Shown<F>(F);

impl<F: Fn() -> String> Display for Shown<F> {
    fn fmt(&self, f: &mut Formatter) -> fmt::Result {
        f.write_str(&self.0())
    }
}

fn first_difference<T: PartialEq>(ours: &[T], theirs: &[T]) -> Option<usize> {
    ours.iter().zip(theirs).position(|(one, other)| one != other)
}

/// The number of the refusal, 0 where there is none.
fn number<T>(outcome: Outcome<T>) -> u32 {
    outcome.map_or_else(|refusal| refusal.number, |_| 0)
}

/// The number of the ordinary call's refusal, 0 where there is none.
pub fn open(library: &mut Library, index: &[u8], lent: Lent) -> u32 {
    FACES.map(|face| open_by(library, face, index, lent))[0]
}

/// The same of one face.
pub fn open_by(library: &mut Library, face: Face, index: &[u8], lent: Lent) -> u32 {
    let (mut ours, mut theirs) = (lent.buffers(face), lent.buffers(face));
    let got = library.open(face, index, &mut ours.marks, &mut ours.words);
    let expected = face.open(index, &mut theirs.marks, &mut theirs.words);
    let what = Shown(|| format!("open by {face:?} of {} bytes with {lent:?}: {expected:?}", index.len()));
    assert_eq!(got, expected, "{what}");
    ours.agree(&theirs, &what);
    number(got)
}

/// Open with marks and words as many as the header asks for, fewer and more.
pub fn open_around(library: &mut Library, index: &[u8]) {
    for lent in Lent::around(index) {
        open(library, index, lent);
    }
}

/// One question: the number of the ordinary call's refusal, 0 where there is none.
pub fn ask(library: &mut Library, index: &[u8], source: u32, target: u32, lent: Lent) -> u32 {
    FACES.map(|face| ask_by(library, face, index, source, target, lent))[0]
}

/// The same of one face.
pub fn ask_by(library: &mut Library, face: Face, index: &[u8], source: u32, target: u32, lent: Lent) -> u32 {
    number(question(library, face, index, source, target, lent))
}

/// The same: what both say.
pub fn question(library: &mut Library, face: Face, index: &[u8], source: u32, target: u32, lent: Lent) -> Outcome<Answer> {
    let (mut ours, mut theirs) = (lent.buffers(face), lent.buffers(face));
    let got = library.ask(face, index, source, target, &mut ours.marks, &mut ours.words);
    let expected = face.ask(index, source, target, &mut theirs.marks, &mut theirs.words);
    let what = Shown(|| format!("{source} to {target} by {face:?} of {} bytes with {lent:?}: {expected:?}", index.len()));
    assert_eq!(got, expected, "{what}");
    ours.agree(&theirs, &what);
    got
}

/// Every question of `pairs`, of bytes that open and of bytes that do not.
pub fn ask_pairs(library: &mut Library, index: &[u8], pairs: &[(u32, u32)]) {
    for &(u, v) in pairs {
        ask(library, index, u, v, Lent::needed(index).more(3, 2));
    }
}

/// The forms that an index can be stored in, with its bytes, and who takes them.
pub fn stored(index: &Index) -> Vec<(Vec<u8>, Face)> {
    let counts = Counts::of(index);
    let fits = |form: &&Form| counts.n <= form.most_vertices && counts.c <= form.most_child_entries;
    let faces = |form: &Form| if *form == FORM_1 { &FACES[..] } else { &FACES[..1] };
    ORDINARY.iter().filter(fits).flat_map(|form| faces(form).iter().map(|&face| (encode(form, index), face))).collect()
}

/// Questions of an index that the independent program has made and need not judge each time, in both forms and by each face: answers by its own walk, yes and no by plain
/// closure, the same in all.
pub fn ask_made(library: &mut Library, graph: &Graph, index: &Index, pairs: &[(u32, u32)]) -> Vec<Answer> {
    ask_stored(library, graph, index, &stored(index), pairs)
}

/// The same of these bytes of it, by these faces.
pub fn ask_stored(library: &mut Library, graph: &Graph, index: &Index, stored: &[(Vec<u8>, Face)], pairs: &[(u32, u32)]) -> Vec<Answer> {
    let closure = Closure::of(graph);
    let asked: Vec<_> = pairs.iter().map(|&(u, v)| index.question(u as usize, v as usize)).collect();
    for (&(u, v), asked) in pairs.iter().zip(&asked) {
        assert_eq!(asked.answer.yes, closure.reaches(u as usize, v as usize), "{u} to {v}: yes exactly when a path exists");
    }
    let n = graph.n;
    for (image, face) in stored {
        let needed = Lent::needed(image);
        let before = needed.more(3, 2).buffers(*face);
        let replies = library.ask_many(*face, image, &before.marks, &before.words, pairs);
        for ((&(u, v), asked), got) in pairs.iter().zip(&asked).zip(replies) {
            let what = Shown(|| format!("{u} to {v} by {face:?} of {} bytes", image.len()));
            assert_eq!(got.said.expect("a question in range of a sound index is answered"), asked.answer, "{what}");
            let mut marks = before.marks.clone();
            marks[..n].fill(0);
            asked.opened.iter().for_each(|&name| marks[name] = 1);
            assert_eq!(got.marks, marks, "marks after {what}");
            assert_eq!((got.cleared, got.altered), (needed.words, 0), "words after {what}: those needed are 0, the others as they were");
        }
    }
    asked.into_iter().map(|asked| asked.answer).collect()
}

/// The downstream list into a list of this size: the number of the refusal, 0 where there is none.
pub fn list(library: &mut Library, face: Face, index: &[u8], vertex: u32, lent: Lent, size: usize) -> u32 {
    let (mut ours, mut theirs) = (lent.buffers(face), lent.buffers(face));
    let (mut got, mut expected) = (vec![BLANK; size], vec![BLANK; size]);
    let result = library.list(face, index, vertex, &mut ours.marks, &mut ours.words, &mut got);
    let right = face.list(index, vertex, &mut theirs.marks, &mut theirs.words, &mut expected);
    let what = Shown(|| format!("the list of {vertex} by {face:?} of {} bytes with {lent:?} into {size}: {right:?}", index.len()));
    assert_eq!(result, right, "{what}");
    assert!(got == expected, "{what}: first difference at {:?}", first_difference(&got, &expected));
    ours.agree(&theirs, &what);
    number(result)
}

/// All pairs of two lists in one call, with an answer list of this size: the number of the ordinary call's refusal, 0 where there is none.
pub fn ask_all(library: &mut Library, index: &[u8], sources: &[u32], targets: &[u32], lent: Lent, answers: usize) -> u32 {
    FACES.map(|face| ask_all_by(library, face, index, sources, targets, lent, answers))[0]
}

/// The same of one face.
pub fn ask_all_by(library: &mut Library, face: Face, index: &[u8], sources: &[u32], targets: &[u32], lent: Lent, answers: usize) -> u32 {
    let (mut ours, mut theirs) = (lent.buffers(face), lent.buffers(face));
    let (mut got, mut expected) = (vec![BLANK; answers], vec![BLANK; answers]);
    let result = library.ask_all(face, index, sources, targets, &mut ours.marks, &mut ours.words, &mut got);
    let right = face.ask_all(index, sources, targets, &mut theirs.marks, &mut theirs.words, &mut expected);
    let what = Shown(|| format!("{} sources and {} targets by {face:?} with {lent:?} and {answers} numbers of answers: {right:?}", sources.len(), targets.len()));
    assert_eq!(result, right, "{what}");
    assert!(got == expected, "{what}: first difference at {:?}", first_difference(&got, &expected));
    ours.agree(&theirs, &what);
    number(result)
}

/// All pairs in one call, of an index that the independent program has made and need not judge, by a face that takes these bytes of it: what it writes.
fn ask_all_stored(library: &mut Library, index: &Index, image: &[u8], face: Face, pairs: &[(u32, u32)]) -> (Vec<u32>, Vec<u8>) {
    let (sources, targets): (Vec<u32>, Vec<u32>) = pairs.iter().copied().unzip();
    let needed = Lent::needed(image);
    let (mut after, mut answers) = (needed.more(3, 2).buffers(face), vec![BLANK; NUMBERS * pairs.len() + 2]);
    assert_eq!(library.ask_all(face, image, &sources, &targets, &mut after.marks, &mut after.words, &mut answers), Ok(pairs.len() as u32));
    assert_eq!(answers.split_off(NUMBERS * pairs.len()), [BLANK; 2], "the answer list behind the last pair");
    assert_eq!(after.marks.split_off(index.n()), [PATTERN; 3], "the marks from n on");
    let mut words = needed.more(3, 2).buffers(face).words;
    words[..needed.words].fill(0);
    assert!(after.words == words, "the words needed are 0, the others as they were");
    (answers, after.marks)
}

/// The pairs in one call, in both forms and by each face: answers and marks by the independent program's own walk.
pub fn ask_all_made(library: &mut Library, index: &Index, pairs: &[(u32, u32)]) {
    let mut opened = Vec::new();
    let mut told = Vec::new();
    for &(u, v) in pairs {
        let said = vertices_in_range(index.n(), u, v).map(|(u, v)| {
            let asked = index.question(u, v);
            opened = asked.opened;
            asked.answer
        });
        told.extend(six(said));
    }
    let mut last = vec![0; index.n()];
    opened.into_iter().for_each(|name| last[name] = 1);
    for (image, face) in stored(index) {
        let (answers, marks) = ask_all_stored(library, index, &image, face, pairs);
        assert!(answers == told, "the answers by {face:?} of {} bytes: first difference at {:?}", image.len(), first_difference(&answers, &told));
        assert!(marks == last, "the marks of the last pair that was not refused, by {face:?} of {} bytes", image.len());
    }
}

/// The pairs in one call beside the same pairs asked of the library one by one, in both forms and by each face.
pub fn one_by_one(library: &mut Library, index: &Index, pairs: &[(u32, u32)]) {
    for (image, face) in stored(index) {
        let (answers, marks) = ask_all_stored(library, index, &image, face, pairs);
        let before = Lent::needed(&image).more(3, 2).buffers(face);
        let mut last = vec![0; index.n()];
        for (numbers, asked) in answers.chunks(NUMBERS).zip(library.ask_many(face, &image, &before.marks, &before.words, pairs)) {
            if asked.said.is_ok() {
                last = asked.marks[..index.n()].to_vec();
            }
            assert_eq!(numbers, six(asked.said), "a pair in the call and by itself");
        }
        assert_eq!(marks, last, "the marks of the last pair that was not refused");
    }
}

/// The downstream list into a list that is longer than needed, exact, and one too short; with marks and words that are longer than needed, and exact.
pub fn list_around(library: &mut Library, face: Face, index: &[u8], vertex: u32) {
    let lent = Lent::needed(index);
    let room = lent.more(3, 1).buffers(face);
    let (mut marks, mut words, mut out) = (room.marks, room.words, vec![0; lent.marks]);
    let needed = face.list(index, vertex, &mut marks, &mut words, &mut out).unwrap_or(0) as usize;
    for (lent, size) in [(lent.more(3, 1), needed + 2), (lent, needed), (lent.more(3, 2), needed.saturating_sub(1))] {
        list(library, face, index, vertex, lent, size);
    }
}

/// The chain into a list of this size: what both say.
pub fn chain(library: &mut Library, index: &[u8], source: u32, target: u32, lent: Lent, size: usize) -> Outcome<Option<u32>> {
    let (mut ours, mut theirs) = (lent.buffers(Face::Ordinary), lent.buffers(Face::Ordinary));
    let (mut got, mut expected) = (vec![BLANK; size], vec![BLANK; size]);
    let result = library.chain(index, source, target, &mut ours.marks, &mut ours.words, &mut got);
    let right = independent::chain(index, source, target, &mut theirs.marks, &mut theirs.words, &mut expected);
    let what = Shown(|| format!("the chain from {source} to {target} of {} bytes with {lent:?} into {size}: {right:?}", index.len()));
    assert_eq!(result, right, "{what}");
    assert!(got == expected, "{what}: first difference at {:?}", first_difference(&got, &expected));
    ours.agree(&theirs, &what);
    result
}

/// Adding an edge beside an index of n vertices, which alters the state: what both say.
pub fn add(library: &mut Library, state: &mut Added, n: u32, from: u32, to: u32) -> Outcome<()> {
    let (mut ours, count) = (state.clone(), state.count);
    let what = Shown(|| format!("{from} to {to} below {n} beside {count}"));
    let result = library.add(&mut ours, n, from, to);
    assert_eq!(result, independent::add(state, n, from, to), "{what}");
    assert!(ours == *state, "the state after {what}");
    result
}

/// The question over an index and added edges: what both say.
pub fn ask_added(library: &mut Library, index: &[u8], state: &Added, source: u32, target: u32, lent: Lent) -> Outcome<bool> {
    let (mut ours, mut theirs) = (lent.buffers(Face::Ordinary), lent.buffers(Face::Ordinary));
    let result = library.ask_added(index, state, source, target, &mut ours.marks, &mut ours.words);
    let right = independent::ask_added(index, state, source, target, &mut theirs.marks, &mut theirs.words);
    let what = Shown(|| format!("{source} to {target} over {} bytes and {} edges with {lent:?}: {right:?}", index.len(), state.count));
    assert_eq!(result, right, "{what}");
    ours.agree(&theirs, &what);
    result
}

/// A table of rules by both calls, over its records and over its vertices and states, with the table as they leave it: what all say.
pub fn rules(library: &mut Library, index: &[u8], changed: &[u32], lent: Lent, table: &mut [Rule]) -> Outcome<()> {
    let [mut ours, mut listed, mut theirs] = [(); 3].map(|_| lent.buffers(Face::Ordinary));
    let (vertices, mut states): (Vec<u32>, Vec<u32>) = table.iter().map(|record| (record.vertex, record.state)).unzip();
    let mut got = table.to_vec();
    let right = independent::settle_rules(index, changed, &mut theirs.marks, &mut theirs.words, table);
    let what = Shown(|| format!("{} records by {changed:?} and {} bytes with {lent:?}: {right:?}", table.len(), index.len()));

    assert_eq!(library.settle_rules(index, changed, &mut ours.marks, &mut ours.words, &mut got), right, "{what}");
    assert!(got == table, "{what}: first difference at {:?}", first_difference(&got, table));
    ours.agree(&theirs, &what);

    assert_eq!(library.settle_lists(index, changed, &mut listed.marks, &mut listed.words, &vertices, &mut states), right, "{what}, over lists");
    let told: Vec<u32> = table.iter().map(|record| record.state).collect();
    assert!(states == told, "{what}, over lists: first difference at {:?}", first_difference(&states, &told));
    listed.agree(&theirs, &Shown(|| format!("{what}, over lists")));
    right
}

/// A Matrix Market text into lists of these sizes: what both say.
pub fn read_matrix(library: &mut Library, text: &[u8], sizes: (usize, usize)) -> Outcome<(u32, u32)> {
    let lists = || (vec![BLANK; sizes.0], vec![BLANK; sizes.1]);
    let (mut ours, mut theirs) = (lists(), lists());
    let result = library.read_matrix(text, &mut ours.0, &mut ours.1);
    let right = independent::read_matrix(text, &mut theirs.0, &mut theirs.1);
    let what = Shown(|| format!("{:?} into lists of {sizes:?}: {right:?}", String::from_utf8_lossy(&text[..text.len().min(400)])));
    assert_eq!(result, right, "{what}");
    assert!(ours == theirs, "the lists after {what}");
    result
}

/// An edge list as a Matrix Market text, into an output of this size: what both say.
pub fn write_matrix(library: &mut Library, n: u32, sources: &[u32], targets: &[u32], size: usize) -> Outcome<u32> {
    let (mut got, mut expected) = (vec![PATTERN; size], vec![PATTERN; size]);
    let result = library.write_matrix(n, sources, targets, &mut got);
    let right = independent::write_matrix(n, sources, targets, &mut expected);
    let what = Shown(|| format!("{} edges of {n} vertices as a text of at most {size} bytes: {right:?}", sources.len()));
    assert_eq!(result, right, "{what}");
    assert!(got == expected, "{what}: first difference at {:?}", first_difference(&got, &expected));
    result
}

/// An index of one form turned into another, into an output of this size: the number of the refusal, 0 where there is none.
pub fn convert(library: &mut Library, way: Way, index: &[u8], lent: Lent, out: usize) -> u32 {
    let (mut ours, mut theirs) = (lent.buffers(Face::Ordinary), lent.buffers(Face::Ordinary));
    let (mut got, mut expected) = (vec![PATTERN; out], vec![PATTERN; out]);
    let result = library.convert(way, index, &mut ours.marks, &mut ours.words, &mut got);
    let right = way.convert(index, &mut theirs.marks, &mut theirs.words, &mut expected);
    let what = Shown(|| format!("{} bytes converted {way:?} with {lent:?} into {out}: {right:?}", index.len()));
    assert_eq!(result, right, "{what}");
    assert!(got == expected, "{what}: first difference at {:?}", first_difference(&got, &expected));
    ours.agree(&theirs, &what);
    number(result)
}

/// Open, a question, a list and two pairs of the same bytes; the question's target and the list's vertex may be out of range. The number of each refusal.
pub fn calls(library: &mut Library, index: &[u8], vertex: u32, lent: Lent) -> [u32; 4] {
    [
        open(library, index, lent),
        ask(library, index, 0, vertex, lent),
        list(library, Face::Ordinary, index, vertex, lent, 5),
        ask_all(library, index, &[0, vertex], &[vertex, 0], lent, 2 * NUMBERS),
    ]
}

/// Exception lists built into an output of this size: the number of the refusal, 0 where there is none.
pub fn build_exceptions(library: &mut Library, index: &[u8], marks: usize, size: usize) -> u32 {
    let (mut ours, mut theirs) = (vec![PATTERN; marks], vec![PATTERN; marks]);
    let (mut got, mut expected) = (vec![PATTERN; size], vec![PATTERN; size]);
    let result = library.build_exceptions(index, &mut ours, &mut got);
    let right = independent::build_exceptions(index, &mut theirs, &mut expected);
    let what = Shown(|| format!("the exception lists of {} bytes with {marks} marks into {size}: {right:?}", index.len()));
    assert_eq!(result, right, "{what}");
    assert!(got == expected, "{what}: first difference at {:?}", first_difference(&got, &expected));
    assert!(ours == theirs, "marks after {what}: first difference at {:?}", first_difference(&ours, &theirs));
    number(result)
}

/// Exception lists opened beside an index, and the pairs asked by them, one by one and in one call with an answer list of this size: the numbers of the refusals of opening and of
/// the call for all pairs.
pub fn exceptions(library: &mut Library, index: &[u8], lists: &[u8], marks: usize, pairs: &[(u32, u32)], answers: usize) -> [u32; 2] {
    let opened = open_exceptions(library, index, lists, marks);
    for &(u, v) in pairs {
        ask_exceptions(library, index, lists, u, v, marks).ok();
    }
    let (sources, targets): (Vec<u32>, Vec<u32>) = pairs.iter().copied().unzip();
    [opened, ask_all_exceptions(library, index, lists, &sources, &targets, marks, answers)]
}

/// Exception lists opened beside an index: the number of the refusal, 0 where there is none.
pub fn open_exceptions(library: &mut Library, index: &[u8], lists: &[u8], marks: usize) -> u32 {
    let (mut ours, mut theirs) = (vec![PATTERN; marks], vec![PATTERN; marks]);
    let opened = library.open_exceptions(index, lists, &mut ours);
    let right = independent::open_exceptions(index, lists, &mut theirs);
    let what = Shown(|| format!("{} bytes of lists beside {} bytes with {marks} marks: {right:?}", lists.len(), index.len()));
    assert_eq!(opened, right, "{what}");
    assert!(ours == theirs, "marks after {what}");
    number(opened)
}

/// A question by exception lists: what both say.
pub fn ask_exceptions(library: &mut Library, index: &[u8], lists: &[u8], source: u32, target: u32, marks: usize) -> Outcome<bool> {
    let (mut ours, mut theirs) = (vec![PATTERN; marks], vec![PATTERN; marks]);
    let got = library.ask_exceptions(index, lists, source, target, &mut ours);
    let right = independent::ask_exceptions(index, lists, source, target, &mut theirs);
    let what = Shown(|| format!("{source} to {target} by {} bytes of lists beside {} bytes with {marks} marks: {right:?}", lists.len(), index.len()));
    assert_eq!(got, right, "{what}");
    assert!(ours == theirs, "marks after {what}");
    got
}

/// All pairs of two lists by exception lists, with an answer list of this size: the number of the refusal, 0 where there is none.
pub fn ask_all_exceptions(library: &mut Library, index: &[u8], lists: &[u8], sources: &[u32], targets: &[u32], marks: usize, answers: usize) -> u32 {
    let (mut ours, mut theirs) = (vec![PATTERN; marks], vec![PATTERN; marks]);
    let (mut got, mut expected) = (vec![BLANK; answers], vec![BLANK; answers]);
    let result = library.ask_all_exceptions(index, lists, sources, targets, &mut ours, &mut got);
    let right = independent::ask_all_exceptions(index, lists, sources, targets, &mut theirs, &mut expected);
    let what = Shown(|| format!("{} pairs by {} bytes of lists beside {} bytes with {marks} marks: {right:?}", sources.len(), lists.len(), index.len()));
    assert_eq!(result, right, "{what}");
    assert!(got == expected, "{what}: first difference at {:?}", first_difference(&got, &expected));
    assert!(ours == theirs, "marks after {what}");
    number(result)
}

/// What a build is lent, but for its memory.
#[derive(Clone, Debug)]
pub struct Input {
    pub form: u32,
    pub n: u32,
    pub sources: Vec<u32>,
    pub targets: Vec<u32>,
    pub orders: Vec<u32>,
    pub d: u32,
}

impl Input {
    pub fn of(form: &Form, graph: &Graph, orders: &[Vec<usize>]) -> Input {
        let d = orders.len() as u32;
        Input { form: form.number, n: graph.n as u32, sources: graph.sources(), targets: graph.targets(), orders: flat(orders), d }
    }

    pub fn work_needed(&self) -> usize {
        work_words(self.n as usize, self.sources.len())
    }

    /// An output as large as any that a build of these can need.
    pub fn room(&self) -> usize {
        let (n, c, d) = (self.n as usize, self.sources.len(), self.d.min(5) as usize);
        let form = Form::among(&FORMS, self.form).unwrap_or(FORM_1);
        form.total_length(&Counts { n, k: n, c, d })
    }
}

/// A build into memory of these sizes: the number of its refusal, 0 where there is none.
pub fn build(library: &mut Library, face: Face, input: &Input, work: usize, out: usize) -> u32 {
    let (mut our_work, mut their_work) = (vec![WORD; work], vec![WORD; work]);
    let (mut our_out, mut their_out) = (vec![PATTERN; out], vec![PATTERN; out]);
    let Input { form, n, sources, d, .. } = input;
    let got = library.build(face, input, &mut our_work, &mut our_out);
    let expected = face.build(input, &mut their_work, &mut their_out);
    let what = Shown(|| format!("build by {face:?} in form {form} of {n} vertices, {} edges, d = {d}, work {work}, out {out}: {expected:?}", sources.len()));
    assert_eq!(got, expected, "{what}");
    assert!(our_out == their_out, "the output of {what}: first difference at {:?}", first_difference(&our_out, &their_out));
    assert!(our_work == their_work, "the work memory after {what}: first difference at {:?}", first_difference(&our_work, &their_work));
    number(got)
}

/// A build into exact memory, into more, and into one element less of either.
pub fn build_around(library: &mut Library, face: Face, input: &Input) {
    let work = input.work_needed();
    let mut room = vec![0; input.room()];
    let total = face.build(input, &mut vec![0; work], &mut room).unwrap_or(0) as usize;
    for (work, out) in [(work, total), (work + 5, total + 5), (work - 1, total), (work, total.saturating_sub(1))] {
        build(library, face, input, work, out);
    }
}

/// A text through the text program's run: what both print.
pub fn text(library: &mut Library, text: &[u8]) -> Vec<u8> {
    let printed = library.run(text);
    let expected = independent::run_text(text);
    let shown = String::from_utf8_lossy;
    assert_eq!(shown(&printed), shown(&expected), "on {:?}", shown(text));
    printed
}

/// Pairs of vertices: all of them where they are few, a sample otherwise.
pub fn pairs(chance: &mut Chance, n: usize, most: usize) -> Vec<(u32, u32)> {
    if n * n <= most {
        return (0..n as u32).flat_map(|u| (0..n as u32).map(move |v| (u, v))).collect();
    }
    (0..most).map(|_| (chance.below(n) as u32, chance.below(n) as u32)).collect()
}
