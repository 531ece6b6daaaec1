//! The text program: a graph, orders and questions as lines of text, answered line by line.

use crate::bounds::{work_words, TEXT_MOST_BYTES, TEXT_MOST_EDGES, TEXT_MOST_ORDERS, TEXT_MOST_VERTICES};
use crate::calls::{build, vertices_in_range};
use crate::form::{Form, FORM_1, HOST};
use crate::graph::{flat, Graph};
use crate::index::Index;
use crate::question::Answer;
use crate::refusal::{refuse, Refusal};
use crate::sound::sound_index;
use crate::stored::Counts;

/// What a good text says.
#[derive(Clone, Debug, PartialEq, Eq)]
pub struct Text {
    pub graph: Graph,
    /// Lists of n numbers each, which need not be permutations.
    pub orders: Vec<Vec<usize>>,
    pub questions: Vec<(u32, u32)>,
}

/// One line, taken by itself.
enum Line {
    Vertices(usize),
    Edge(usize, usize),
    Order(Vec<usize>),
    Question(u32, u32),
}

/// The whole output of the text program for this input.
pub fn run_text(input: &[u8]) -> Vec<u8> {
    let answered = read_text(input).and_then(|text| answers(&text));
    match answered {
        Ok(lines) => lines.into_bytes(),
        Err(refusal) => format!("{refusal}\n").into_bytes(),
    }
}

/// One line for each question, or the refusal of the build.
fn answers(text: &Text) -> Result<String, Refusal> {
    let bytes = text_index(&FORM_1, text)?;
    let (form, counts) = Counts::read(&bytes, &HOST)?;
    let Some(index) = sound_index(&bytes, &form, &counts) else {
        return refuse(15, 0);
    };
    let line = |&(source, target): &(u32, u32)| {
        let said = match answer(&index, source, target) {
            Ok(answer) => answer.to_string(),
            Err(refusal) => refusal.to_string(),
        };
        format!("q {source} {target} {said}\n")
    };
    Ok(text.questions.iter().map(line).collect())
}

/// What `ask` says of an index that has been opened, marks left aside.
fn answer(index: &Index, source: u32, target: u32) -> Result<Answer, Refusal> {
    let (source, target) = vertices_in_range(index.n(), source, target)?;
    Ok(index.question(source, target).answer)
}

/// The stored index that the text asks for, in this form, or the refusal of its build. The text program builds form 1.
pub fn text_index(form: &Form, text: &Text) -> Result<Vec<u8>, Refusal> {
    let (n, c, d) = (text.graph.n, text.graph.edges.len(), text.orders.len());
    let mut work = vec![0; work_words(n, c)];
    let mut out = vec![0; form.total_length(&Counts { n, k: n, c, d })];
    let total = build(
        form.number,
        n as u32,
        &text.graph.sources(),
        &text.graph.targets(),
        &flat(&text.orders),
        d as u32,
        &mut work,
        &mut out,
    )?;
    out.truncate(total as usize);
    Ok(out)
}

/// Checks the text whole: what it says, or refusal 17 with the first bad line.
pub fn read_text(input: &[u8]) -> Result<Text, Refusal> {
    if input.len() > TEXT_MOST_BYTES {
        return refuse(17, 0);
    }
    let mut lines = input.split_inclusive(|&byte| byte == b'\n');
    let Some(Line::Vertices(n)) = lines.next().and_then(read_line) else {
        return refuse(17, 1);
    };
    if n > TEXT_MOST_VERTICES {
        return refuse(17, 1);
    }
    let mut text = Text {
        graph: Graph::new(n, &[]),
        orders: Vec::new(),
        questions: Vec::new(),
    };
    for (before, line) in lines.enumerate() {
        if !read_line(line).is_some_and(|line| text.takes(line)) {
            return refuse(17, before + 2);
        }
    }
    Ok(text)
}

impl Text {
    /// Takes one more line. False if the line is out of turn, beyond a bound, or an order of the wrong length.
    fn takes(&mut self, line: Line) -> bool {
        match line {
            Line::Vertices(_) => false,
            Line::Edge(from, to) => {
                self.graph.edges.push((from, to));
                self.orders.is_empty() && self.questions.is_empty() && self.graph.edges.len() <= TEXT_MOST_EDGES
            }
            Line::Order(order) => {
                let whole = order.len() == self.graph.n;
                self.orders.push(order);
                whole && self.questions.is_empty() && self.orders.len() <= TEXT_MOST_ORDERS
            }
            Line::Question(source, target) => {
                self.questions.push((source, target));
                true
            }
        }
    }
}

/// A line with its LF: a letter and its numbers, each behind one space.
fn read_line(line: &[u8]) -> Option<Line> {
    let mut words = line.strip_suffix(b"\n")?.split(|&byte| byte == b' ');
    let letter = words.next()?;
    let numbers = words.map(read_number).collect::<Option<Vec<u32>>>()?;
    match (letter, &numbers[..]) {
        (b"v", &[n]) => Some(Line::Vertices(n as usize)),
        (b"e", &[from, to]) => Some(Line::Edge(from as usize, to as usize)),
        (b"o", order) => Some(Line::Order(order.iter().map(|&v| v as usize).collect())),
        (b"q", &[source, target]) => Some(Line::Question(source, target)),
        _ => None,
    }
}

/// A decimal of 1 to 5 digits without needless zeros.
fn read_number(word: &[u8]) -> Option<u32> {
    let right_length = (1..=5).contains(&word.len());
    let needless_zero = word.len() > 1 && word[0] == b'0';
    if !right_length || needless_zero || !word.iter().all(u8::is_ascii_digit) {
        return None;
    }
    Some(
        word.iter()
            .fold(0, |number, digit| 10 * number + u32::from(digit - b'0')),
    )
}
