//! Matrix Market files, request [1]: an edge list read from a text of our subset, and written as one. Both go by the bounds
//! of form 2.

use crate::form::FORM_2;
use crate::graph::Graph;
use crate::refusal::{refuse, Refusal};

/// The first line, without its LF.
pub const HEADER: &str = "%%MatrixMarket matrix coordinate pattern general";

/// Reads a text into the two lists and returns n and the number of entries. A refusal alters nothing; past the entries the
/// lists stay as they were.
pub fn read_matrix(text: &[u8], sources: &mut [u32], targets: &mut [u32]) -> Result<(u32, u32), Refusal> {
    let graph = match read_lines(text) {
        Ok(graph) => graph,
        Err(line) => return refuse(18, line),
    };
    let entries = graph.edges.len();
    if sources.len() < entries || targets.len() < entries {
        return refuse(16, entries);
    }
    if graph.n > FORM_2.most_vertices {
        return refuse(1, 0);
    }
    if entries > FORM_2.most_edges {
        return refuse(3, 0);
    }
    sources[..entries].copy_from_slice(&graph.sources());
    targets[..entries].copy_from_slice(&graph.targets());
    Ok((graph.n as u32, entries as u32))
}

/// Writes the edge list as a text and returns its length. A refusal alters nothing; past the text the output stays as it was.
pub fn write_matrix(n: u32, sources: &[u32], targets: &[u32], out: &mut [u8]) -> Result<u32, Refusal> {
    if n as usize > FORM_2.most_vertices {
        return refuse(1, 0);
    }
    if sources.len() != targets.len() {
        return refuse(2, 0);
    }
    if sources.len() > FORM_2.most_edges {
        return refuse(3, 0);
    }
    let mut ends = sources.iter().zip(targets);
    if let Some(edge) = ends.position(|(&u, &v)| u >= n || v >= n) {
        return refuse(7, edge);
    }
    let text = written(&Graph::from_lists(n, sources, targets));
    if out.len() < text.len() {
        return refuse(9, text.len());
    }
    out[..text.len()].copy_from_slice(text.as_bytes());
    Ok(text.len() as u32)
}

/// The text of an edge list: no comments, entries in its order, counted from 1.
pub fn written(graph: &Graph) -> String {
    let entry = |&(u, v): &(usize, usize)| format!("{} {}\n", u + 1, v + 1);
    let entries: String = graph.edges.iter().map(entry).collect();
    format!("{HEADER}\n{n} {n} {}\n{entries}", graph.edges.len(), n = graph.n)
}

/// What a text says, or its first bad line, from 1.
pub fn read_lines(text: &[u8]) -> Result<Graph, usize> {
    let mut lines = Lines { left: text, read: 0 };
    if lines.next() != Some(HEADER.as_bytes()) {
        return Err(lines.read);
    }
    let mut line = lines.next();
    while line.is_some_and(|line| line.starts_with(b"%")) {
        line = lines.next();
    }
    let Some([rows, columns, entries]) = line.and_then(row) else {
        return Err(lines.read);
    };
    if rows != columns {
        return Err(lines.read);
    }
    let mut edges = Vec::new();
    for _ in 0..entries {
        match lines.next().and_then(row) {
            Some([u, v]) if (1..=rows).contains(&u) && (1..=rows).contains(&v) => edges.push((u - 1, v - 1)),
            _ => return Err(lines.read),
        }
    }
    if !lines.left.is_empty() {
        return Err(lines.read + 1);
    }
    Ok(Graph { n: rows, edges })
}

/// The lines of a text, and how many were asked for.
struct Lines<'a> {
    left: &'a [u8],
    read: usize,
}

impl<'a> Lines<'a> {
    /// The next line without its LF; none where no LF ends it.
    fn next(&mut self) -> Option<&'a [u8]> {
        self.read += 1;
        let end = self.left.iter().position(|&byte| byte == b'\n')?;
        let line = &self.left[..end];
        self.left = &self.left[end + 1..];
        Some(line)
    }
}

/// Exactly N decimals, single spaces between them.
fn row<const N: usize>(line: &[u8]) -> Option<[usize; N]> {
    let numbers: Option<Vec<usize>> = line.split(|&byte| byte == b' ').map(decimal).collect();
    numbers?.try_into().ok()
}

/// A decimal of 1 to 7 digits without needless zeros.
fn decimal(word: &[u8]) -> Option<usize> {
    let digits = word.iter().all(u8::is_ascii_digit);
    let needless_zero = word.len() > 1 && word[0] == b'0';
    if !digits || needless_zero || !(1..=7).contains(&word.len()) {
        return None;
    }
    std::str::from_utf8(word).ok()?.parse().ok()
}

#[cfg(test)]
mod tests {
    use super::*;

    #[test]
    fn a_text_is_read_and_written_again() {
        let text = format!("{HEADER}\n4 4 5\n1 2\n1 3\n4 2\n1 2\n3 3\n");
        let graph = Graph::new(4, &[(0, 1), (0, 2), (3, 1), (0, 1), (2, 2)]);
        assert_eq!(read_lines(text.as_bytes()), Ok(graph.clone()));
        assert_eq!(written(&graph), text);
    }

    #[test]
    fn the_first_bad_line_is_told() {
        for (lines, bad) in [("", 2), ("%\n", 3), ("2 2 1\n", 3), ("2 2 1\n1 2", 3), ("2 2 1\n1 2\n\n", 4), ("2 3 0\n", 2), ("%\n2 2 1\n3 1\n", 4)] {
            assert_eq!(read_lines(format!("{HEADER}\n{lines}").as_bytes()), Err(bad), "{lines:?}");
        }
        assert_eq!(read_lines(b""), Err(1));
        assert_eq!(read_lines(HEADER.as_bytes()), Err(1));
    }
}
