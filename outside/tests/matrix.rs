//! Matrix Market files beside the independent program: one text for each way to be bad, good ones damaged in every place, refusals in order, the lists and the output after
//! each, texts at the bounds; written and read back; and beside scipy, where it is installed.

use independent::chance::{Chance, Kind};
use independent::graph::flat;
use independent::matrix::{read_lines, written, HEADER};
use independent::{Graph, Refusal};
use outside::compare::{self, Input};
use outside::{Face, Library};
use std::io::Write;
use std::process::{Command, Stdio};

/// The stack that a call has to do with: the least that a thread can have.
const STACK: u32 = 16_384;

fn bad(line: u32) -> Result<(u32, u32), Refusal> {
    Err(Refusal { number: 18, extra: line })
}

/// A text, with room for what it says: what both say.
fn read(library: &mut Library, text: &[u8]) -> Result<(u32, u32), Refusal> {
    let entries = read_lines(text).map_or(3, |graph| graph.edges.len());
    compare::read_matrix(library, text, (entries + 2, entries + 1))
}

/// The header, then these lines.
fn headed(lines: &str) -> Vec<u8> {
    format!("{HEADER}\n{lines}").into_bytes()
}

fn library() -> Library {
    let mut library = Library::start();
    library.stack = STACK;
    library
}

#[test]
fn one_text_for_each_way_to_be_bad() {
    let mut library = library();
    let whole = [
        ("", 1),
        ("\n", 1),
        ("0 0 0\n", 1),
        ("%\n%\n0 0 0\n", 1),
        ("%%MatrixMarket matrix coordinate pattern general", 1),
        ("%%MatrixMarket matrix coordinate pattern genera\n0 0 0\n", 1),
        ("%%MatrixMarket matrix coordinate pattern generals\n0 0 0\n", 1),
        ("%%MatrixMarket matrix coordinate pattern General\n0 0 0\n", 1),
        ("%%MatrixMarket matrix coordinate pattern general \n0 0 0\n", 1),
        ("%%MatrixMarket  matrix coordinate pattern general\n0 0 0\n", 1),
        ("%%MatrixMarket matrix coordinate pattern general\r\n0 0 0\r\n", 1),
        ("%%MatrixMarket matrix coordinate pattern symmetric\n0 0 0\n", 1),
        ("%%MatrixMarket matrix coordinate real general\n0 0 0\n", 1),
        (" %%MatrixMarket matrix coordinate pattern general\n0 0 0\n", 1),
    ];
    for (text, line) in whole {
        assert_eq!(read(&mut library, text.as_bytes()), bad(line), "{text:?}");
    }
    let behind = [
        // the size line: missing, blank, too few or too many numbers, rows other than columns, no LF
        ("", 2),
        ("%\n", 3),
        ("\n2 2 0\n", 2),
        ("2 2\n", 2),
        ("2\n", 2),
        ("2 2 0 0\n", 2),
        ("2 3 0\n", 2),
        ("3 2 0\n", 2),
        ("2 2 0", 2),
        ("%\n% a\n2 3 0\n", 4),
        // a comment without LF, one that begins with a space
        ("%", 2),
        ("% no more", 2),
        (" % late\n2 2 0\n", 2),
        // numbers: needless zeros, signs, letters, eight digits, points, spaces, tabs, CR, NUL, a byte above ASCII
        ("02 02 0\n", 2),
        ("2 2 00\n", 2),
        ("+2 +2 0\n", 2),
        ("-2 -2 0\n", 2),
        ("2 2 x\n", 2),
        ("2e0 2 0\n", 2),
        ("2.0 2.0 0\n", 2),
        ("10000000 10000000 0\n", 2),
        ("2 2 10000000\n", 2),
        ("00000002 2 0\n", 2),
        ("4294967298 4294967298 0\n", 2),
        (" 2 2 0\n", 2),
        ("2  2 0\n", 2),
        ("2 2  0\n", 2),
        ("2 2 0 \n", 2),
        ("2\t2\t0\n", 2),
        ("2 2 0\r\n", 2),
        ("2 2\0 0\n", 2),
        ("2 2 /\n", 2),
        ("2 2 :\n", 2),
        // entries: 0, over n, too few or too many numbers, a comment or a blank line in their place, no LF
        ("2 2 1\n0 1\n", 3),
        ("2 2 1\n1 0\n", 3),
        ("2 2 1\n3 1\n", 3),
        ("2 2 1\n1 3\n", 3),
        ("2 2 1\n9999999 1\n", 3),
        ("2 2 1\n1\n", 3),
        ("2 2 1\n1 2 1\n", 3),
        ("2 2 1\n1 02\n", 3),
        ("2 2 1\n1  2\n", 3),
        ("2 2 1\n1 2 \n", 3),
        ("2 2 1\n 1 2\n", 3),
        ("2 2 1\n1 2\r\n", 3),
        ("2 2 1\n1\t2\n", 3),
        ("2 2 1\n1 2", 3),
        ("2 2 1\n1 ", 3),
        ("2 2 1\n1", 3),
        ("2 2 1\n", 3),
        ("0 0 1\n", 3),
        ("0 0 1\n0 0\n", 3),
        ("2 2 1\n% late\n1 2\n", 3),
        ("2 2 2\n1 2\n% late\n2 1\n", 4),
        ("2 2 2\n1 2\n\n2 1\n", 4),
        ("2 2 2\n1 2\n", 4),
        // something behind the last entry
        ("2 2 1\n1 2\n2 1\n", 4),
        ("2 2 1\n1 2\n% late\n", 4),
        ("2 2 1\n1 2\n\n", 4),
        ("2 2 1\n1 2\n ", 4),
        ("2 2 1\n1 2\n\0", 4),
        ("2 2 0\n1 2\n", 3),
        ("2 2 0\n%\n", 3),
    ];
    for (lines, line) in behind {
        assert_eq!(read(&mut library, &headed(lines)), bad(line), "{lines:?}");
    }
    // a line of bytes above ASCII
    assert_eq!(read(&mut library, &[headed("2 2 ").as_slice(), &[0xb2, b'\n']].concat()), bad(2));
}

#[test]
fn good_texts_are_read() {
    let mut library = library();
    for (lines, n, edges) in [
        ("0 0 0\n", 0, 0),
        ("1 1 0\n", 1, 0),
        ("1 1 1\n1 1\n", 1, 1),
        ("%\n2 2 1\n2 1\n", 2, 1),
        ("%%\n%%MatrixMarket matrix coordinate pattern general\n% 2 2 0\n2 2 1\n2 1\n", 2, 1),
        ("% \t any \r % bytes \0 in \u{1f4a1} a comment\n2 2 1\n2 1\n", 2, 1),
        ("200000 200000 1\n200000 1\n", 200_000, 1),
        ("3 3 5\n1 2\n1 2\n3 3\n2 1\n1 2\n", 3, 5),
    ] {
        assert_eq!(read(&mut library, &headed(lines)), Ok((n, edges)), "{lines:?}");
    }
}

/// 18, then 16 for either list, then 1, then 3: the first that is due.
#[test]
fn the_first_refusal_due_is_given() {
    let mut library = library();
    let refused = |number, extra| Err(Refusal { number, extra });
    let many = format!("1000001\n{}", "1 2\n".repeat(1_000_001));
    for (n, over) in [(200_000, false), (200_001, true), (9_999_999, true)] {
        for (size, rest) in [(2, "2\n1 2\n2 1\n"), (1_000_001, many.as_str())] {
            let text = headed(&format!("{n} {n} {rest}"));
            for sizes in [(0, 0), (size - 1, size), (size, size - 1), (size + 1, 0), (0, size + 1)] {
                assert_eq!(compare::read_matrix(&mut library, &text, sizes), refused(16, size as u32), "{sizes:?}");
            }
            let due = if over { refused(1, 0) } else if size > 2 { refused(3, 0) } else { Ok((n, 2)) };
            for sizes in [(size, size), (size + 3, size)] {
                assert_eq!(compare::read_matrix(&mut library, &text, sizes), due, "{n} {sizes:?}");
            }
            let longer = [text.as_slice(), b"%\n"].concat();
            assert_eq!(compare::read_matrix(&mut library, &longer, (0, 0)), bad(size as u32 + 3), "18 comes first");
        }
    }
    assert_eq!(compare::read_matrix(&mut library, &headed("10000000 10000000 0\n"), (0, 0)), bad(2));
}

#[test]
fn texts_cut_at_each_byte() {
    let mut library = library();
    let text = headed("%\n% two\n12 12 3\n1 12\n10 2\n7 7\n");
    for size in 0..text.len() {
        let said = read(&mut library, &text[..size]);
        let lines = text[..size].iter().filter(|&&byte| byte == b'\n').count() as u32;
        assert_eq!(said, bad(lines + 1), "the line that was cut, or the one behind the last: {size}");
    }
    assert_eq!(read(&mut library, &text), Ok((12, 3)));
}

#[test]
fn each_line_doubled_dropped_and_swapped() {
    let mut library = library();
    let text = headed("%\n% two\n12 12 3\n1 12\n10 2\n7 7\n");
    let lines: Vec<&[u8]> = text.split_inclusive(|&byte| byte == b'\n').collect();
    for i in 0..lines.len() {
        let mut doubled = lines.clone();
        doubled.insert(i, lines[i]);
        read(&mut library, &doubled.concat()).ok();
        let mut dropped = lines.clone();
        dropped.remove(i);
        read(&mut library, &dropped.concat()).ok();
        for j in 0..i {
            let mut swapped = lines.clone();
            swapped.swap(i, j);
            read(&mut library, &swapped.concat()).ok();
        }
    }
    let crlf: Vec<u8> = text.iter().flat_map(|&byte| if byte == b'\n' { vec![b'\r', b'\n'] } else { vec![byte] }).collect();
    assert_eq!(read(&mut library, &crlf), bad(1));
}

/// Every byte of a text set to some others.
#[test]
fn texts_with_one_byte_changed() {
    let (mut library, mut chance) = (library(), Chance::new(18));
    let text = headed("%\n% two\n12 12 3\n1 12\n10 2\n7 7\n");
    for i in 0..text.len() {
        for byte in [b'\n', b'\r', b' ', b'%', b'0', b'1', b'9', b'/', b':', b'\t', 0, 255, chance.below(256) as u8] {
            let mut other = text.clone();
            other[i] = byte;
            read(&mut library, &other).ok();
            other.insert(i, text[i]);
            read(&mut library, &other).ok();
        }
        let mut shorter = text.clone();
        shorter.remove(i);
        read(&mut library, &shorter).ok();
    }
}

#[test]
fn edge_lists_are_written_and_read_back() {
    let (mut library, mut chance) = (library(), Chance::new(19));
    for round in 0..400 {
        let n = chance.between(0, if round % 8 == 0 { 200_000 } else { 30 });
        let mut graph = if n <= 30 && n > 0 { chance.graph(Kind::ALL[round % Kind::ALL.len()], n) } else { Graph::new(n, &[]) };
        if n > 30 {
            graph.edges = (0..chance.below(300)).map(|_| (chance.below(n), chance.below(n))).collect();
        }
        let (sources, targets) = (graph.sources(), graph.targets());
        let size = written(&graph).len();
        let mut text = vec![0xa5; size + 3];
        assert_eq!(library.write_matrix(n as u32, &sources, &targets, &mut text), Ok(size as u32));
        assert_eq!(compare::write_matrix(&mut library, n as u32, &sources, &targets, size), Ok(size as u32));
        text.truncate(size);
        assert_eq!(text, written(&graph).into_bytes());
        let (mut us, mut vs) = (vec![7; sources.len() + 1], vec![8; sources.len()]);
        assert_eq!(library.read_matrix(&text, &mut us, &mut vs), Ok((n as u32, sources.len() as u32)), "it is read back");
        assert_eq!((us.pop(), us, vs), (Some(7), sources.clone(), targets.clone()), "to the same edge list");
        if n > 0 && n <= 30 {
            // and so the index of what is read back is the same bytes
            let d = chance.between(1, 3);
            let orders = flat(&chance.orders(n, d));
            let input = |sources: &[u32]| Input { form: 2, n: n as u32, sources: sources.to_vec(), targets: targets.clone(), orders: orders.clone(), d: d as u32 };
            let (mut rs, mut rt) = (vec![0; sources.len()], vec![0; sources.len()]);
            library.read_matrix(&text, &mut rs, &mut rt).unwrap();
            assert_eq!(rt, targets);
            assert_eq!(library.built(Face::Ordinary, &input(&rs)), library.built(Face::Ordinary, &input(&sources)));
        }
    }
}

/// 1, 2, 3, 7 with the first bad edge, then 9 with the bytes needed.
#[test]
fn refusals_of_writing() {
    let mut library = library();
    let refused = |number, extra| Err(Refusal { number, extra });
    let many = vec![0; 1_000_001];
    let mut write = |n: u32, sources: &[u32], targets: &[u32], size: usize| compare::write_matrix(&mut library, n, sources, targets, size);
    assert_eq!(write(200_001, &many, &[0], 0), refused(1, 0));
    assert_eq!(write(u32::MAX, &[], &[], 0), refused(1, 0));
    assert_eq!(write(3, &many, &[9], 0), refused(2, 0));
    assert_eq!(write(3, &[9], &many, 0), refused(2, 0));
    assert_eq!(write(0, &many, &many, 0), refused(3, 0));
    assert_eq!(write(3, &[0, 1, 3, 9], &[0, 3, 0, 9], 0), refused(7, 1));
    assert_eq!(write(3, &[0, 3], &[0, 0], 0), refused(7, 1));
    assert_eq!(write(0, &[0], &[0], 0), refused(7, 0));
    assert_eq!(write(3, &[u32::MAX], &[0], 0), refused(7, 0));
    for (n, sources, targets) in [(3, vec![0], vec![2]), (0, vec![], vec![]), (10, vec![8, 9, 0], vec![9, 9, 9]), (200_000, vec![199_999, 99_999], vec![9_998, 0])] {
        let size = written(&Graph::from_lists(n, &sources, &targets)).len();
        for short in [0, 1, size / 2, size - 1] {
            assert_eq!(write(n, &sources, &targets, short), refused(9, size as u32));
        }
        for enough in [size, size + 5] {
            assert_eq!(write(n, &sources, &targets, enough), Ok(size as u32));
        }
    }
}

#[test]
fn a_million_entries() {
    let (mut library, mut chance) = (library(), Chance::new(20));
    let n = 200_000;
    let graph = Graph { n, edges: (0..1_000_000).map(|_| (chance.below(n), chance.below(n))).collect() };
    let (sources, targets) = (graph.sources(), graph.targets());
    let text = written(&graph);
    assert_eq!(compare::write_matrix(&mut library, n as u32, &sources, &targets, text.len()), Ok(text.len() as u32));
    assert_eq!(compare::read_matrix(&mut library, text.as_bytes(), (1_000_000, 1_000_003)), Ok((n as u32, 1_000_000)));
    // the last entry is bad, so nothing is stored
    let short = &text.as_bytes()[..text.len() - 1];
    assert_eq!(compare::read_matrix(&mut library, short, (1_000_000, 1_000_000)), bad(1_000_002));
}

/// Runs a piece of Debian's Python with a text as its input: what it prints. None where scipy is not installed.
fn scipy(program: &str, input: &[u8]) -> Option<Vec<u8>> {
    let python = |program: &str| {
        let mut python = Command::new("/usr/bin/python3");
        python.args(["-c", program]).stdin(Stdio::piped()).stdout(Stdio::piped());
        python
    };
    if !python("import scipy.io, scipy.sparse").stderr(Stdio::null()).status().is_ok_and(|status| status.success()) {
        println!("skipped: scipy is not installed");
        return None;
    }
    let mut child = python(program).spawn().expect("it starts");
    child.stdin.take().unwrap().write_all(input).expect("it reads its input");
    let output = child.wait_with_output().expect("it ends");
    assert!(output.status.success());
    Some(output.stdout)
}

/// The edge list as it is told to Python: n, then source and target of each edge.
fn told(graph: &Graph) -> String {
    graph.edges.iter().fold(graph.n.to_string(), |line, (u, v)| format!("{line} {u} {v}"))
}

#[test]
fn what_scipy_writes_is_read() {
    let (mut library, mut chance) = (library(), Chance::new(21));
    let program = "
import sys, io, scipy.io, scipy.sparse
n, *ends = map(int, sys.stdin.read().split())
matrix = scipy.sparse.coo_matrix(([1] * (len(ends) // 2), (ends[0::2], ends[1::2])), (n, n))
file = io.BytesIO()
scipy.io.mmwrite(file, matrix, comment='written by scipy\\nsecond line', field='pattern', symmetry='general')
sys.stdout.buffer.write(file.getvalue())";
    for round in 0..12 {
        let n = chance.between(1, if round % 3 == 0 { 200_000 } else { 20 });
        let graph = Graph { n, edges: (0..chance.below(200)).map(|_| (chance.below(n), chance.below(n))).collect() };
        let Some(text) = scipy(program, told(&graph).as_bytes()) else { return };
        assert_eq!(read_lines(&text), Ok(graph.clone()), "{}", String::from_utf8_lossy(&text));
        assert_eq!(read(&mut library, &text), Ok((n as u32, graph.edges.len() as u32)));
    }
}

#[test]
fn scipy_reads_what_is_written() {
    let (mut library, mut chance) = (library(), Chance::new(22));
    let program = "
import sys, io, scipy.io
matrix = scipy.io.mmread(io.BytesIO(sys.stdin.buffer.read()))
assert matrix.shape[0] == matrix.shape[1] and all(x == 1 for x in matrix.data)
print(matrix.shape[0], *(end for pair in zip(matrix.row, matrix.col) for end in pair))";
    for round in 0..12 {
        let n = chance.between(1, if round % 3 == 0 { 200_000 } else { 20 });
        let graph = Graph { n, edges: (0..chance.between(1, 200)).map(|_| (chance.below(n), chance.below(n))).collect() };
        let mut text = vec![0; 10_000];
        let size = library.write_matrix(n as u32, &graph.sources(), &graph.targets(), &mut text).expect("it is written");
        let Some(read) = scipy(program, &text[..size as usize]) else { return };
        assert_eq!(String::from_utf8(read).unwrap().trim_end(), told(&graph));
    }
}
