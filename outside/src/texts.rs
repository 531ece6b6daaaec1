//! Texts for the text program: random ones that are good, random damage to them, and a text of each named kind with what it prints.

use independent::chance::Chance;

/// A text, and all that the program prints on it.
pub struct Named {
    pub name: String,
    pub text: Vec<u8>,
    pub printed: String,
}

fn lines(letter: &str, numbers: impl IntoIterator<Item = usize>) -> String {
    numbers.into_iter().fold(String::from(letter), |line, number| format!("{line} {number}")) + "\n"
}

/// A text that is read whole; its build may be refused for an edge end, an order or for want of one, and its questions for a vertex.
pub fn good(chance: &mut Chance) -> Vec<u8> {
    let n = match chance.below(40) {
        0 => 512,
        1 => chance.between(25, 512),
        _ => chance.between(0, 24),
    };
    good_of(chance, n)
}

/// The same of n vertices.
pub fn good_of(chance: &mut Chance, n: usize) -> Vec<u8> {
    let mut graph = chance.any_graph(n);
    graph.edges.truncate(if n > 24 { 1_000 } else { 150 });
    let d = chance.below(6);
    let mut orders = chance.orders(n, if n > 24 { d.min(3) } else { d });
    let bad = chance.one_of(&[n, n + 1, 99_999]);
    match chance.below(16) {
        0 if !graph.edges.is_empty() => {
            let edge = chance.below(graph.edges.len());
            graph.edges[edge] = if chance.coin() { (bad, 0) } else { (0, bad) };
        }
        1 if n > 0 && !orders.is_empty() => {
            let order = chance.below(orders.len());
            orders[order][chance.below(n)] = if chance.coin() { bad } else { chance.below(n) };
        }
        _ => {}
    }
    let mut text = lines("v", [n]);
    text.extend(graph.edges.iter().map(|&(u, v)| lines("e", [u, v])));
    text.extend(orders.iter().map(|order| lines("o", order.iter().copied())));
    for _ in 0..chance.below(if n > 24 { 60 } else { 30 }) {
        let (u, v) = (chance.below(n + 1), chance.below(n + 1));
        let far = chance.below(40) == 0;
        text += &lines("q", if far { [u, bad] } else { [u, v] });
    }
    text.into_bytes()
}

/// A text at all bounds: 512 vertices, 2,000 edges, five orders, and as many questions as fit.
pub fn largest(chance: &mut Chance) -> Vec<u8> {
    let n = 512;
    let mut text = lines("v", [n]);
    for _ in 0..2_000 {
        let (u, v) = (chance.below(n), chance.below(n));
        text += &lines("e", [u.min(v), u.max(v)]);
    }
    text.extend(chance.orders(n, 5).into_iter().map(|order| lines("o", order)));
    while text.len() <= 32_768 - "q 511 511\n".len() {
        text += &lines("q", [chance.below(n), chance.below(n)]);
    }
    text.into_bytes()
}

/// One byte, line or number of the text altered, or its end: most often it is bad from there on.
pub fn damaged(chance: &mut Chance, text: &[u8]) -> Vec<u8> {
    let mut lines: Vec<Vec<u8>> = text.split_inclusive(|&byte| byte == b'\n').map(<[u8]>::to_vec).collect();
    let line = chance.below(lines.len());
    let byte = chance.below(lines[line].len());
    let odd = chance.one_of(b" \n\r\t0159veoqVx-+.\0\xff");
    match chance.below(14) {
        0 => drop(lines[line].remove(byte)),
        1 => lines[line].insert(byte, odd),
        2 => lines[line][byte] = odd,
        3 => drop(lines.remove(line)),
        4 => lines.insert(line, lines[line].clone()),
        5 => {
            let other = chance.below(lines.len());
            lines.swap(line, other);
        }
        6 => lines[line][0] = chance.one_of(b"veoq"),
        7 => double(&mut lines[line], b' '),
        8 => lines[line] = in_numbers(&lines[line], b" 0"),
        9 => lines[line] = in_numbers(&lines[line], b" 12345"),
        10 => lines[line] = [&lines[line][..lines[line].len() - 1], b" 0\n"].concat(),
        11 => lines.insert(line, b"\n".to_vec()),
        12 => drop(lines.last_mut().map(Vec::pop)),
        _ => {
            let mut cut = text.to_vec();
            cut.truncate(chance.below(text.len() + 1));
            return cut;
        }
    }
    lines.concat()
}

/// The first of this byte twice.
fn double(line: &mut Vec<u8>, byte: u8) {
    if let Some(at) = line.iter().position(|&b| b == byte) {
        line.insert(at, byte);
    }
}

/// These bytes in place of the line's last space, so that the number behind it grows in front.
fn in_numbers(line: &[u8], bytes: &[u8]) -> Vec<u8> {
    match line.iter().rposition(|&b| b == b' ') {
        Some(at) => [&line[..at], bytes, &line[at + 1..]].concat(),
        None => line.to_vec(),
    }
}

/// The sample, the program's bounds at and past each, and each kind of line bad in each way.
pub fn named() -> Vec<Named> {
    let mut all = Vec::new();
    let mut case = |name: &str, text: String, printed: &str| {
        all.push(Named { name: name.to_string(), text: text.into_bytes(), printed: printed.to_string() });
    };
    let order = |n: usize| lines("o", 0..n);

    case("the sample", include_str!("../../examples/sample.txt").to_string(), include_str!("../../crates/answers/stdout"));
    case("empty input", String::new(), "refused 17 1\n");
    case("n = 0", "v 0\no\nq 0 0\n".to_string(), "q 0 0 refused 14 0\n");
    case("n = 0, five orders, no question", "v 0\no\no\no\no\no\n".to_string(), "");
    case("n = 0, an edge", "v 0\ne 0 0\no\n".to_string(), "refused 7 0\n");
    case("no order", "v 2\ne 0 5\nq 0 0\n".to_string(), "refused 4 0\n");
    case("an edge end of n", "v 2\ne 0 1\ne 2 0\no 0 0\n".to_string(), "refused 7 1\n");
    case("an order with a repeat", "v 2\no 0 1\no 1 1\n".to_string(), "refused 8 1\n");
    case("a question far beyond n", "v 1\no 0\nq 99999 0\nq 0 99999\n".to_string(), "q 99999 0 refused 14 0\nq 0 99999 refused 14 1\n");

    case("512 vertices", format!("v 512\n{}q 511 0\nq 511 511\nq 512 0\n", order(512)), "q 511 0 no 3 0 0\nq 511 511 yes 1 0 0\nq 512 0 refused 14 0\n");
    case("513 vertices", format!("v 513\n{}", order(513)), "refused 17 1\n");
    let edges = |count: usize| format!("v 2\n{}o 0 1\nq 0 1\n", "e 0 1\n".repeat(count));
    case("2,000 edges", edges(2_000), "q 0 1 yes 2 0 1\n");
    case("2,001 edges", edges(2_001), "refused 17 2002\n");
    let orders = |count: usize| format!("v 2\n{}q 0 1\n", order(2).repeat(count));
    case("five orders", orders(5), "q 0 1 no 3 0 0\n");
    case("six orders", orders(6), "refused 17 7\n");
    let full = format!("v 1\no 0\n{}q 0 1\n", "q 0 0\n".repeat(5_459));
    case("32,768 bytes", full.clone(), &("q 0 0 yes 1 0 0\n".repeat(5_459) + "q 0 1 refused 14 1\n"));
    case("32,769 bytes", full.clone() + "\n", "refused 17 0\n");
    case("32,769 bytes of a good text", full.replacen("q 0 0\n", "q 10 0\n", 1), "refused 17 0\n");
    case("40,000 LF", "\n".repeat(40_000), "refused 17 0\n");
    case("32,768 LF", "\n".repeat(32_768), "refused 17 1\n");

    let before = ["", "v 2\n", "v 2\ne 0 1\n", "v 2\ne 0 1\no 0 1\n"];
    for (good, before) in ["v 2\n", "e 0 1\n", "o 0 1\n", "q 0 1\n"].iter().zip(before) {
        let letter = &good[..1];
        let numbers = &good[2..good.len() - 1];
        let bad = [
            good.trim_end().to_string(),
            good.replace('\n', "\r\n"),
            good.replace('\n', " \n"),
            format!(" {good}"),
            good.to_uppercase(),
            good.replace(' ', "\t"),
            good.replacen(' ', "  ", 1),
            good.replacen(' ', "", 1),
            good.replacen(' ', " 0", 1),
            good.replace('\n', "00000\n"),
            format!("{letter} {numbers} 0\n"),
            format!("{letter}\n"),
            format!("{letter} \n"),
            format!("{letter} -1{}\n", &numbers[1..]),
            format!("{letter} x{}\n", &numbers[1..]),
            format!("x {numbers}\n"),
            "\n".to_string(),
            " \n".to_string(),
        ];
        let number = 1 + before.matches('\n').count();
        case(&format!("{good:?} without LF at the end"), format!("{before}{}", good.trim_end()), &format!("refused 17 {number}\n"));
        for line in bad {
            case(&format!("{line:?} behind {before:?}"), format!("{before}{line}q 0 0\n"), &format!("refused 17 {number}\n"));
        }
    }
    for (text, line) in [
        ("e 0 0\n", 1),
        ("v 1\nv 1\n", 2),
        ("v 1\no 0\ne 0 0\n", 3),
        ("v 1\no 0\nv 1\n", 3),
        ("v 1\no 0\nq 0 0\no 0\n", 4),
        ("v 1\no 0\nq 0 0\ne 0 0\n", 4),
        ("v 1\nq 0 0\no 0\n", 3),
        ("v 0\no \n", 2),
        ("v 2\no 0\n", 2),
        ("v 2\no 0 1 1\n", 2),
    ] {
        case(&format!("{text:?}"), text.to_string(), &format!("refused 17 {line}\n"));
    }
    all
}
