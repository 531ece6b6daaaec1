//! Debian's packages and what they need: a graph that nobody here made, from the machine's own package lists (outside/debian). Its groups, lists and answers beside the
//! independent program's and beside those of networkx, a program that nobody here wrote: parts of it that fit form 1, and the whole in form 2. Where the machine has no package
//! lists, or no networkx, a line says so, and what needs them is left out.

use independent::chance::Chance;
use independent::closure::next;
use independent::groups::Groups;
use independent::matrix::read_lines;
use independent::stored::{encode, little_endian};
use independent::{Form, Graph, Index, FORM_1, FORM_2, FORM_3};
use outside::compare::{self, Input, Lent};
use outside::{Face, Library};
use std::collections::VecDeque;
use std::fs;
use std::io::Write;
use std::path::Path;
use std::process::{Command, Stdio};
use std::sync::OnceLock;

/// A line beside the tests' own, which are shown only where a test fails.
fn say(line: &str) {
    writeln!(std::io::stderr(), "{line}").unwrap();
}

struct Debian {
    /// As outside/debian wrote it.
    text: Vec<u8>,
    graph: Graph,
    /// By package: what it needs, and what needs it.
    needs: Vec<Vec<usize>>,
    needed_by: Vec<Vec<usize>>,
}

/// None where the machine has no package lists: the script has said so then.
fn debian() -> Option<&'static Debian> {
    static MADE: OnceLock<Option<Debian>> = OnceLock::new();
    let make = || {
        let root = Path::new(env!("CARGO_MANIFEST_DIR")).parent().unwrap();
        let folder = root.join("target/outside");
        let status = Command::new(root.join("outside/debian")).arg(&folder).status().expect("the script starts");
        if status.code() == Some(3) {
            return None;
        }
        assert!(status.success(), "outside/debian");
        let text = fs::read(folder.join("debian.mtx")).unwrap();
        let graph = read_lines(&text).expect("a Matrix Market file of our subset");
        Some(Debian { text, needs: next(&graph), needed_by: next(&graph.turned()), graph })
    };
    MADE.get_or_init(make).as_ref()
}

impl Debian {
    /// As many of these packages from the front as fit form 1 with the edges between them, still numbered by name.
    fn part(&self, order: impl IntoIterator<Item = usize>) -> Graph {
        let mut taken = vec![false; self.graph.n];
        let (mut packages, mut edges) = (Vec::new(), 0);
        for v in order {
            let to = self.needs[v].iter().filter(|&&w| w == v || taken[w]).count();
            let from = self.needed_by[v].iter().filter(|&&u| taken[u]).count();
            if packages.len() == FORM_1.most_vertices || edges + to + from > FORM_1.most_edges {
                break;
            }
            edges += to + from;
            taken[v] = true;
            packages.push(v);
        }
        packages.sort();
        let number = |v: usize| packages.binary_search(&v).ok();
        let of = |u: usize| self.needs[u].iter().filter_map(move |&v| Some((number(u)?, number(v)?)));
        let part = Graph { n: packages.len(), edges: packages.iter().flat_map(|&u| of(u)).collect() };
        assert_eq!(part.edges.len(), edges);
        part
    }

    /// The packages around one, the nearest first: those that it needs and, if so told, those that need it.
    fn around(&self, package: usize, both_ways: bool) -> Vec<usize> {
        let (mut found, mut order) = (vec![false; self.graph.n], Vec::new());
        let mut waiting = VecDeque::from([package]);
        found[package] = true;
        while let Some(v) = waiting.pop_front() {
            order.push(v);
            let beside = if both_ways { &self.needed_by[v][..] } else { &[] };
            for &w in self.needs[v].iter().chain(beside) {
                if !std::mem::replace(&mut found[w], true) {
                    waiting.push_back(w);
                }
            }
        }
        order
    }

    /// The packages of the largest group.
    fn largest_group(&self) -> Vec<usize> {
        let names = Groups::of(&self.graph).names;
        let mut sizes = vec![0; names.len()];
        names.iter().for_each(|&name| sizes[name] += 1);
        let largest = (0..sizes.len()).max_by_key(|&name| sizes[name]).expect("there are packages");
        (0..names.len()).filter(|&v| names[v] == largest).collect()
    }
}

/// What is said of a graph: the name of each vertex's group, the lists of some vertices, downstream and upstream, and which of some pairs are joined by a path.
#[derive(PartialEq)]
struct Said {
    names: Vec<usize>,
    downstream: Vec<Vec<usize>>,
    upstream: Vec<Vec<usize>>,
    joined: Vec<bool>,
}

impl Said {
    fn agrees(&self, other: &Said, who: &str) {
        assert!(self.names == other.names, "{who} names groups otherwise");
        assert!(self.downstream == other.downstream, "{who} lists downstream otherwise");
        assert!(self.upstream == other.upstream, "{who} lists upstream otherwise");
        assert!(self.joined == other.joined, "{who} answers otherwise");
    }
}

/// Four lines in: n, the edges, the vertices that are listed, the pairs. A vertex is in its own list exactly if its group has more than one vertex, which networkx's lists know nothing of.
const NETWORKX: &str = "
import sys, networkx
numbers = lambda: list(map(int, sys.stdin.readline().split()))
pairs = lambda: (lambda flat: list(zip(flat[0::2], flat[1::2])))(numbers())
graph = networkx.DiGraph()
graph.add_nodes_from(range(*numbers()))
graph.add_edges_from(pairs())
group = {v: group for group in networkx.strongly_connected_components(graph) for v in group}
own = lambda v: group[v] if len(group[v]) > 1 else set()
print(*(min(group[v]) for v in range(len(graph))))
listed = numbers()
for v in listed: print(*sorted(networkx.descendants(graph, v) | own(v)))
for v in listed: print(*sorted(networkx.ancestors(graph, v) | own(v)))
print(*(int(networkx.has_path(graph, u, v)) for u, v in pairs()))";

/// None where networkx is not installed.
fn networkx(graph: &Graph, vertices: &[usize], pairs: &[(u32, u32)]) -> Option<Said> {
    static THERE: OnceLock<bool> = OnceLock::new();
    let python = |program: &str| {
        let mut python = Command::new("/usr/bin/python3");
        python.args(["-c", program]).stdin(Stdio::piped()).stdout(Stdio::piped());
        python
    };
    let there = THERE.get_or_init(|| {
        let there = python("import networkx").stderr(Stdio::null()).status().is_ok_and(|status| status.success());
        if !there {
            say("networkx is not installed: Debian's packages are compared with the independent program alone");
        }
        there
    });
    if !there {
        return None;
    }
    let line = |numbers: &mut dyn Iterator<Item = usize>| numbers.map(|x| format!("{x} ")).collect::<String>() + "\n";
    let input = [
        line(&mut [graph.n].into_iter()),
        line(&mut graph.edges.iter().flat_map(|&(u, v)| [u, v])),
        line(&mut vertices.iter().copied()),
        line(&mut pairs.iter().flat_map(|&(u, v)| [u as usize, v as usize])),
    ];
    let mut child = python(NETWORKX).spawn().expect("it starts");
    let mut to = child.stdin.take().unwrap();
    let feeder = std::thread::spawn(move || to.write_all(input.concat().as_bytes()));
    let output = child.wait_with_output().expect("it ends");
    feeder.join().unwrap().expect("it reads its input");
    assert!(output.status.success());
    let text = String::from_utf8(output.stdout).unwrap();
    let mut lines = text.lines().map(|line| line.split(' ').filter(|word| !word.is_empty()).map(|word| word.parse().unwrap()).collect());
    let mut said = |count: usize| lines.by_ref().take(count).collect::<Vec<Vec<usize>>>();
    let names = said(1).remove(0);
    let (downstream, upstream) = (said(vertices.len()), said(vertices.len()));
    let joined = said(1)[0].iter().map(|&yes| yes == 1).collect();
    Some(Said { names, downstream, upstream, joined })
}

/// The names as they stand in the stored form.
fn names(form: &Form, bytes: &[u8], n: usize) -> Vec<usize> {
    bytes[48..48 + form.width * n].chunks_exact(form.width).map(little_endian).collect()
}

/// A list as the library writes it.
fn list(library: &mut Library, face: Face, bytes: &[u8], vertex: usize) -> Vec<usize> {
    let Lent { marks: n, words } = Lent::needed(bytes);
    let (mut marks, mut words, mut out) = (vec![7; n], vec![7; words], vec![0; n]);
    let count = library.list(face, bytes, vertex as u32, &mut marks, &mut words, &mut out).expect("it is listed");
    out[..count as usize].iter().map(|&v| v as usize).collect()
}

/// A graph built in a form, and turned, then listed and asked: so many vertices, and so many pairs, half of them any two and half of them one of those vertices with one in its list.
fn agrees(library: &mut Library, chance: &mut Chance, graph: &Graph, form: &Form, vertices: usize, pairs: usize) {
    let d = chance.between(1, 5);
    let orders = chance.orders(graph.n, d);
    let (index, turned) = (Index::of(graph, &orders), Index::of(&graph.turned(), &orders));
    let vertices: Vec<usize> = (0..vertices).map(|_| chance.below(graph.n)).collect();
    let lists: Vec<Vec<usize>> = vertices.iter().map(|&v| index.downstream(v)).collect();
    let mut pair = |i: usize| {
        let at = chance.below(vertices.len());
        let any = i % 2 == 0 || lists[at].is_empty();
        if any { (chance.below(graph.n), chance.below(graph.n)) } else { (vertices[at], chance.one_of(&lists[at])) }
    };
    let pairs: Vec<(u32, u32)> = (0..pairs).map(&mut pair).map(|(u, v)| (u as u32, v as u32)).collect();

    let bytes = library.built(Face::Ordinary, &Input::of(form, graph, &orders));
    assert!(bytes == encode(form, &index), "the bytes are those of the independent program");
    let turned_bytes = library.built(Face::Turned, &Input::of(&FORM_3, graph, &orders));
    assert!(turned_bytes == encode(&FORM_3, &turned), "the turned bytes are those of the independent program");
    assert!(names(&FORM_3, &turned_bytes, graph.n) == names(form, &bytes, graph.n), "names agree between the two");
    compare::ask_all_made(library, &index, &pairs);

    let (sources, targets): (Vec<u32>, Vec<u32>) = pairs.iter().copied().unzip();
    let Lent { marks, words } = Lent::needed(&bytes);
    let (mut marks, mut words, mut answers) = (vec![7; marks], vec![7; words], vec![0; 6 * pairs.len()]);
    library.ask_all(Face::Ordinary, &bytes, &sources, &targets, &mut marks, &mut words, &mut answers).expect("they are answered");
    let ours = Said {
        names: names(form, &bytes, graph.n),
        downstream: vertices.iter().map(|&v| list(library, Face::Ordinary, &bytes, v)).collect(),
        upstream: vertices.iter().map(|&v| list(library, Face::Turned, &turned_bytes, v)).collect(),
        joined: answers.chunks_exact(6).map(|six| six[2] == 1).collect(),
    };
    let independent = Said {
        names: index.groups.names.clone(),
        downstream: lists,
        upstream: vertices.iter().map(|&v| turned.downstream(v)).collect(),
        joined: pairs.iter().map(|&(u, v)| index.question(u as usize, v as usize).answer.yes).collect(),
    };
    ours.agrees(&independent, "the independent program");
    if let Some(theirs) = networkx(graph, &vertices, &pairs) {
        ours.agrees(&theirs, "networkx");
    }
}

#[test]
fn runs_of_names_that_fit_form_1() {
    let Some(debian) = debian() else { return };
    let (mut library, mut chance) = (Library::start(), Chance::new(321));
    for _ in 0..4 {
        let first = chance.below(debian.graph.n);
        let part = debian.part(first..debian.graph.n);
        agrees(&mut library, &mut chance, &part, &FORM_1, 30, 2_000);
    }
}

#[test]
fn surroundings_that_fit_form_1() {
    let Some(debian) = debian() else { return };
    let (mut library, mut chance) = (Library::start(), Chance::new(322));
    let group = debian.largest_group();
    for package in [chance.one_of(&group), chance.below(debian.graph.n), chance.below(debian.graph.n)] {
        for both_ways in [false, true] {
            let part = debian.part(debian.around(package, both_ways));
            agrees(&mut library, &mut chance, &part, &FORM_1, 30, 2_000);
        }
    }
}

#[test]
fn the_whole_in_form_2() {
    let Some(debian) = debian() else { return };
    let (mut library, mut chance) = (Library::start(), Chance::new(323));
    let (n, edges) = (debian.graph.n, debian.graph.edges.len());
    assert_eq!(compare::read_matrix(&mut library, &debian.text, (edges, edges)), Ok((n as u32, edges as u32)));
    agrees(&mut library, &mut chance, &debian.graph, &FORM_2, 100, 10_000);
}
