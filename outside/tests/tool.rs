//! The command on real files and as a real process: index files byte for byte as the independent program makes them, every answer line by line, refusals on damaged files,
//! and files that are missing, no files, empty or cannot be written.

use independent::chance::{Chance, Damage, Kind};
use independent::stored::image;
use independent::{add, ask_added, settle_rules, Added, Form, Graph, Index, Refusal, Rule, FORM_1, FORM_2, FORM_3, FORM_4, MOST_ADDED};
use std::fmt::Write as _;
use std::fs;
use std::io::Write as _;
use std::os::unix::fs::PermissionsExt as _;
use std::path::{Path, PathBuf};
use std::process::{Command, Stdio};

/// A folder of its own for one test, gone when the test is.
struct Folder(PathBuf);

impl Folder {
    fn new(name: &str) -> Folder {
        let path = std::env::temp_dir().join(format!("drobisten-{name}-{}", std::process::id()));
        fs::create_dir_all(&path).unwrap();
        Folder(path)
    }

    fn file(&self, name: &str) -> String {
        self.0.join(name).to_str().unwrap().to_string()
    }

    /// A file of these bytes.
    fn with(&self, name: &str, bytes: impl AsRef<[u8]>) -> String {
        fs::write(self.0.join(name), bytes).unwrap();
        self.file(name)
    }

    /// What stands in the folder.
    fn names(&self) -> Vec<String> {
        let mut names: Vec<String> = fs::read_dir(&self.0).unwrap().map(|entry| entry.unwrap().file_name().into_string().unwrap()).collect();
        names.sort();
        names
    }
}

impl Drop for Folder {
    fn drop(&mut self) {
        let _ = fs::remove_dir_all(&self.0);
    }
}

/// How a process ended: its status, its lines, and what it said beside them.
#[derive(Debug)]
struct Ended {
    status: i32,
    out: String,
    said: String,
}

fn root() -> PathBuf {
    Path::new(env!("CARGO_MANIFEST_DIR")).parent().unwrap().to_path_buf()
}

fn ended(command: &mut Command, input: &[u8]) -> Ended {
    let mut child = command.stdin(Stdio::piped()).stdout(Stdio::piped()).stderr(Stdio::piped()).spawn().unwrap();
    let mut to = child.stdin.take().unwrap();
    let input = input.to_vec();
    let writer = std::thread::spawn(move || drop(to.write_all(&input)));
    let output = child.wait_with_output().unwrap();
    writer.join().unwrap();
    Ended { status: output.status.code().unwrap_or(-1), out: String::from_utf8(output.stdout).unwrap(), said: String::from_utf8_lossy(&output.stderr).into_owned() }
}

/// The command; DROBISTEN_TOOL names another, as the one that `tool/make -fsanitize=address,undefined` makes.
fn tool() -> PathBuf {
    std::env::var_os("DROBISTEN_TOOL").map_or(root().join("target/tool/drobisten"), PathBuf::from)
}

/// The command with these words.
fn drobisten(words: &[&str]) -> Ended {
    ended(Command::new(tool()).args(words), b"")
}

/// The command with these words and bytes on its standard input.
fn drobisten_given(words: &[&str], input: &str) -> Ended {
    ended(Command::new(tool()).args(words), input.as_bytes())
}

/// The command in a shell that has been told something first.
fn drobisten_behind(first: &str, words: &[&str]) -> Ended {
    let line = format!("{first}; exec \"$0\" \"$@\"");
    ended(Command::new("sh").arg("-c").arg(line).arg(tool()).args(words), b"")
}

/// A Matrix Market file of a graph.
fn matrix(graph: &Graph) -> String {
    let mut text = format!("%%MatrixMarket matrix coordinate pattern general\n% made for a test\n{0} {0} {1}\n", graph.n, graph.edges.len());
    for (u, v) in &graph.edges {
        writeln!(text, "{} {}", u + 1, v + 1).unwrap();
    }
    text
}

/// An order file: a vertex a line.
fn order_lines(orders: &[Vec<usize>]) -> String {
    orders.iter().flatten().map(|v| format!("{v}\n")).collect()
}

fn refused(e: &Ended, refusal: Refusal) {
    assert_eq!((e.status, e.out.as_str()), (2, format!("{refusal}\n").as_str()), "{e:?}");
    assert!(e.said.starts_with("drobisten: ") && e.said.lines().count() == 1, "one sentence: {e:?}");
}

#[test]
fn an_index_file_is_the_independent_programs() {
    let (folder, mut chance) = (Folder::new("build"), Chance::new(311));
    for round in 0..42 {
        let n = chance.between(0, 30);
        let graph = chance.graph(Kind::ALL[round % Kind::ALL.len()], n);
        let edges = folder.with("edges.mtx", matrix(&graph));
        let (d, seed, index) = (chance.between(1, 5), chance.number(), folder.file("index"));
        let (count, number) = (d.to_string(), seed.to_string());
        let orders = Chance::new(seed).orders(n, d);
        for form in [FORM_1, FORM_2] {
            let e = drobisten(&["build", &edges, "-o", &index, "-d", &count, "--seed", &number, "--form", &form.number.to_string()]);
            assert_eq!(e.status, 0, "{e:?}");
            assert!(e.out.contains(&format!("seed {seed}")), "{e:?}");
            assert_eq!(fs::read(&index).unwrap(), image(&form, &graph, &orders));
        }
        assert_eq!(drobisten(&["build", &edges, "-o", &index, "-d", &count, "--seed", &number, "--turned"]).status, 0);
        assert_eq!(fs::read(&index).unwrap(), image(&FORM_3, &graph.turned(), &orders));
        let other = chance.orders(n, d);
        let file = folder.with("orders", order_lines(&other));
        assert_eq!(drobisten(&["build", &edges, "-o", &index, "-d", &count, "--orders", &file]).status, 0);
        assert_eq!(fs::read(&index).unwrap(), image(&FORM_2, &graph, &other));
    }
    assert_eq!(folder.names(), ["edges.mtx", "index", "orders"], "nothing else is left");
}

/// All that is asked of an index, line by line, counted from 0 and from 1.
fn all_questions(folder: &Folder, form: &Form, graph: &Graph, index: &Index) {
    let file = folder.with("index", independent::stored::encode(form, index));
    let c = independent::Counts::of(index);
    assert_eq!(drobisten(&["check", &file]).out, format!("form {} n {} k {} c {} d {}\n", form.number, c.n, c.k, c.c, c.d));
    let n = graph.n;
    for one in [0, 1] {
        let from = |words: &[&str]| drobisten(&[words, if one == 1 { &["--from-one"] } else { &[] }].concat());
        let (mut pairs, mut lines) = (String::new(), String::new());
        for (u, v) in (0..n).flat_map(|u| (0..n).map(move |v| (u, v))) {
            writeln!(pairs, "{} {}", u + one, v + one).unwrap();
            writeln!(lines, "q {} {} {}", u + one, v + one, index.question(u, v).answer).unwrap();
        }
        writeln!(pairs, "{} {}", n + one, one).unwrap();
        writeln!(lines, "q {} {} refused 14 0", n + one, one).unwrap();
        let asked = from(&["ask", &file, "--pairs", &folder.with("pairs", &pairs)]);
        assert_eq!((asked.status, asked.out), (0, lines.clone()));
        let input = drobisten_given(&[&["ask", &file, "--pairs", "-"][..], if one == 1 { &["--from-one"] } else { &[] }].concat(), &pairs);
        assert_eq!((input.status, input.out), (0, lines));
        for u in 0..n.min(4) {
            let v = n - 1 - u;
            let (a, b) = ((u + one).to_string(), (v + one).to_string());
            let answer = index.question(u, v).answer;
            let e = from(&["ask", &file, &a, &b]);
            assert_eq!((e.status, e.out), (i32::from(!answer.yes), format!("q {a} {b} {answer}\n")));
            let e = from(&["list", &file, &a]);
            assert_eq!((e.status, e.out), (0, index.downstream(u).iter().map(|w| format!("{}\n", w + one)).collect()));
            let e = from(&["chain", &file, &a, &b]);
            let steps = index.chain(u, v).map(|steps| steps.iter().map(|w| (w + one).to_string()).collect::<Vec<_>>().join(" "));
            assert_eq!((e.status, e.out), (i32::from(steps.is_none()), format!("{}\n", steps.unwrap_or("no".to_string()))));
        }
        refused(&from(&["ask", &file, &one.to_string(), &(n + one).to_string()]), Refusal { number: 14, extra: if n == 0 { 0 } else { 1 } });
    }
}

#[test]
fn every_answer_is_the_independent_programs() {
    let (folder, mut chance) = (Folder::new("ask"), Chance::new(312));
    for round in 0..28 {
        let n = chance.between(1, 14);
        let graph = chance.graph(Kind::ALL[round % Kind::ALL.len()], n);
        let d = chance.between(1, 3);
        let orders = chance.orders(n, d);
        let index = Index::of(&graph, &orders);
        all_questions(&folder, if round % 2 == 0 { &FORM_1 } else { &FORM_2 }, &graph, &index);

        let (one, two, back) = (folder.with("one", image(&FORM_1, &graph, &orders)), folder.file("two"), folder.file("back"));
        assert_eq!(drobisten(&["convert", &one, "--form", "2", "-o", &two]).status, 0);
        assert_eq!(fs::read(&two).unwrap(), image(&FORM_2, &graph, &orders));
        assert_eq!(drobisten(&["convert", &two, "--form", "1", "-o", &back]).status, 0);
        assert_eq!(fs::read(&back).unwrap(), fs::read(&one).unwrap());

        let turned = Index::of(&graph.turned(), &orders);
        let file = folder.with("turned", image(&FORM_3, &graph.turned(), &orders));
        for v in 0..n.min(5) {
            let e = drobisten(&["upstream", &file, &v.to_string()]);
            assert_eq!((e.status, e.out), (0, turned.downstream(v).iter().map(|w| format!("{w}\n")).collect()));
            let e = drobisten(&["ask", &file, &v.to_string(), "0"]);
            assert_eq!((e.status == 0, e.out), (index.question(0, v).answer.yes, format!("q {v} 0 {}\n", turned.question(v, 0).answer)));
        }
        refused(&drobisten(&["list", &file, "0"]), Refusal { number: 11, extra: 3 });
        refused(&drobisten(&["upstream", &one, "0"]), Refusal { number: 11, extra: 1 });
    }
}

#[test]
fn damaged_files_are_refused_as_the_independent_program_refuses_them() {
    let (folder, mut chance) = (Folder::new("damage"), Chance::new(313));
    let mut opened = 0;
    for round in 0..130 {
        let n = chance.between(1, 8);
        let graph = chance.graph(Kind::ALL[round % Kind::ALL.len()], n);
        let form = if round % 2 == 0 { FORM_1 } else { FORM_2 };
        let good = image(&form, &graph, &chance.orders(n, 2));
        let bytes = chance.damage(Damage::ALL[round % Damage::ALL.len()], &good);
        let file = folder.with("index", &bytes);
        let (mut marks, mut words) = (vec![0; 200_000], vec![0; 7_200_064]);
        let e = drobisten(&["check", &file]);
        match independent::open(&bytes, &mut marks, &mut words) {
            Ok(_) => opened += usize::from(e.status == 0),
            Err(refusal) if !(3..=4).contains(&bytes.first().copied().unwrap_or(0)) || refusal.number != 11 => refused(&e, refusal),
            Err(_) => assert_eq!(e.status, 2),
        }
        let e = drobisten(&["ask", &file, "0", "0"]);
        if let Err(refusal) = independent::ask(&bytes, 0, 0, &mut marks, &mut words) {
            if !matches!(bytes.first(), Some(3 | 4)) {
                refused(&e, refusal);
            }
        }
    }
    assert!(opened > 0, "some damage leaves an index sound");
}

#[test]
fn a_matrix_file_is_tidied_or_refused_as_the_independent_program_does_it() {
    let (folder, mut chance) = (Folder::new("matrix"), Chance::new(320));
    let (tidy, index) = (folder.file("tidy.mtx"), folder.with("index", "old"));
    let (mut sources, mut targets) = (vec![0; 1000], vec![0; 1000]);
    let mut refusals = 0;
    for round in 0..120 {
        let n = chance.between(0, 12);
        let graph = chance.graph(Kind::ALL[round % Kind::ALL.len()], n);
        let good = matrix(&graph);
        let e = drobisten(&["tidy", &folder.with("edges.mtx", &good), "-o", &tidy]);
        assert_eq!((e.status, e.out.as_str()), (0, ""));
        assert_eq!(fs::read_to_string(&tidy).unwrap(), good.replace("% made for a test\n", ""));
        let bytes = chance.damage(Damage::ALL[round % Damage::ALL.len()], good.as_bytes());
        let edges = folder.with("edges.mtx", &bytes);
        if let Err(refusal) = independent::read_matrix(&bytes, &mut sources, &mut targets) {
            refused(&drobisten(&["tidy", &edges, "-o", &tidy]), refusal);
            refused(&drobisten(&["build", &edges, "-o", &index]), refusal);
            assert_eq!(fs::read(&index).unwrap(), b"old", "a refused build leaves the old file");
            refusals += 1;
        }
    }
    assert!(refusals > 60, "{refusals}");
    for (text, number, word) in [("1000001 1000001 0\n".to_string(), 1, "split"), (format!("2 2 1000001\n{}", "1 2\n".repeat(1_000_001)), 16, "1000001 edges")] {
        let e = drobisten(&["build", &folder.with("edges.mtx", format!("%%MatrixMarket matrix coordinate pattern general\n{text}")), "-o", &index]);
        assert_eq!(e.status, 2, "{e:?}");
        assert!(e.out.starts_with(&format!("refused {number} ")) && e.said.contains(word), "{e:?}");
    }
    let e = drobisten(&["check", &folder.with("edges.mtx", matrix(&Graph::new(9, &[])))]);
    assert!(e.status == 2 && e.said.starts_with("drobisten: there is no form "), "{e:?}");
}

/// A table of rules as a file, its states in words.
fn table(rules: &[Rule], one: u32) -> String {
    let mut text = String::from("rule,vertex,state\n");
    for r in rules {
        let state = ["fresh", "suspect", "unknown"].get(r.state as usize).map_or(r.state.to_string(), |word| word.to_string());
        writeln!(text, "{},{},{state}", r.rule, r.vertex + one).unwrap();
    }
    text
}

#[test]
fn a_table_of_rules_is_settled_as_the_independent_program_settles_it() {
    let (folder, mut chance) = (Folder::new("rules"), Chance::new(315));
    let (mut marks, mut words) = (vec![0; 200_000], vec![0; 7_200_064]);
    for round in 0..42 {
        let n = chance.between(1, 20);
        let graph = chance.graph(Kind::ALL[round % Kind::ALL.len()], n);
        let bytes = image(if round % 2 == 0 { &FORM_1 } else { &FORM_2 }, &graph, &chance.orders(n, 2));
        let (one, from): (u32, &[&str]) = if round % 3 == 0 { (1, &["--from-one"]) } else { (0, &[]) };
        let mut rules: Vec<Rule> =
            (0..chance.between(0, 12)).map(|_| Rule { rule: chance.number() as u32, vertex: chance.below(n + 3) as u32, state: chance.below(5) as u32 }).collect();
        let changed: Vec<u32> = (0..chance.between(0, 4)).map(|_| chance.below(n) as u32).collect();
        let (index, before) = (folder.with("index", &bytes), table(&rules, one));
        let (file, list) = (folder.with("rules.csv", &before), folder.with("changed", changed.iter().map(|v| format!("{}\n", v + one)).collect::<String>()));
        settle_rules(&bytes, &changed, &mut marks, &mut words, &mut rules).unwrap();
        let settle = |words: &[&str]| drobisten(&[&["rules", &index, &file, "--changed", &list][..], words, from].concat());
        let out = folder.file("out.csv");
        assert_eq!(settle(&["-o", &out]).status, 0);
        assert_eq!((fs::read_to_string(&out).unwrap(), fs::read_to_string(&file).unwrap()), (table(&rules, one), before.clone()));
        assert_eq!(settle(&[]).status, 0);
        assert_eq!(fs::read_to_string(&file).unwrap(), table(&rules, one), "written back whole");

        let absent = folder.with("changed", format!("{}\n{}\n", one, n as u32 + one));
        let e = drobisten(&[&["rules", &index, &folder.with("rules.csv", &before), "--changed", &absent][..], from].concat());
        refused(&e, Refusal { number: 14, extra: 1 });
        assert_eq!(fs::read_to_string(&file).unwrap(), before, "a refusal leaves the table");
    }
    let file = folder.with("rules.csv", "1,0,stale\n");
    let e = drobisten(&["rules", &folder.file("index"), &file, "--changed", &folder.with("changed", "")]);
    assert_eq!(e.status, 3, "a state that is none: {e:?}");
    assert_eq!(fs::read_to_string(&file).unwrap(), "1,0,stale\n");
}

#[test]
fn a_question_over_added_edges_is_answered_as_the_independent_program_answers_it() {
    let (folder, mut chance) = (Folder::new("added"), Chance::new(316));
    let (mut marks, mut words) = (vec![0; 200_000], vec![0; 7_200_064]);
    for round in 0..42 {
        let n = chance.between(1, 16);
        let graph = chance.graph(Kind::ALL[round % Kind::ALL.len()], n);
        let bytes = image(if round % 2 == 0 { &FORM_1 } else { &FORM_2 }, &graph, &chance.orders(n, 2));
        let index = folder.with("index", &bytes);
        let mut state = Added { sources: [0; MOST_ADDED], targets: [0; MOST_ADDED], count: 0 };
        let mut pairs = String::new();
        for _ in 0..chance.between(0, 6) {
            let (u, v) = (chance.below(n) as u32, chance.below(n) as u32);
            add(&mut state, n as u32, u, v).unwrap();
            writeln!(pairs, "{u} {v}").unwrap();
        }
        let file = folder.with("added", &pairs);
        for _ in 0..4 {
            let (u, v) = (chance.below(n) as u32, chance.below(n) as u32);
            let yes = ask_added(&bytes, &state, u, v, &mut marks, &mut words).unwrap();
            let e = drobisten(&["ask", &index, &u.to_string(), &v.to_string(), "--added", &file]);
            assert_eq!((e.status, e.out), (i32::from(!yes), format!("q {u} {v} {}\n", if yes { "yes" } else { "no" })));
        }
        let ask = |target: usize, pairs: &str| drobisten(&["ask", &index, "0", &target.to_string(), "--added", &folder.with("added", pairs)]);
        refused(&ask(n, &pairs), Refusal { number: 14, extra: 1 });
        refused(&ask(0, &format!("0 0\n0 {n}\n")), Refusal { number: 7, extra: 1 });
        refused(&ask(0, &"0 0\n".repeat(MOST_ADDED + 1)), Refusal { number: 21, extra: 0 });
        let turned = folder.with("turned", image(&FORM_3, &graph, &chance.orders(n, 1)));
        refused(&drobisten(&["ask", &turned, "0", "0", "--added", &folder.with("added", &pairs)]), Refusal { number: 11, extra: 3 });
    }
}

#[test]
fn exception_lists_are_the_independent_programs_and_answer_as_the_walk_does() {
    let (folder, mut chance) = (Folder::new("lists"), Chance::new(317));
    for round in 0..28 {
        let n = chance.between(1, 14);
        let graph = chance.graph(Kind::ALL[round % Kind::ALL.len()], n);
        let d = chance.between(1, 2);
        let orders = chance.orders(n, d);
        let index = Index::of(&graph, &orders);
        let (file, lists) = (folder.with("index", image(&FORM_1, &graph, &orders)), folder.file("lists"));
        let e = drobisten(&["exceptions", &file, "-o", &lists]);
        let bytes = index.exception_bytes();
        assert_eq!((e.status, e.out), (0, format!("exception lists bytes {}\n", bytes.len())));
        assert_eq!(fs::read(&lists).unwrap(), bytes);
        let (mut pairs, mut lines) = (String::new(), String::new());
        let word = |u: usize, v: usize| if index.question(u, v).answer.yes { "yes" } else { "no" };
        for (u, v) in (0..n).flat_map(|u| (0..n).map(move |v| (u, v))) {
            writeln!(pairs, "{u} {v}").unwrap();
            writeln!(lines, "q {u} {v} {}", word(u, v)).unwrap();
        }
        writeln!(pairs, "0 {n}").unwrap();
        writeln!(lines, "q 0 {n} refused 14 1").unwrap();
        let e = drobisten(&["ask", &file, "--exceptions", &lists, "--pairs", &folder.with("pairs", &pairs)]);
        assert_eq!((e.status, e.out), (0, lines));
        let (u, v) = (chance.below(n), chance.below(n));
        let ask = |file: &str, lists: &str, v: usize| drobisten(&["ask", file, &u.to_string(), &v.to_string(), "--exceptions", lists]);
        let e = ask(&file, &lists, v);
        assert_eq!((e.status == 0, e.out), (index.question(u, v).answer.yes, format!("q {u} {v} {}\n", word(u, v))));
        refused(&ask(&file, &lists, n), Refusal { number: 14, extra: 1 });
        let mut other = bytes.clone();
        let at = chance.below(other.len());
        other[at] ^= 1;
        refused(&ask(&file, &folder.with("other", &other), v), Refusal { number: 20, extra: 0 });
        refused(&ask(&folder.with("two", image(&FORM_2, &graph, &orders)), &lists, v), Refusal { number: 11, extra: 2 });
    }
}

#[test]
fn a_plain_hierarchy_is_built_asked_and_converted() {
    let (folder, mut chance) = (Folder::new("hierarchy"), Chance::new(318));
    for _ in 0..28 {
        let n = chance.between(1, 14);
        let graph = chance.graph(Kind::Forest, n);
        let (edges, seed) = (folder.with("edges.mtx", matrix(&graph)), chance.number());
        let orders = Chance::new(seed).orders(n, 1);
        let index = Index::of(&graph, &orders);
        let (four, two, back) = (folder.file("four"), folder.file("two"), folder.file("back"));
        let e = drobisten(&["build", &edges, "-o", &four, "--hierarchy", "--seed", &seed.to_string()]);
        assert_eq!(e.status, 0, "{e:?}");
        assert_eq!(fs::read(&four).unwrap(), image(&FORM_4, &graph, &orders));
        let c = independent::Counts::of(&index);
        assert_eq!(drobisten(&["check", &four]).out, format!("form 4 n {} k {} c {} d 1\n", c.n, c.k, c.c));
        for _ in 0..6 {
            let (u, v) = (chance.below(n), chance.below(n));
            let answer = index.question(u, v).answer;
            let e = drobisten(&["ask", &four, &u.to_string(), &v.to_string()]);
            assert_eq!((e.status, e.out), (i32::from(!answer.yes), format!("q {u} {v} {answer}\n")));
        }
        assert_eq!(drobisten(&["convert", &four, "--form", "2", "-o", &two]).status, 0);
        assert_eq!(fs::read(&two).unwrap(), image(&FORM_2, &graph, &orders));
        assert_eq!(drobisten(&["convert", &two, "--form", "4", "-o", &back]).status, 0);
        assert_eq!(fs::read(&back).unwrap(), fs::read(&four).unwrap());
        for words in [&["list", &four, "0"][..], &["chain", &four, "0", "0"], &["convert", &four, "--form", "4", "-o", &back], &["convert", &four, "--form", "1", "-o", &back]] {
            refused(&drobisten(words), Refusal { number: 11, extra: 4 });
        }
    }
    let shared = Graph::new(4, &[(0, 3), (1, 3), (1, 2)]);
    let (edges, new) = (folder.with("edges.mtx", matrix(&shared)), folder.file("new"));
    refused(&drobisten(&["build", &edges, "-o", &new, "--hierarchy"]), Refusal { number: 22, extra: 3 });
    refused(&drobisten(&["build", &edges, "-o", &new, "--hierarchy", "-d", "2"]), Refusal { number: 4, extra: 0 });
    let two = |d: usize| folder.with("two", image(&FORM_2, &shared, &vec![(0..4).collect(); d]));
    refused(&drobisten(&["convert", &two(1), "--form", "4", "-o", &new]), Refusal { number: 22, extra: 3 });
    refused(&drobisten(&["convert", &two(2), "--form", "4", "-o", &new]), Refusal { number: 4, extra: 0 });
    assert_eq!(folder.names(), ["back", "edges.mtx", "four", "two"], "a refusal leaves nothing");
}

#[test]
fn labels_are_taken_and_shown() {
    let folder = Folder::new("labels");
    let graph = Graph::new(4, &[(0, 1), (1, 2)]);
    let index = folder.with("index", image(&FORM_2, &graph, &[(0..4).collect()]));
    let names = folder.with("names", "the meter\nset <A> & \"B\"\nrule\nrule");
    let e = drobisten(&["ask", &index, "the meter", "2", "--labels", &names]);
    assert_eq!((e.status, e.out.as_str()), (0, "q 0 2 yes 2 0 1\n"));
    assert_eq!(drobisten(&["list", &index, "the meter", "--labels", &names]).out, "1\tset <A> & \"B\"\n2\trule\n");
    assert_eq!(drobisten(&["chain", &index, "the meter", "2", "--labels", &names]).out, "0 the meter -> 1 set <A> & \"B\" -> 2 rule\n");
    let e = drobisten(&["ask", &index, "0", "rule", "--labels", &names]);
    assert_eq!((e.status, e.said.as_str()), (3, "drobisten: 2 vertices have the label rule: give the number\n"));
    assert_eq!(drobisten(&["ask", &index, "0", "nobody", "--labels", &names]).status, 3);
    let windows = folder.with("windows", "the meter\r\n3\r\nrule\r\n");
    assert_eq!(drobisten(&["list", &index, "the meter", "--labels", &windows]).out, "1\t3\n2\trule\n");
    assert_eq!(drobisten(&["ask", &index, "3", "1", "--labels", &windows]).out, "q 3 1 no 3 0 0\n", "a number is a vertex, never a label");
    assert_eq!(drobisten(&["ask", &index, "0", "rule"]).status, 3);
}

#[test]
fn words_that_do_not_fit_end_with_3() {
    let folder = Folder::new("usage");
    let index = folder.with("index", image(&FORM_2, &Graph::new(2, &[(0, 1)]), &[vec![0, 1]]));
    let edges = folder.with("edges.mtx", matrix(&Graph::new(2, &[(0, 1)])));
    for words in [
        &[][..],
        &["sing"],
        &["check"],
        &["check", &index, "more"],
        &["check", &index, "--labels", "x"],
        &["ask", &index],
        &["ask", &index, "0"],
        &["ask", &index, "0", "1", "2"],
        &["ask", &index, "0", "4294967296"],
        &["ask", &index, "0", "-1"],
        &["ask", &index, "0", "1", "--pairs", &edges],
        &["ask", &index, "--pairs"],
        &["ask", &index, "--pairs", &edges],
        &["ask", &index, "0", "1", "--from-one", "--from-one"],
        &["build", &edges],
        &["build", &edges, "-o", "x", "--turned", "--hierarchy"],
        &["build", &edges, "-o", "x", "--seed", "1", "--orders", "y"],
        &["build", &edges, "-o", "x", "-d", "two"],
        &["build", &edges, "-o", "x", "--seed", "18446744073709551616"],
        &["convert", &index, "-o", "x"],
        &["convert", &index, "-o", "x", "--form", "3"],
    ] {
        let e = drobisten(words);
        assert_eq!((e.status, e.out.as_str()), (3, ""), "{words:?} {e:?}");
        assert!(!e.said.is_empty());
    }
    let usage = drobisten(&["--help"]);
    assert_eq!((usage.status, usage.said.as_str()), (0, ""));
    let page = fs::read_to_string(root().join("tool/drobisten.1")).unwrap().replace("\\-", "-").replace("\\fB", "").replace("\\fR", "");
    let commands = ["build", "check", "ask", "list", "upstream", "chain", "convert", "exceptions", "rules", "tidy", "draw"];
    for command in commands {
        let e = drobisten(&[command, "--help"]);
        assert_eq!((e.status, e.said.as_str()), (0, ""), "{command}");
        assert!(e.out.starts_with(&format!("drobisten {command} ")) && usage.out.contains(e.out.lines().next().unwrap()), "{command}");
        for option in e.out.split(|c: char| c.is_whitespace() || "[]|,;`".contains(c)).filter(|word| word.starts_with('-') && word.len() > 1) {
            assert!(page.contains(option), "the man page tells {option} of {command}");
        }
        assert_eq!(drobisten_behind("exec >/dev/full", &[command, "--help"]).status, 3, "{command}");
    }
    assert_eq!(usage.out.lines().filter(|line| line.starts_with("  drobisten ")).count(), commands.len());
    for (number, words) in [(4, ["-d", "6"]), (4, ["-d", "0"]), (11, ["--form", "7"])] {
        let e = drobisten(&[&["build", &edges, "-o", &folder.file("new")][..], &words].concat());
        assert_eq!(e.status, 2, "{e:?}");
        assert!(e.out.starts_with(&format!("refused {number} ")), "{e:?}");
    }
    assert_eq!(folder.names(), ["edges.mtx", "index"], "a refused build leaves nothing");
}

#[test]
fn files_that_are_not_there_or_cannot_be_written_end_with_3_and_leave_the_old() {
    let folder = Folder::new("files");
    let edges = folder.with("edges.mtx", matrix(&Graph::new(3000, &(0..2999).map(|v| (v, v + 1)).collect::<Vec<_>>())));
    let old = folder.with("index", "old");
    let here = folder.0.to_str().unwrap();
    for words in [&["check", "/no/such/file"][..], &["check", here], &["ask", "/no/such/file", "0", "0"], &["build", "/no/such/file", "-o", &old], &["build", here, "-o", &old], &["build", &edges, "-o", here],
        &["build", &edges, "-o", "/no/such/folder/index"], &["build", &edges, "-o", "/dev/full"], &["build", &edges, "-o", &old, "--orders", "/no/such/file"],
        &["check", "/proc/self/mem"], &["build", &edges, "-o", "-"], &["ask", "-", "--pairs", "-"]]
    {
        let e = drobisten(words);
        assert_eq!((e.status, e.out.as_str()), (3, ""), "{words:?} {e:?}");
    }
    refused(&drobisten(&["check", &folder.with("empty", "")]), Refusal { number: 10, extra: 0 });
    let e = drobisten(&["build", &folder.file("empty"), "-o", &old]);
    refused(&e, Refusal { number: 18, extra: 1 });
    let e = drobisten_behind("ulimit -f 16", &["build", &edges, "-o", &old]);
    assert_eq!((e.status, e.out.as_str()), (3, ""), "no room: {e:?}");
    let e = drobisten_behind("exec >/dev/full", &["check", &folder.with("good", image(&FORM_1, &Graph::new(1, &[]), &[vec![0]]))]);
    assert_eq!(e.status, 3, "{e:?}");
    assert_eq!(fs::read(&old).unwrap(), b"old");
    assert_eq!(folder.names(), ["edges.mtx", "empty", "good", "index"], "no stray file");
    assert_eq!(drobisten(&["build", &edges, "-o", &old]).status, 0);
    assert_ne!(fs::read(&old).unwrap(), b"old");
}

/// An output that is a link stays one, and what it names is written; a device is written straight; the rights of an old file stay.
#[test]
fn links_devices_and_rights_stay() {
    let folder = Folder::new("links");
    let edges = folder.with("edges.mtx", matrix(&Graph::new(2, &[(0, 1)])));
    let (index, link) = (folder.with("index", "old"), folder.file("link"));
    std::os::unix::fs::symlink(&index, &link).unwrap();
    fs::set_permissions(&index, fs::Permissions::from_mode(0o640)).unwrap();
    assert_eq!(drobisten(&["build", &edges, "-o", &link]).status, 0);
    assert!(fs::symlink_metadata(&link).unwrap().is_symlink());
    assert_eq!(fs::metadata(&index).unwrap().permissions().mode() & 0o777, 0o640);
    assert_eq!(drobisten(&["check", &index]).out, "form 2 n 2 k 2 c 1 d 2\n");
    let e = drobisten(&["draw", &index, "0", "1", "-o", "/dev/stdout"]);
    assert_eq!(e.status, 0);
    assert!(e.out.starts_with("<svg ") && e.out.ends_with("</svg>\n"));
    assert_eq!(folder.names(), ["edges.mtx", "index", "link"]);
}

/// 180,000 vertices and 1,000,000 edges once, beside the independent program; what takes over a second says what it is doing.
#[test]
fn the_bigger_region_once() {
    let (folder, mut chance) = (Folder::new("region"), Chance::new(319));
    let n = 180_000;
    let edges: Vec<(usize, usize)> = std::iter::repeat_with(|| (chance.below(n), chance.below(n))).filter(|(u, v)| u < v).take(1_000_000).collect();
    let graph = Graph::new(n, &edges);
    let (file, two, three) = (folder.with("edges.mtx", matrix(&graph)), folder.file("index"), folder.file("turned"));
    assert_eq!(drobisten(&["build", &file, "-o", &two, "-d", "2", "--seed", "7"]).status, 0);
    assert_eq!(drobisten(&["build", &file, "-o", &three, "-d", "1", "--seed", "7", "--turned"]).status, 0);
    let index = Index::of(&graph, &Chance::new(7).orders(n, 2));
    assert!(fs::read(&two).unwrap() == independent::stored::encode(&FORM_2, &index), "the index is the independent program's");
    assert!(fs::read(&three).unwrap() == image(&FORM_3, &graph.turned(), &Chance::new(7).orders(n, 1)), "the turned one too");
    let (mut pairs, mut lines) = (String::new(), String::new());
    for _ in 0..2000 {
        let (u, v) = (chance.below(n), chance.below(n));
        writeln!(pairs, "{u} {v}").unwrap();
        writeln!(lines, "q {u} {v} {}", index.question(u, v).answer).unwrap();
    }
    assert!(drobisten_given(&["ask", &two, "--pairs", "-"], &pairs).out == lines);
    assert!(drobisten(&["list", &two, "17"]).out == index.downstream(17).iter().map(|w| format!("{w}\n")).collect::<String>());
    let steps: Vec<String> = index.chain(17, 179_000).map_or(vec!["no".to_string()], |steps| steps.iter().map(|w| w.to_string()).collect());
    assert_eq!(drobisten(&["chain", &two, "17", "179000"]).out, format!("{}\n", steps.join(" ")));
    let above = drobisten(&["upstream", &three, "179000"]).out;
    assert_eq!(above.lines().any(|line| line == "17"), steps.len() > 1);

    let began = std::time::Instant::now();
    let e = drobisten_given(&["ask", &two, "--pairs", "-"], &pairs.repeat(75));
    let seconds = began.elapsed().as_secs_f64();
    assert_eq!((e.status, e.out.lines().count()), (0, 150_000));
    assert!(e.said == "drobisten: asking all pairs ..\n" || (e.said.is_empty() && seconds < 3.0), "{seconds} {}", e.said);
}

/// A line of 200,000 vertices, built, asked and chained on 256 KB of stack.
#[test]
fn the_longest_line_on_a_small_stack() {
    let folder = Folder::new("line");
    let n = 200_000;
    let edges = folder.with("edges.mtx", matrix(&Graph::new(n, &(1..n).map(|v| (v - 1, v)).collect::<Vec<_>>())));
    let index = folder.file("index");
    let small = |words: &[&str]| drobisten_behind("ulimit -s 256", words);
    assert_eq!(small(&["build", &edges, "-o", &index, "-d", "1"]).status, 0);
    let e = small(&["ask", &index, "0", "199999"]);
    assert_eq!((e.status, e.out.as_str()), (0, "q 0 199999 yes 2 0 1\n"));
    let e = small(&["chain", &index, "0", "199999"]);
    assert_eq!(e.status, 0);
    assert_eq!(e.out.split_whitespace().count(), n);
    assert_eq!(small(&["list", &index, "0"]).out.lines().count(), n - 1);
    assert_eq!(small(&["draw", &index, "0", "199999", "-o", &folder.file("line.svg")]).status, 0);
}

/// The boxes of a picture: the groups by name, the thick ones apart.
fn boxes(svg: &str) -> (Vec<usize>, Vec<usize>) {
    let mut all: Vec<(usize, bool)> = svg
        .match_indices("<g class=\"box")
        .map(|(at, found)| {
            let rest = &svg[at + found.len()..];
            let name = rest.split("<title>group ").nth(1).unwrap().split(':').next().unwrap();
            (name.parse().unwrap(), !rest.starts_with('1'))
        })
        .collect();
    all.sort();
    (all.iter().map(|b| b.0).collect(), all.iter().filter(|b| b.1).map(|b| b.0).collect())
}

/// Where the boxes of a picture stand.
fn corners(svg: &str) -> Vec<(i32, i32)> {
    let number = |text: &str, name: &str| text.split(&format!(" {name}=\"")).nth(1).unwrap().split('"').next().unwrap().parse().unwrap();
    svg.lines().filter(|line| line.starts_with("<g class=\"box") || line.starts_with("<g class=\"more")).map(|line| (number(line, "x"), number(line, "y"))).collect()
}

/// That every tag is closed where it must be, and that & and < stand for themselves nowhere.
fn well_formed(svg: &str) {
    let mut open = Vec::new();
    for piece in svg.split('<').skip(1) {
        let (tag, text) = piece.split_once('>').expect("a tag ends");
        let name = tag.split([' ', '/']).find(|word| !word.is_empty()).unwrap();
        if tag.starts_with('/') {
            assert_eq!(open.pop(), Some(name), "{svg}");
        } else if !tag.ends_with('/') {
            open.push(name);
        }
        assert_eq!(tag.matches('"').count() % 2, 0, "{tag}");
        assert!(text.split('&').skip(1).all(|rest| ["amp;", "lt;", "gt;", "quot;"].iter().any(|word| rest.starts_with(word))), "{text}");
    }
    assert!(open.is_empty() && !svg.starts_with('&'), "{open:?}");
}

/// The sample's index, its answers and its picture are those that docs/TOOL.md shows.
#[test]
fn the_samples_picture_is_the_stored_one() {
    let folder = Folder::new("sample");
    let (edges, names) = (root().join("examples/sample.mtx"), root().join("examples/sample.names"));
    let (edges, names) = (edges.to_str().unwrap(), names.to_str().unwrap());
    let here = |words: &[&str]| ended(Command::new(tool()).current_dir(&folder.0).args(words), b"");
    assert_eq!(here(&["build", edges, "-o", "sample.index"]).out, "built form 2 n 22 edges 28 d 2 bytes 1120 seed 0\n");
    assert_eq!(here(&["build", edges, "-o", "upstream.index", "--turned"]).out, "built form 3 n 22 edges 28 d 2 bytes 1120 seed 0\n");
    let (meter, rule) = ("meter 4711 north", "rule peak tariff");
    let page = fs::read_to_string(root().join("docs/TOOL.md")).unwrap();
    for words in [&["check", "sample.index"][..], &["ask", "sample.index", meter, rule, "--labels", names], &["ask", "sample.index", meter, "rule archive", "--labels", names],
        &["chain", "sample.index", meter, rule, "--labels", names], &["upstream", "upstream.index", "profile set homes", "--labels", names]]
    {
        let e = here(words);
        assert!(e.status < 2 && page.contains(e.out.trim_end()), "docs/TOOL.md shows {}", e.out);
    }
    let e = here(&["draw", "sample.index", meter, rule, "-o", "sample.svg", "--labels", names]);
    assert_eq!((e.status, e.out.as_str()), (0, ""));
    assert!(fs::read(folder.file("sample.svg")).unwrap() == fs::read(root().join("docs/sample.svg")).unwrap(), "docs/sample.svg");
}

/// A source before very many groups and a target behind them: all are drawn up to 150, in a picture that is no wider for them; over that they are counted.
#[test]
fn a_picture_of_many_groups_stays_narrow() {
    let folder = Folder::new("fan");
    for (n, drawn) in [(150, 150), (151, 3)] {
        let graph = Graph::new(n, &(1..n - 1).flat_map(|v| [(0, v), (v, n - 1)]).collect::<Vec<_>>());
        let index = folder.with("index", image(&FORM_2, &graph, &[(0..n).collect()]));
        let e = drobisten(&["draw", &index, "0", &(n - 1).to_string(), "-o", "/dev/stdout"]);
        assert_eq!((e.status, boxes(&e.out).0.len()), (0, drawn));
        assert_eq!(e.out.contains("+ 148 groups"), drawn == 3);
        let width: i32 = e.out.split("width=\"").nth(1).unwrap().split('"').next().unwrap().parse().unwrap();
        assert!(width < 1200, "{width}");
        well_formed(&e.out);
    }
}

#[test]
fn a_picture_has_the_groups_between_and_the_chain() {
    let (folder, mut chance) = (Folder::new("draw"), Chance::new(314));
    let picture = folder.file("picture.svg");
    for round in 0..84 {
        let n = chance.between(1, 24);
        let graph = chance.graph(Kind::ALL[round % Kind::ALL.len()], n);
        let index = Index::of(&graph, &chance.orders(n, 2));
        let file = folder.with("index", independent::stored::encode(if round % 2 == 0 { &FORM_1 } else { &FORM_2 }, &index));
        let (u, v) = (chance.below(n), chance.below(n));
        let asked = index.question(u, v);
        let e = drobisten(&["draw", &file, &u.to_string(), &v.to_string(), "-o", &picture]);
        assert_eq!(e.status, i32::from(!asked.answer.yes), "{e:?}");
        let svg = fs::read_to_string(&picture).unwrap();
        let (all, thick) = boxes(&svg);
        let mut places = corners(&svg);
        places.sort();
        places.dedup();
        assert_eq!(places.len(), all.len(), "each box has a place of its own");
        well_formed(&svg);
        let name = |w: usize| (0..n).find(|&m| index.question(m, w).answer.yes && index.question(w, m).answer.yes).unwrap();
        let mut expected: Vec<usize> = if asked.answer.yes { (0..n).filter(|&w| index.question(u, w).answer.yes && index.question(w, v).answer.yes).map(name).collect() } else { asked.opened.clone() };
        expected.extend([name(u), name(v)]);
        expected.sort();
        expected.dedup();
        assert_eq!(all, expected, "{graph:?} {u} {v}");
        let mut spine = index.chain(u, v).unwrap_or(vec![name(u), name(v)]);
        spine.sort();
        spine.dedup();
        assert_eq!(thick, spine, "{graph:?} {u} {v}");
        assert!(svg.contains(&format!("{u} feeds {v}: {}", if asked.answer.yes { "yes" } else { "no" })));
        let again = folder.file("again.svg");
        drobisten(&["draw", &file, &u.to_string(), &v.to_string(), "-o", &again]);
        assert_eq!(fs::read(&again).unwrap(), svg.as_bytes(), "the same input, the same bytes");
    }
    let graph = Graph::new(2, &[(0, 1)]);
    let index = folder.with("index", image(&FORM_1, &graph, &[vec![0, 1]]));
    let names = folder.with("names", b"a<b>&\"c\"\n\xff\x01\xc3\xa4\n");
    assert_eq!(drobisten(&["draw", &index, "0", "1", "-o", &picture, "--labels", &names]).status, 0);
    let svg = fs::read_to_string(&picture).expect("bytes that are no text are not written");
    assert!(svg.contains("a&lt;b&gt;&amp;&quot;c&quot; feeds ??\u{e4}: yes"));
    well_formed(&svg);
}
