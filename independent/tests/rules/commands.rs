//! The commands of the program, run as programs.

use std::io::Write;
use std::path::PathBuf;
use std::process::{Command, Stdio};

const TEXT: &str = "v 4\ne 0 1\ne 0 2\ne 3 1\no 0 1 2 3\nq 3 2\nq 9 0\n";

/// What the program prints for these words and this input, and its exit code.
fn run(words: &[&str], input: &str) -> (String, i32) {
    let mut child = Command::new(env!("CARGO_BIN_EXE_independent"))
        .args(words)
        .stdin(Stdio::piped())
        .stdout(Stdio::piped())
        .stderr(Stdio::null())
        .spawn()
        .unwrap();
    let mut stdin = child.stdin.take().unwrap();
    let bytes = input.as_bytes().to_vec();
    // The program may end before it has read all of a text that is too long.
    let writer = std::thread::spawn(move || stdin.write_all(&bytes).is_ok());
    let output = child.wait_with_output().unwrap();
    writer.join().unwrap();
    (String::from_utf8(output.stdout).unwrap(), output.status.code().unwrap())
}

/// A file of this name that no other test uses.
fn file(name: &str) -> PathBuf {
    PathBuf::from(env!("CARGO_TARGET_TMPDIR")).join(name)
}

#[test]
fn text_answers_on_standard_output() {
    let answered = "q 3 2 no 6 1 0\nq 9 0 refused 14 0\n";
    assert_eq!(run(&["text"], TEXT), (answered.into(), 0));
    assert_eq!(run(&["text"], ""), ("refused 17 1\n".into(), 0));
    let long = "x".repeat(200_000);
    assert_eq!(run(&["text"], &long), ("refused 17 0\n".into(), 0));
}

#[test]
fn index_writes_what_ask_and_list_read() {
    let path = file("h.index");
    let path = path.to_str().unwrap();
    assert_eq!(run(&["index", path], TEXT), (String::new(), 0));
    assert_eq!(std::fs::read(path).unwrap().len(), 120);
    assert_eq!(run(&["ask", path, "3", "2"], ""), ("q 3 2 no 6 1 0\n".into(), 0));
    assert_eq!(run(&["ask", path, "3", "4"], ""), ("refused 14 1\n".into(), 1));
    assert_eq!(run(&["list", path, "0"], ""), ("1\n2\n".into(), 0));
    assert_eq!(run(&["list", path, "4"], ""), ("refused 14 0\n".into(), 1));
}

#[test]
fn index_writes_form_2_where_it_is_asked_for() {
    let path = file("h2.index");
    let path = path.to_str().unwrap();
    assert_eq!(run(&["index", path, "2"], TEXT), (String::new(), 0));
    assert_eq!(std::fs::read(path).unwrap().len(), 192);
    assert_eq!(run(&["ask", path, "3", "2"], ""), ("q 3 2 no 6 1 0\n".into(), 0));
    assert_eq!(run(&["list", path, "0"], ""), ("1\n2\n".into(), 0));
}

#[test]
fn index_refuses_as_the_text_program_does() {
    let path = file("none.index");
    let path = path.to_str().unwrap();
    assert_eq!(run(&["index", path], "v 1\n"), ("refused 4 0\n".into(), 1));
    assert_eq!(run(&["index", path], "v 1"), ("refused 17 1\n".into(), 1));
    assert!(std::fs::read(path).is_err());
}

#[test]
fn damaged_files_are_refused() {
    let path = file("damaged.index");
    std::fs::write(&path, [1; 47]).unwrap();
    let path = path.to_str().unwrap();
    assert_eq!(run(&["ask", path, "0", "0"], ""), ("refused 10 0\n".into(), 1));
    assert_eq!(run(&["list", path, "0"], ""), ("refused 10 0\n".into(), 1));
}

#[test]
fn other_words_get_the_usage() {
    for words in [
        &[][..],
        &["nothing"],
        &["ask", "x", "1"],
        &["list", "x", "y"],
        &["index", "x", "3"],
        &["text", "x"],
    ] {
        assert_eq!(run(words, ""), (String::new(), 2));
    }
}
