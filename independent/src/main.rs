//! The commands of the independent program; all rules are in the library.

use independent::bounds::TEXT_MOST_BYTES;
use independent::text::{read_text, text_index};
use independent::{ask, list, run_text, Counts, Form, Refusal, FORM_1, ORDINARY};
use std::io::{Read, Write};
use std::process::ExitCode;

const USAGE: &str = "\
usage: independent text              questions on standard input, answers on standard output
       independent index OUT [FORM]  a text on standard input, its stored index to the file OUT; form 1 unless told
       independent ask INDEX u v     one question of the stored index in the file INDEX
       independent list INDEX u      the downstream list of u, from the file INDEX";

/// Why a command ends without its result.
enum Failure {
    Usage,
    Refused(Refusal),
    File(std::io::Error),
}

impl From<Refusal> for Failure {
    fn from(refusal: Refusal) -> Failure {
        Failure::Refused(refusal)
    }
}

impl From<std::io::Error> for Failure {
    fn from(error: std::io::Error) -> Failure {
        Failure::File(error)
    }
}

fn main() -> ExitCode {
    let arguments: Vec<String> = std::env::args().skip(1).collect();
    match run(&arguments) {
        Ok(()) => ExitCode::SUCCESS,
        Err(Failure::Refused(refusal)) => {
            println!("{refusal}");
            ExitCode::from(1)
        }
        Err(Failure::Usage) => {
            eprintln!("{USAGE}");
            ExitCode::from(2)
        }
        Err(Failure::File(error)) => {
            eprintln!("{error}");
            ExitCode::from(2)
        }
    }
}

fn run(arguments: &[String]) -> Result<(), Failure> {
    let words: Vec<&str> = arguments.iter().map(String::as_str).collect();
    match words[..] {
        ["text"] => std::io::stdout().write_all(&run_text(&input()?))?,
        ["index", out] => write_index(out, &FORM_1)?,
        ["index", out, number] => {
            let number = number.parse().map_err(|_| Failure::Usage)?;
            write_index(out, &Form::among(&ORDINARY, number).ok_or(Failure::Usage)?)?;
        }
        ["ask", file, source, target] => {
            let (source, target) = (vertex(source)?, vertex(target)?);
            let index = std::fs::read(file)?;
            let (mut marks, mut words) = lent(&index);
            let answer = ask(&index, source, target, &mut marks, &mut words)?;
            println!("q {source} {target} {answer}");
        }
        ["list", file, u] => {
            let u = vertex(u)?;
            let index = std::fs::read(file)?;
            let (mut marks, mut words) = lent(&index);
            let mut out = vec![0; marks.len()];
            let count = list(&index, u, &mut marks, &mut words, &mut out)?;
            for vertex in &out[..count as usize] {
                println!("{vertex}");
            }
        }
        _ => return Err(Failure::Usage),
    }
    Ok(())
}

/// The index of the text on standard input, in this form, to a file.
fn write_index(out: &str, form: &Form) -> Result<(), Failure> {
    let bytes = text_index(form, &read_text(&input()?)?)?;
    Ok(std::fs::write(out, bytes)?)
}

/// Standard input, as far as it takes to see that it is too long.
fn input() -> Result<Vec<u8>, Failure> {
    let mut bytes = Vec::new();
    let most = TEXT_MOST_BYTES as u64 + 1;
    std::io::stdin().take(most).read_to_end(&mut bytes)?;
    Ok(bytes)
}

fn vertex(word: &str) -> Result<u32, Failure> {
    word.parse().map_err(|_| Failure::Usage)
}

/// Marks and words for this index, as many as it needs.
fn lent(index: &[u8]) -> (Vec<u8>, Vec<u32>) {
    let read = Counts::read(index, &ORDINARY);
    read.map_or_else(
        |_| (Vec::new(), Vec::new()),
        |(form, counts)| (vec![0; counts.n], vec![0; form.words_needed(&counts)]),
    )
}
