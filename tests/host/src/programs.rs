//! The C example and the program, run on files, against the plain Rust implementation.

use crate::differ;
use std::io::Write;
use std::process::{Command, Output, Stdio};
use tewhoranu::Refusal;

pub struct Program<'a> {
    pub name: &'a str,
    /// Does it say on standard error in words what it refused, as the C example does?
    pub words: bool,
}

fn run(program: &str, text: &[u8]) -> Output {
    let mut child = Command::new(program)
        .stdin(Stdio::piped())
        .stdout(Stdio::piped())
        .stderr(Stdio::piped())
        .spawn()
        .unwrap_or_else(|e| panic!("{program}: {e}"));
    // a program that refuses a file may stop reading it
    let _ = child.stdin.take().expect("piped").write_all(text);
    let output = child.wait_with_output().expect("a program that was started ends");
    if !output.status.success() {
        differ(program, text, format!("it ends with {}", output.status));
    }
    output
}

/// A refusal as a program says it in words, those of the Rust wrapper.
fn said(refusal: Refusal) -> String {
    format!("refused {}: {refusal}\n", refusal.number())
}

/// Every refusal that the wrapper has a name for.
fn refusals() -> impl Iterator<Item = Refusal> {
    (1..64).map(Refusal::of).filter(|r| !matches!(r, Refusal::Unknown(_)))
}

/// Every refusal in words.
pub fn words() -> String {
    refusals().map(said).collect()
}

/// The words that are due for an output: for each line `refused N`.
fn in_words(output: &[u8]) -> Vec<u8> {
    let refusal = |line: &[u8]| refusals().find(|r| line == format!("refused {}", r.number()).as_bytes());
    output.split(|&b| b == b'\n').filter_map(refusal).map(said).collect::<String>().into_bytes()
}

/// Each program on one text.
pub fn print_the_same(programs: &[Program], text: &[u8]) {
    let due = plain::answers::program(text);
    for program in programs {
        let words = if program.words { in_words(&due) } else { Vec::new() };
        let output = run(program.name, text);
        for (out, due) in [(output.stdout, &due), (output.stderr, &words)] {
            if out != *due {
                let (out, due) = (String::from_utf8_lossy(&out), String::from_utf8_lossy(due));
                differ(program.name, text, format!("it prints\n{out}and not\n{due}"));
            }
        }
    }
}
