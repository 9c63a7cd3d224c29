//! The program on the example: what it prints and its exit status.

use std::fs;
use std::io::Write;
use std::path::Path;
use std::process::{Command, Output, Stdio};

fn gym(words: &[&str], file: &[u8]) -> Output {
    let mut program = Command::new(env!("CARGO_BIN_EXE_gym"))
        .args(words)
        .stdin(Stdio::piped())
        .stdout(Stdio::piped())
        .stderr(Stdio::piped())
        .spawn()
        .expect("the program");
    // the usage text is printed without looking at the file
    let _ = program.stdin.take().expect("piped").write_all(file);
    program.wait_with_output().expect("a program that ends")
}

fn example(part: &str) -> Vec<u8> {
    fs::read(Path::new(env!("CARGO_MANIFEST_DIR")).join("tests").join(part)).expect("the example")
}

#[test]
fn lists_the_example() {
    let run = gym(&["list"], &example("example.stdin"));
    assert_eq!(String::from_utf8_lossy(&run.stdout), String::from_utf8_lossy(&example("example.stdout")));
    assert_eq!((run.status.code(), run.stderr.len()), (Some(0), 0));
}

#[test]
fn a_refusal_is_1() {
    let run = gym(&["list"], b"no gym file\n");
    assert_eq!((&run.stdout[..], run.status.code(), run.stderr.len()), (&b"refused 2\n"[..], Some(1), 0));
}

#[test]
fn a_file_that_is_missing_is_3() {
    let run = gym(&["undot", "no such file"], &example("example.stdin"));
    assert_eq!((run.status.code(), run.stdout.len()), (Some(3), 0));
    assert!(run.stderr.starts_with(b"no such file: "));
}

#[test]
fn other_words_are_2() {
    let run = gym(&["listen"], b"");
    assert_eq!((run.status.code(), run.stdout.len()), (Some(2), 0));
    assert!(run.stderr.starts_with(b"usage: gym "));
}
