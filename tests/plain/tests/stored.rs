//! The stored trials: this implementation must give the answers that the trials' own reference
//! gave, on every case.

use std::fs::{read, File};
use std::process::Command;

#[test]
fn stored_trials() {
    let stored = concat!(env!("CARGO_MANIFEST_DIR"), "/../../crates/trials/");
    let cases = File::open(format!("{stored}stdin")).expect("the cases");
    let due = read(format!("{stored}stdout")).expect("what is due");
    let run = Command::new(env!("CARGO_BIN_EXE_cases"))
        .stdin(cases)
        .output()
        .expect("a run");
    let lines = |text: &[u8]| {
        text.split(|&b| b == b'\n')
            .map(<[u8]>::to_vec)
            .collect::<Vec<_>>()
    };
    for (got, due) in lines(&run.stdout).iter().zip(&lines(&due)) {
        assert_eq!(String::from_utf8_lossy(got), String::from_utf8_lossy(due));
    }
    assert_eq!(run.stdout.len(), due.len());
}
