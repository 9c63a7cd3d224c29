//! The trial programs over the library's modules: each prints, for its cases, what was written beside them by code of
//! another hand (tests/trials and tests/rules of the repository), or what an enumerator in the program itself finds.

include!("../../src/modules.rs");
include!("modules.rs");
include!("programs.rs");

mod check;
mod io;

use std::fs;
use std::path::Path;
use std::thread;

/// Stack for a program, in bytes: what serves every call, and more for the program's own memory.
const STACK: usize = 4 * ::tewhoranu::STACK;

/// Runs a program on its input, if it has one, and compares what it prints, line by line.
fn prints_what_is_due(name: &str, program: fn()) {
    let folder = Path::new(env!("CARGO_MANIFEST_DIR")).join("tests/trials");
    let input = fs::read(folder.join(format!("{name}.stdin"))).unwrap_or_default();
    let due = fs::read(folder.join(format!("{name}.stdout"))).expect("the output due");
    let run = move || {
        io::lend(input);
        program();
        io::printed()
    };
    let printed = thread::Builder::new().stack_size(STACK).spawn(run).expect("a thread").join();
    let printed = printed.expect("a program that ends");
    for (line, (printed, due)) in printed.split(|&b| b == b'\n').zip(due.split(|&b| b == b'\n')).enumerate() {
        assert!(
            printed == due,
            "{name}, line {}:\n{}\nand not\n{}",
            line + 1,
            String::from_utf8_lossy(printed),
            String::from_utf8_lossy(due)
        );
    }
    assert_eq!(printed.len(), due.len(), "{name}: the length of what is printed");
}

#[test]
fn every_program_prints_what_is_due() {
    thread::scope(|scope| {
        for (name, program) in PROGRAMS {
            scope.spawn(move || prints_what_is_due(name, program));
        }
    });
}
