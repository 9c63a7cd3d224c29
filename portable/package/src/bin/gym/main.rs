//! `gym WORD [ARGUMENT..] < FILE`: answers a question about a gym file. `gym` alone prints the words.
//!
//! The words, what they ask for and what is said are the proved program's own (the modules `gym` and `printing`). Here
//! stands what it asks of the machine, over std, and the exit status: 0 if all was answered, 1 if a line `refused N`
//! was printed, 2 for words that ask for nothing, 3 if reading or writing failed, that of a second file too.

#![forbid(unsafe_code)]

include!("../../modules.rs");
include!("modules.rs");

mod io;
mod kit;

use std::process::ExitCode;
use std::thread;

/// Stack for the program, in bytes, also where a main thread has less: what serves every call, and as much for the
/// program's own memory.
const STACK: usize = 2 * ::tewhoranu::STACK;

fn main() -> ExitCode {
    let program = thread::Builder::new().stack_size(STACK).spawn(gym::main);
    match program.map(thread::JoinHandle::join) {
        Ok(Ok(())) => ExitCode::from(io::status()),
        // a panic has already said what is wrong
        Ok(Err(_)) => ExitCode::from(io::FAILED),
        Err(error) => {
            eprintln!("gym: {error}");
            ExitCode::from(io::FAILED)
        }
    }
}
