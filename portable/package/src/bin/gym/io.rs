//! Standard input and output, as the program asks for them, and the exit status that its output tells.

use std::io::{stderr, stdin, stdout, Error, ErrorKind, Read, Write};
use std::sync::atomic::{AtomicU8, Ordering};

const STDERR: i32 = 2;

pub const REFUSED: u8 = 1;
pub const USAGE: u8 = 2;
pub const FAILED: u8 = 3;

/// The highest of what was noted.
static STATUS: AtomicU8 = AtomicU8::new(0);

pub fn note(status: u8) {
    STATUS.fetch_max(status, Ordering::Relaxed);
}

/// The exit status, when all is written.
pub fn status() -> u8 {
    if stdout().flush().is_err() {
        note(FAILED);
    }
    STATUS.load(Ordering::Relaxed)
}

/// Writes a piece to standard output, or to standard error, which gets the usage text or what failed. A refusal is a
/// piece that begins with the word: no file, listing, summary, standing, comparison, count or list does.
pub fn write_all(descriptor: i32, piece: &[u8]) -> bool {
    let done = if descriptor == STDERR {
        note(if piece.starts_with(b"usage: ") { USAGE } else { FAILED });
        stderr().write_all(piece)
    } else {
        if piece.starts_with(b"refused ") {
            note(REFUSED);
        }
        stdout().write_all(piece)
    };
    if done.is_err() {
        note(FAILED);
    }
    done.is_ok()
}

/// Reads standard input until the buffer is full, the input ends or a read fails; how many bytes that is. What failed is said
/// here: the program has no words for it.
pub fn read_full(_descriptor: i32, buffer: &mut [u8]) -> usize {
    let mut size = 0;
    while size < buffer.len() {
        match stdin().read(&mut buffer[size..]) {
            Ok(0) => break,
            Ok(n) => size += n,
            Err(error) if error.kind() == ErrorKind::Interrupted => {}
            Err(error) => {
                fail(b"gym", &error);
                break;
            }
        }
    }
    size
}

/// Says on standard error what failed, and why.
pub fn fail(what: &[u8], error: &Error) {
    note(FAILED);
    let said = error.to_string();
    // without the number, as the C library says it
    let why = said.split(" (os error").next().unwrap_or_default();
    let _ = stderr().write_all(&[what, b": ", why.as_bytes(), b"\n"].concat());
}
