//! Prints all listings of the gym file on standard input, and the summary, as `resolve` does.

use std::io::{self, Read, Write};

fn main() -> io::Result<()> {
    let mut text = Vec::new();
    // One byte past the longest file is enough to refuse it.
    io::stdin()
        .lock()
        .take(plain::gym::LONGEST as u64 + 1)
        .read_to_end(&mut text)?;
    io::stdout()
        .lock()
        .write_all(&plain::answers::program(&text))
}
