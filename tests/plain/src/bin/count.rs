//! `count QUERY`: how many lawful beginnings a query of the gym file on standard input has, or the
//! refusal, as `gym count QUERY` prints it.

use std::io::{self, Read};

fn main() -> io::Result<()> {
    let query = std::env::args().nth(1).and_then(|a| a.parse().ok());
    let mut text = Vec::new();
    // One byte past the longest file is enough to refuse it.
    io::stdin()
        .lock()
        .take(plain::gym::LONGEST as u64 + 1)
        .read_to_end(&mut text)?;
    match plain::answers::beginnings(&text, query.expect("a query's number")) {
        Ok(count) => println!("{count}"),
        Err(number) => println!("refused {number}"),
    }
    Ok(())
}
