//! Files converted from one form to the other: the library against the plain Rust implementation, and against itself, there and
//! back.

use crate::calls::{lent, length, number, Test};
use crate::differ;

type Library = fn(&[u8], &mut [u8]) -> Result<usize, tewhoranu::Refusal>;

/// A conversion: on both sides, to which form, and the library's way back.
struct Way {
    call: &'static str,
    library: Library,
    plain: fn(&[u8], &mut [u8]) -> Result<usize, u8>,
    to_new: bool,
    back: Library,
}

const WAYS: [Way; 2] = [
    Way {
        call: "to_old",
        library: tewhoranu::to_old,
        plain: plain::answers::to_old,
        to_new: false,
        back: tewhoranu::to_new,
    },
    Way {
        call: "to_new",
        library: tewhoranu::to_new,
        plain: plain::answers::to_new,
        to_new: true,
        back: tewhoranu::to_old,
    },
];

/// What the library writes into a buffer that serves every file.
fn output(call: Library, text: &[u8]) -> Result<Vec<u8>, tewhoranu::Refusal> {
    let mut out = vec![0; tewhoranu::TEXT];
    let n = call(text, &mut out)?;
    out.truncate(n);
    Ok(out)
}

/// The form of an accepted text.
fn form(text: &[u8]) -> u64 {
    let mut table = vec![0; tewhoranu::CELLS];
    tewhoranu::read(text, &mut table).expect("an accepted text");
    table[0]
}

/// A text with turns without their column.
fn without_column(text: &[u8]) -> Vec<u8> {
    let mut edges = false;
    let mut out = Vec::new();
    for line in text.split_inclusive(|&b| b == b'\n') {
        if line[0].is_ascii_lowercase() {
            edges = line == b"from label turn to\n";
        }
        let mut fields: Vec<&[u8]> = line.split(|&b| b == b' ').collect();
        if edges {
            fields.remove(2);
        }
        out.extend(fields.join(&b' '));
    }
    out
}

/// What the library's listing says of a query: `found` and `awaits`, then the rows, whatever the file's form; a long listing as
/// its refusal.
fn said(text: &[u8], query: usize) -> Result<(String, String), tewhoranu::Refusal> {
    let mut out = vec![0; tewhoranu::LISTING];
    let n = tewhoranu::listing(text, query, &mut out)?;
    let listing = String::from_utf8_lossy(&out[..n]);
    let lines: Vec<&str> = listing.splitn(3, '\n').collect();
    let values: Vec<&str> = lines[1].split(' ').collect();
    Ok((values[values.len() - 2..].join(" "), lines[2].to_string()))
}

impl Test {
    /// Both conversions of a text.
    pub fn conversions(&mut self, text: &[u8]) {
        for way in &WAYS {
            self.convert(way, text);
        }
    }

    /// A conversion of a text, and of what comes out of it.
    fn convert(&mut self, way: &Way, text: &[u8]) {
        let due = (way.plain)(text, &mut vec![0; tewhoranu::TEXT]).unwrap_or(300);
        let n = length(&mut self.rng, due, tewhoranu::TEXT);
        let memory = lent(&mut self.rng, n, |i| i as u8);
        self.same(way.call, text, memory, |m| (way.library)(text, m).map_err(number), |m| (way.plain)(text, m));
        if let Ok(made) = output(way.library, text) {
            self.there_and_back(way, text, &made);
        }
    }

    /// A text that is in the form already comes out as it is. Any other goes back to the same bytes, or, where it had a column
    /// of zero turns, to the text in the form with kinds, and each query of what comes out has the same entries, `found` and
    /// `awaits`.
    fn there_and_back(&mut self, way: &Way, text: &[u8], made: &[u8]) {
        let form = form(text);
        let was_new = form != tewhoranu::OLD_FORM;
        if was_new == way.to_new {
            if made != text {
                differ(way.call, text, "a text in this form already comes out as another".to_string());
            }
            self.tally.count("converted", format!("{} as it was", way.call));
            return;
        }
        let turned = form == tewhoranu::WITH_TURNS;
        let due = if turned { without_column(text) } else { text.to_vec() };
        if output(way.back, made) != Ok(due) {
            differ(way.call, text, format!("it does not come back from\n{}", String::from_utf8_lossy(made)));
        }
        for query in 0.. {
            let (before, after) = (said(text, query), said(made, query));
            if before != after {
                differ(way.call, text, format!("query {query} had {before:?} and has {after:?}"));
            }
            if before == Err(tewhoranu::Refusal::NoQuery) {
                break;
            }
        }
        let back = if turned { "without a column of 0" } else { "and back" };
        self.tally.count("converted", format!("{} {back}", way.call));
    }
}
