//! Who sees a declaration: against the plain Rust implementation with lent memory of every length
//! about the due one, and against the enumerator on small gyms.

use crate::calls::{length, lent, number, Test};
use crate::differ;
use plain::enumerate::readers;
use plain::gym::Gym;

/// How many of a small gym's declarations are seen from so many scopes must be met.
pub const DUE: (&str, &[&str]) = ("seen from", &["0", "1", "2", "3", "4"]);

impl Test {
    /// One place, on both sides.
    pub fn readers(&mut self, text: &[u8], place: usize) {
        let due = plain::answers::readers(text, place, &mut [0; tewhoranu::READERS]).unwrap_or(10);
        let n = length(&mut self.rng, due, 250);
        let memory = lent(&mut self.rng, n, |i| i as u8);
        self.same(
            "readers",
            text,
            memory,
            |m| tewhoranu::readers(text, place, m).map_err(number),
            |m| plain::answers::readers(text, place, m),
        );
    }

    /// The first and the last place, some between, and some past the rows.
    pub fn readers_of(&mut self, text: &[u8], rows: usize) {
        let mut places = vec![0, rows.saturating_sub(1), rows, rows + 1, usize::MAX];
        places.extend((0..3).map(|_| self.rng.below(rows + 1)));
        for place in places {
            self.readers(text, place);
        }
    }

    /// Every declaration of a small gym, held to the enumerator and counted by its readers.
    pub fn read_from(&mut self, text: &[u8], gym: &Gym) {
        for place in 0..gym.declarations.len() {
            let due = readers(gym, place);
            let mut out = [0; tewhoranu::READERS];
            let got = tewhoranu::readers(text, place, &mut out).map_err(number);
            self.seen.note("readers", &got, &out);
            if got != Ok(due.len()) || out[..due.len()] != due[..] {
                let (out, due) = (String::from_utf8_lossy(&out), String::from_utf8_lossy(&due));
                differ("readers", text, format!("{got:?}, {out} and not {due} for place {place}"));
            }
            self.tally.count("seen from", (due.iter().filter(|&&b| b == b'\n').count() - 1).to_string());
        }
    }
}
