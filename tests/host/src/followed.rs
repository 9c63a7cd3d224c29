//! The listing with its number of lawful beginnings, against the plain Rust implementation: through
//! the wrapper, and by the archive's own call, since the wrapper does not show what a refusal leaves.
//! (No one outside can make that call of the source.)

use crate::calls::{length, lent, number, Test};
use crate::differ;

#[cfg(not(feature = "source"))]
extern "C" {
    fn tewhoranu_listing_counted(
        text: *const u8,
        text_length: usize,
        query: usize,
        out: *mut u8,
        out_length: usize,
        followed: *mut u64,
    ) -> u64;
}

/// The number's name in the tally.
fn size(followed: u64) -> &'static str {
    match followed {
        0 => "none",
        1 => "one",
        tewhoranu::FOLLOWED => "the most",
        _ => "some",
    }
}

/// The archive's call, with so much lent: the answer, the memory and the number that are due.
#[cfg(not(feature = "source"))]
fn archive_leaves(text: &[u8], query: usize, mut ours: Vec<u8>, due: (&[u8], Result<(usize, u64), u8>)) {
    let before = ours.len() as u64 % 5;
    let mut followed = before;
    // SAFETY: the pointers and lengths are those of slices and of a number, apart from each other.
    let answer = unsafe {
        tewhoranu_listing_counted(text.as_ptr(), text.len(), query, ours.as_mut_ptr(), ours.len(), &mut followed)
    };
    let number = match due.1 {
        Ok((n, count)) => (64 + n as u64, count),
        Err(number) => (u64::from(number), before),
    };
    if (answer, followed) != number || ours != due.0 {
        differ("listing_counted", text, format!("{answer} with {followed} and not {number:?} for query {query}"));
    }
}

impl Test {
    /// A listing with its number: the same answer, memory and number by both ways, the number left
    /// where the listing is refused.
    pub fn followed(&mut self, text: &[u8], query: usize) {
        let due = plain::answers::listing(text, query, &mut vec![0; tewhoranu::LISTING]);
        let n = length(&mut self.rng, due.unwrap_or(60), 2000);
        let memory = lent(&mut self.rng, n, |i| i as u8);
        let mut out = memory.clone();
        let theirs = plain::answers::listing(text, query, &mut out);
        let count = theirs.and_then(|n| plain::answers::beginnings(text, query).map(|count| (n, count)));

        let mut ours = memory.clone();
        let answer = tewhoranu::listing_counted(text, query, &mut ours).map_err(number);
        self.seen.note("listing_counted", &answer, &ours);
        if answer != count || ours != out {
            differ("listing_counted", text, format!("{answer:?} and not {count:?} for query {query}, with {n} lent"));
        }
        #[cfg(not(feature = "source"))]
        archive_leaves(text, query, memory, (&out, count));
        match count {
            Ok((_, count)) => {
                self.tally.count("listing_counted", "written".to_string());
                self.tally.count("followed", size(count).to_string());
            }
            Err(number) => self.tally.count("listing_counted", format!("refused {number}")),
        }
    }
}
