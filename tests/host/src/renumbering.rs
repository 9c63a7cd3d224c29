//! Scopes numbered for storage, and the way back: against the plain Rust implementation with lent
//! memory of every length about the due one, and against the enumerator on small gyms. Both buffers of a
//! renumbering are compared as one memory.

use crate::calls::{length, lent, number, Test};
use crate::differ;
use plain::enumerate::{is_breadth_first, same_under};
use plain::gym::Gym;
use plain::random::{damage, was_list};

#[cfg(not(feature = "source"))]
extern "C" {
    fn tewhoranu_renumber(
        text: *const u8,
        text_length: usize,
        out: *mut u8,
        out_length: usize,
        list: *mut u8,
        list_length: usize,
        listed: *mut u64,
    ) -> u64;
}

/// Small gyms that are renumbered: each of these must be met.
pub const DUE: (&str, &[&str]) = ("renumbered", &["as it was", "other numbers", "other numbers, some unmet"]);

/// What the library writes into buffers that serve every file and list.
fn output(text: &[u8]) -> Result<(Vec<u8>, Vec<u8>), tewhoranu::Refusal> {
    let (mut out, mut list) = (vec![0; tewhoranu::TEXT], vec![0; tewhoranu::WAS]);
    let (n, m) = tewhoranu::renumber(text, &mut out, &mut list)?;
    out.truncate(n);
    list.truncate(m);
    Ok((out, list))
}

fn goes_back(text: &[u8], was: &[u8]) -> Result<Vec<u8>, tewhoranu::Refusal> {
    let mut out = vec![0; tewhoranu::TEXT];
    let n = tewhoranu::back(text, was, &mut out)?;
    out.truncate(n);
    Ok(out)
}

/// The scopes of a list that the library wrote.
fn scopes(list: &[u8]) -> Vec<usize> {
    let lines = list.split(|&b| b == b'\n').skip(1).filter(|line| !line.is_empty());
    lines.map(|line| String::from_utf8_lossy(line).parse().expect("a scope")).collect()
}

/// The archive's own call, since the wrapper does not show what a refusal leaves in the number for the
/// list. (No one outside can make that call of the source.)
#[cfg(not(feature = "source"))]
fn archive_leaves(text: &[u8], mut memory: Vec<u8>, split: usize, due: Result<(usize, usize), u8>) {
    let (out, list) = memory.split_at_mut(split);
    let before = out.len() as u64 % 5;
    let mut listed = before;
    // SAFETY: the pointers and lengths are those of slices and of a number, apart from each other.
    let answer = unsafe {
        tewhoranu_renumber(
            text.as_ptr(),
            text.len(),
            out.as_mut_ptr(),
            out.len(),
            list.as_mut_ptr(),
            list.len(),
            &mut listed,
        )
    };
    let number = match due {
        Ok((n, m)) => (64 + n as u64, m as u64),
        Err(number) => (u64::from(number), before),
    };
    if (answer, listed) != number {
        differ("renumber", text, format!("{answer} with {listed} and not {number:?}"));
    }
}

impl Test {
    /// A text renumbered on both sides. The sizes of both outputs are one number for `same`, so that
    /// they are told as what was written.
    fn renumber(&mut self, text: &[u8]) {
        let due = plain::renumbering::renumbered(text).map(|(file, list)| (file.len(), list.len()));
        let (n, m) = due.unwrap_or((60, 20));
        let split = length(&mut self.rng, n, tewhoranu::TEXT);
        let lines = length(&mut self.rng, m, 300);
        let memory = lent(&mut self.rng, split + lines, |i| i as u8);
        #[cfg(not(feature = "source"))]
        archive_leaves(
            text,
            memory.clone(),
            split,
            due.and_then(|(n, m)| if n <= split && m <= lines { Ok((n, m)) } else { Err(9) }),
        );
        let one = |(n, m): (usize, usize)| n * 1000 + m;
        self.same(
            "renumber",
            text,
            memory,
            |memory| {
                let (out, list) = memory.split_at_mut(split);
                tewhoranu::renumber(text, out, list).map(one).map_err(number)
            },
            |memory| {
                let (out, list) = memory.split_at_mut(split);
                plain::answers::renumber(text, out, list).map(one)
            },
        );
    }

    fn back(&mut self, text: &[u8], was: &[u8]) {
        let due = plain::answers::back(text, was, &mut vec![0; tewhoranu::TEXT]).unwrap_or(60);
        let n = length(&mut self.rng, due, tewhoranu::TEXT);
        let memory = lent(&mut self.rng, n, |i| i as u8);
        self.same(
            "back",
            text,
            memory,
            |m| tewhoranu::back(text, was, m).map_err(number),
            |m| plain::answers::back(text, was, m),
        );
    }

    /// A text renumbered, and back by any list with each scope once, by one with a fault, and by its own.
    pub fn numbering(&mut self, text: &[u8], scopes: usize) {
        self.renumber(text);
        let any = was_list(&mut self.rng, scopes);
        self.back(text, &any);
        let faulty = damage(&mut self.rng, &any);
        self.back(text, &faulty);
        if let Ok((made, list)) = output(text) {
            self.back(&made, &list);
            if goes_back(&made, &list).as_deref() != Ok(text) {
                differ("back", text, format!("it does not come back from\n{}", String::from_utf8_lossy(&made)));
            }
        }
    }

    /// A small gym renumbered: the list is the breadth-first one, and each query has the same answers
    /// under it, both by the enumerator.
    pub fn renumbered(&mut self, text: &[u8], gym: &Gym) {
        let (made, list) = output(text).expect("an accepted file");
        self.seen.note("renumber", &list, &made);
        let was = scopes(&list);
        let new = Gym::parse(&made).unwrap_or_else(|n| differ("renumber", text, format!("refused {n} when read")));
        if !is_breadth_first(gym, &was) || !same_under(&was, gym, &new) {
            let made = String::from_utf8_lossy(&made);
            differ("renumber", text, format!("the list {was:?} or the file\n{made}"));
        }
        let is_met = |&s: &usize| s == was[0] || gym.edges.iter().any(|e| e.to as usize == s);
        let what = match (was.windows(2).all(|s| s[0] < s[1]), was.iter().all(is_met)) {
            (true, _) => "as it was",
            (_, true) => "other numbers",
            _ => "other numbers, some unmet",
        };
        self.tally.count("renumbered", what.to_string());
    }
}
