//! All answers and lent memory of the library in one number, so that two runs of this test, one over
//! the archive and one over the source, can be held to each other.

use std::collections::hash_map::DefaultHasher;
use std::fmt::Debug;
use std::hash::{Hash, Hasher};

#[derive(Default)]
pub struct Seen {
    calls: usize,
    sum: DefaultHasher,
}

impl Seen {
    /// A call's answer, and the memory that it was lent, as it left it.
    pub fn note<T: Debug, C: Hash>(&mut self, call: &str, answer: &T, memory: &[C]) {
        self.calls += 1;
        (call, format!("{answer:?}"), memory).hash(&mut self.sum);
    }

    pub fn told(&self) -> String {
        format!("{} calls, answers and memory {:016x}", self.calls, self.sum.finish())
    }
}
