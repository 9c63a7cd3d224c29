//! How many lawful beginnings a query follows (02, K11): paths from its start, that of no step too,
//! that the automaton can still accept some continuation of and none of whose steps is cut.

use super::{bit, Search};
use crate::gym::Edge;
use std::collections::HashMap;

/// What is given for any greater number too.
pub const MOST: u64 = 1_000_000_000;

/// How many places are kept: some 100 MB.
const KEPT: usize = 1 << 21;

/// A place by what can be behind it: the scopes off the path that are reached from it without the
/// path's, its scope and its state. Its value is the number of beginnings at and behind it, at most
/// `MOST`.
type Kept = HashMap<(u64, u8, u8), u64>;

impl Search<'_> {
    /// The number of lawful beginnings, at most `MOST`.
    pub fn beginnings(&self) -> u64 {
        if !self.leads_on(0) {
            return 0;
        }
        let mut leading = [0; 64];
        for edge in &self.rules.gym.edges {
            leading[edge.from as usize] |= bit(edge.to);
        }
        self.beginnings_from(self.start, 0, !bit(self.start), &leading, &mut Kept::new())
    }

    fn leads_on(&self, state: u8) -> bool {
        self.rules.hopeful >> state & 1 == 1
    }

    /// The state behind an edge that a beginning may go on by, cut or not.
    fn begin(&self, edge: &Edge, state: u8, free: u64) -> Option<u8> {
        let next = self.rules.next[state as usize][edge.label as usize];
        (next != super::NONE && free & bit(edge.to) != 0 && self.leads_on(next)).then_some(next)
    }

    /// The beginnings at and behind a place, which leads on; `free` are the scopes off the path.
    fn beginnings_from(
        &self,
        at: u8,
        state: u8,
        free: u64,
        leading: &[u64; 64],
        kept: &mut Kept,
    ) -> u64 {
        let near = reached_in(at, free, leading);
        if let Some(&known) = kept.get(&(near, at, state)) {
            return known;
        }
        let edges = self.rules.leaving(at);
        let ends = edges
            .iter()
            .filter(|edge| self.begin(edge, state, near).is_some())
            .fold(0, |ends, edge| ends | 1 << (edge.label + 1));
        let cut = self.cuts(at, state, !near, &self.live, ends);
        let turns = if self.rules.turned {
            self.turns(at, state, !near, &self.live, ends & !cut)
        } else {
            [0; 8]
        };
        let mut count = 1;
        for (edge, &turn) in edges.iter().zip(self.rules.turns_leaving(at)) {
            if cut >> (edge.label + 1) & 1 == 1 || turn < turns[edge.label as usize] {
                continue;
            }
            if let Some(next) = self.begin(edge, state, near) {
                let free = near & !bit(edge.to);
                count += self.beginnings_from(edge.to, next, free, leading, kept);
            }
            if count >= MOST {
                count = MOST;
                break;
            }
        }
        if kept.len() == KEPT {
            kept.clear();
        }
        kept.insert((near, at, state), count);
        count
    }
}

/// The free scopes that are reached from a scope through free ones.
fn reached_in(at: u8, free: u64, leading: &[u64; 64]) -> u64 {
    let mut reached = 0;
    let mut todo = leading[at as usize] & free;
    while todo != 0 {
        let scope = todo.trailing_zeros();
        reached |= 1 << scope;
        todo = (todo | leading[scope as usize]) & free & !reached;
    }
    reached
}
