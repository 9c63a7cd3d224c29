//! The library, through its Rust wrapper, against the plain Rust implementation, call by call. Lent
//! memory is compared whole, after refusals too.

use crate::differ;
use crate::files::{without_pairs, without_turns};
use crate::seen::Seen;
use plain::random::{damaged_row, damaged_table, expression, path_row, Rng};
use std::collections::BTreeMap;
use std::fmt::Debug;
use std::hash::Hash;

/// How often each call gave each answer: a test that never meets an answer does not test it.
#[derive(Default)]
pub struct Tally(pub BTreeMap<(&'static str, String), usize>);

impl Tally {
    pub fn count(&mut self, call: &'static str, answer: String) {
        *self.0.entry((call, answer)).or_default() += 1;
    }
}

/// A result's case: with the number of equal steps, without that of what was written.
fn case<T: Debug>(result: &Result<T, u8>) -> String {
    match result {
        Ok(value) => {
            let shown = format!("{value:?}");
            if shown.parse::<usize>().is_ok() {
                "written".to_string()
            } else {
                shown.to_lowercase().replace('(', " ").replace(')', "")
            }
        }
        Err(number) => format!("refused {number}"),
    }
}

/// Memory lent to both sides with the same arbitrary content.
pub fn lent<T>(rng: &mut Rng, length: usize, make: impl Fn(usize) -> T) -> Vec<T> {
    let from = rng.below(200);
    (0..length).map(|i| make(from + i)).collect()
}

/// A length for lent memory where `due` is needed: exact, one less, some more, any, none.
pub fn length(rng: &mut Rng, due: usize, most: usize) -> usize {
    match rng.below(6) {
        0 | 1 => due,
        2 => due.saturating_sub(1),
        3 => due + 1 + rng.below(40),
        4 => rng.below(most),
        _ => most,
    }
}

pub struct Test {
    pub rng: Rng,
    pub tally: Tally,
    pub seen: Seen,
}

impl Test {
    /// One call on both sides: the same result and the same memory.
    pub fn same<T: Debug + PartialEq, C: Clone + PartialEq + Hash>(
        &mut self,
        call: &'static str,
        text: &[u8],
        memory: Vec<C>,
        ours: impl Fn(&mut [C]) -> Result<T, u8>,
        theirs: impl Fn(&mut [C]) -> Result<T, u8>,
    ) {
        let (mut a, mut b) = (memory.clone(), memory);
        let (r, s) = (ours(&mut a), theirs(&mut b));
        if r != s {
            differ(call, text, format!("{r:?} and not {s:?}, with {} lent", a.len()));
        }
        if a != b {
            differ(call, text, format!("lent memory, after {r:?}, with {} lent", a.len()));
        }
        self.seen.note(call, &r, &a);
        self.tally.count(call, case(&r));
    }

    fn read(&mut self, text: &[u8]) {
        let due = plain::gym::read(text, &mut vec![0; tewhoranu::CELLS]).unwrap_or(100);
        let n = length(&mut self.rng, due, tewhoranu::CELLS);
        let memory = lent(&mut self.rng, n, |i| i as u64 * 0x0101_0101_0101_0101);
        self.same("read", text, memory, |m| tewhoranu::read(text, m).map_err(number), |m| plain::gym::read(text, m));
    }

    fn write(&mut self, cells: &[u64]) {
        let mut whole = vec![0; tewhoranu::TEXT];
        let due = plain::gym::write(cells, &mut whole).unwrap_or(100);
        let n = length(&mut self.rng, due, tewhoranu::TEXT);
        let memory = lent(&mut self.rng, n, |i| i as u8);
        let shown = format!("{cells:?}");
        self.same(
            "write",
            shown.as_bytes(),
            memory,
            |m| tewhoranu::write(cells, m).map_err(number),
            |m| plain::gym::write(cells, m),
        );
    }

    /// The wrapper hands back a part of the text: the same place, and not only the same bytes.
    fn name_sought(&mut self, text: &[u8], query: usize) {
        let due = plain::gym::name_sought(text, query);
        let got = tewhoranu::name_sought(text, query);
        self.seen.note("name_sought", &got, text);
        match got {
            Some(name) if name == due && name.as_ptr() == due.as_ptr() => {
                self.tally.count("name_sought", "found".to_string())
            }
            None if due.is_empty() => self.tally.count("name_sought", "none".to_string()),
            other => differ("name_sought", text, format!("{other:?} and not {due:?} for query {query}")),
        }
    }

    fn listing(&mut self, text: &[u8], query: usize) {
        let due = plain::answers::listing(text, query, &mut vec![0; tewhoranu::LISTING]).unwrap_or(60);
        let n = length(&mut self.rng, due, 2000);
        let memory = lent(&mut self.rng, n, |i| i as u8);
        self.same(
            "listing",
            text,
            memory,
            |m| tewhoranu::listing(text, query, m).map_err(number),
            |m| plain::answers::listing(text, query, m),
        );
    }

    fn rules(&mut self, text: &[u8], expression: &[u8]) {
        let due = plain::answers::rules(text, expression, &mut vec![0; tewhoranu::TEXT]).unwrap_or(60);
        let n = length(&mut self.rng, due, tewhoranu::TEXT);
        let memory = lent(&mut self.rng, n, |i| i as u8);
        self.same(
            "rules",
            text,
            memory,
            |m| tewhoranu::rules(text, expression, m).map_err(number),
            |m| plain::answers::rules(text, expression, m),
        );
    }

    fn summary(&mut self, text: &[u8]) {
        let due = plain::answers::summary(text, &mut [0; tewhoranu::SUMMARY]).unwrap_or(40);
        let n = length(&mut self.rng, due, 100);
        let memory = lent(&mut self.rng, n, |i| i as u8);
        self.same(
            "summary",
            text,
            memory,
            |m| tewhoranu::summary(text, m).map_err(number),
            |m| plain::answers::summary(text, m),
        );
    }

    fn steps(&mut self, row: &[u8]) -> Vec<(u8, u8)> {
        let due = plain::path_row::PathRow::parse(row).map_or(3, |row| row.steps.len());
        let n = length(&mut self.rng, due, tewhoranu::STEPS + 2);
        lent(&mut self.rng, n, |i| (i as u8, (i + 7) as u8))
    }

    fn judge(&mut self, text: &[u8], query: usize, row: &[u8]) {
        let memory = self.steps(row);
        self.same(
            "judge",
            text,
            memory,
            |m| {
                let mut steps = to_ours(m);
                let r = tewhoranu::judge(text, query, row, &mut steps);
                from_ours(&steps, m);
                r.map(standing).map_err(number)
            },
            |m| {
                let mut steps = to_theirs(m);
                let r = plain::answers::judge(text, query, row, &mut steps);
                from_theirs(&steps, m);
                r
            },
        );
    }

    /// Both tables are compared as one memory.
    fn compare(&mut self, text: &[u8], first: &[u8], second: &[u8]) {
        let mut memory = self.steps(first);
        let split = memory.len();
        memory.extend(self.steps(second));
        self.same(
            "compare",
            text,
            memory,
            |m| {
                let (mut a, mut b) = (to_ours(&m[..split]), to_ours(&m[split..]));
                let r = tewhoranu::compare(text, first, second, &mut a, &mut b);
                from_ours(&a, &mut m[..split]);
                from_ours(&b, &mut m[split..]);
                r.map(compared).map_err(number)
            },
            |m| {
                let (mut a, mut b) = (to_theirs(&m[..split]), to_theirs(&m[split..]));
                let r = plain::path_row::compare(text, first, second, &mut a, &mut b);
                from_theirs(&a, &mut m[..split]);
                from_theirs(&b, &mut m[split..]);
                r
            },
        );
    }

    /// A path row: one that a listing shows, a made one, or a damaged one.
    fn row(&mut self, shown: &[Vec<u8>], scopes: usize, letters: &[u8]) -> Vec<u8> {
        let row = if !shown.is_empty() && self.rng.below(2) == 0 {
            self.rng.pick(shown).clone()
        } else {
            path_row(&mut self.rng, scopes, letters)
        };
        if self.rng.below(6) == 0 {
            damaged_row(&mut self.rng, &row)
        } else {
            row
        }
    }

    /// Every call on one text.
    pub fn text(&mut self, text: &[u8]) {
        self.read(text);
        let mut table = vec![0; tewhoranu::CELLS];
        if let Ok(n) = plain::gym::read(text, &mut table) {
            self.tally.count("form", table[0].to_string());
            self.write(&table[..n]);
            let damaged = damaged_table(&mut self.rng, &table[..n]);
            self.write(&damaged);
            // the same rows in the other forms: in the old one a kind other than `v` is refused, and
            // in both of those without turns a turn other than 0
            for form in [tewhoranu::OLD_FORM, tewhoranu::WITH_KINDS, tewhoranu::WITH_TURNS] {
                table[0] = form;
                self.write(&table[..n]);
            }
        }
        self.summary(text);
        self.conversions(text);
        let (queries, scopes, letters, declared) = match plain::gym::Gym::parse(text) {
            Ok(gym) => (gym.queries.len(), gym.scopes as usize, gym.labels.clone(), gym.declarations.len()),
            Err(_) => (1, 5, b"AB".to_vec(), 1),
        };
        self.readers_of(text, declared);
        self.numbering(text, scopes);
        for _ in 0..2 {
            let drawn = expression(&mut self.rng, &letters);
            self.rules(text, &drawn);
        }
        // without order pairs and turns a query sees all that it reaches: rows that are visible or
        // shadowed with them
        let unordered = without_turns(&without_pairs(text));
        let mut shown = Vec::new();
        for query in 0..queries + 1 {
            self.name_sought(text, query);
            self.listing(text, query);
            self.followed(text, query);
            shown.extend(rows(text, query));
            shown.extend(rows(&unordered, query));
            for _ in 0..2 {
                let row = self.row(&shown, scopes, &letters);
                self.judge(text, query, &row);
            }
        }
        for _ in 0..3 {
            let first = self.row(&shown, scopes, &letters);
            let second = match self.rng.below(6) {
                0 => first.clone(),
                _ => self.row(&shown, scopes, &letters),
            };
            self.compare(text, &first, &second);
        }
        for query in [queries + 1, usize::MAX] {
            self.name_sought(text, query);
            self.listing(text, query);
            self.followed(text, query);
        }
        self.drawings(text);
    }
}

pub fn number(refusal: tewhoranu::Refusal) -> u8 {
    refusal.number() as u8
}

fn standing(standing: tewhoranu::Standing) -> plain::answers::Standing {
    match standing {
        tewhoranu::Standing::Visible => plain::answers::Standing::Visible,
        tewhoranu::Standing::Shadowed(n) => plain::answers::Standing::Shadowed(n),
        tewhoranu::Standing::Unreached => plain::answers::Standing::Unreached,
    }
}

fn compared(compared: tewhoranu::Compared) -> plain::path_row::Compared {
    match compared {
        tewhoranu::Compared::First(n) => plain::path_row::Compared::First(n),
        tewhoranu::Compared::Second(n) => plain::path_row::Compared::Second(n),
        tewhoranu::Compared::Neither(n) => plain::path_row::Compared::Neither(n),
    }
}

fn to_ours(memory: &[(u8, u8)]) -> Vec<tewhoranu::Step> {
    memory.iter().map(|&(label, scope)| tewhoranu::Step { label, scope }).collect()
}

fn from_ours(steps: &[tewhoranu::Step], memory: &mut [(u8, u8)]) {
    for (cell, step) in memory.iter_mut().zip(steps) {
        *cell = (step.label, step.scope);
    }
}

fn to_theirs(memory: &[(u8, u8)]) -> Vec<plain::path_row::Step> {
    memory.iter().map(|&(letter, scope)| plain::path_row::Step { letter, scope }).collect()
}

fn from_theirs(steps: &[plain::path_row::Step], memory: &mut [(u8, u8)]) {
    for (cell, step) in memory.iter_mut().zip(steps) {
        *cell = (step.letter, step.scope);
    }
}

/// Rows of a query's listing, at most twenty.
fn rows(text: &[u8], query: usize) -> Vec<Vec<u8>> {
    let mut out = vec![0; tewhoranu::LISTING];
    let n = plain::answers::listing(text, query, &mut out).unwrap_or(0);
    out[..n].split(|&b| b == b'\n').skip(3).filter(|row| !row.is_empty()).take(20).map(|row| row.to_vec()).collect()
}
