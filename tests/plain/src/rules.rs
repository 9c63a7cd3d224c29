//! Path rules as an expression (02, K6), by derivatives: a state is what is left of the expression
//! after a word. States that no word tells apart are then put together, and those from which no
//! word is accepted left out.

use crate::gym::Refusal;
use std::collections::{BTreeMap, BTreeSet};
use std::rc::Rc;

/// No word; the empty word; a label's number; one after the other; any of some; any number of times.
/// Choices are sets, sequences lean to the right: there are finitely many derivatives.
#[derive(Clone, Debug, PartialEq, Eq, PartialOrd, Ord)]
enum Expr {
    None,
    Empty,
    Label(usize),
    Then(Rc<Expr>, Rc<Expr>),
    Or(BTreeSet<Expr>),
    Star(Rc<Expr>),
}

const MOST_BYTES: usize = 64;
const MOST_LETTERS: usize = 10;
const MOST_STATES: usize = 16;

fn then(a: Expr, b: Expr) -> Expr {
    match (a, b) {
        (Expr::None, _) | (_, Expr::None) => Expr::None,
        (Expr::Empty, e) | (e, Expr::Empty) => e,
        (Expr::Then(x, y), b) => {
            let rest = then((*y).clone(), b);
            Expr::Then(x, Rc::new(rest))
        }
        (a, b) => Expr::Then(Rc::new(a), Rc::new(b)),
    }
}

fn or(parts: impl IntoIterator<Item = Expr>) -> Expr {
    let mut all = BTreeSet::new();
    for part in parts {
        match part {
            Expr::None => {}
            Expr::Or(more) => all.extend(more),
            other => {
                all.insert(other);
            }
        }
    }
    match all.len() {
        0 => Expr::None,
        1 => all.pop_first().expect("one"),
        _ => Expr::Or(all),
    }
}

fn star(e: Expr) -> Expr {
    match e {
        Expr::None | Expr::Empty => Expr::Empty,
        Expr::Star(_) => e,
        other => Expr::Star(Rc::new(other)),
    }
}

impl Expr {
    fn has_empty(&self) -> bool {
        match self {
            Expr::None | Expr::Label(_) => false,
            Expr::Empty | Expr::Star(_) => true,
            Expr::Then(a, b) => a.has_empty() && b.has_empty(),
            Expr::Or(parts) => parts.iter().any(Expr::has_empty),
        }
    }

    /// What is left after a label.
    fn after(&self, label: usize) -> Expr {
        match self {
            Expr::None | Expr::Empty => Expr::None,
            Expr::Label(l) if *l == label => Expr::Empty,
            Expr::Label(_) => Expr::None,
            Expr::Star(e) => then(e.after(label), self.clone()),
            Expr::Or(parts) => or(parts.iter().map(|e| e.after(label))),
            Expr::Then(a, b) => {
                let first = then(a.after(label), (**b).clone());
                if a.has_empty() {
                    or([first, b.after(label)])
                } else {
                    first
                }
            }
        }
    }
}

/// The text still to be read.
struct Reader<'a> {
    rest: &'a [u8],
    labels: &'a [u8],
    letters: usize,
}

impl Reader<'_> {
    fn next_is(&mut self, byte: u8) -> bool {
        let is = self.rest.first() == Some(&byte);
        if is {
            self.rest = &self.rest[1..];
        }
        is
    }

    fn choice(&mut self) -> Option<Expr> {
        let mut parts = vec![self.sequence()?];
        while self.next_is(b'|') {
            parts.push(self.sequence()?);
        }
        Some(or(parts))
    }

    fn sequence(&mut self) -> Option<Expr> {
        let mut parts = vec![self.starred()?];
        while !matches!(self.rest.first(), None | Some(b'|' | b')')) {
            parts.push(self.starred()?);
        }
        Some(parts.into_iter().rev().fold(Expr::Empty, |e, a| then(a, e)))
    }

    fn starred(&mut self) -> Option<Expr> {
        let mut e = if self.next_is(b'(') {
            let inner = self.choice()?;
            if !self.next_is(b')') {
                return None;
            }
            inner
        } else {
            let (&letter, rest) = self.rest.split_first()?;
            let label = self.labels.iter().position(|&l| l == letter)?;
            self.rest = rest;
            self.letters += 1;
            Expr::Label(label)
        };
        while self.next_is(b'*') {
            e = star(e);
        }
        Some(e)
    }
}

fn read(text: &[u8], labels: &[u8]) -> Option<Expr> {
    let mut reader = Reader {
        rest: text,
        labels,
        letters: 0,
    };
    let e = reader.choice()?;
    let whole = reader.rest.is_empty() && reader.letters <= MOST_LETTERS;
    (whole && text.len() <= MOST_BYTES).then_some(e)
}

/// The smallest table of an expression: rows of state, label and next state, and the accepting
/// states, in the sequence in which a file has them.
#[derive(Debug, PartialEq, Eq)]
pub struct Table {
    pub transitions: Vec<(u8, u8, u8)>,
    pub accepts: Vec<u8>,
}

/// What is left after each word, the start first: where each leads by each label, and whether it
/// has the empty word.
fn derivatives(start: Expr, labels: usize) -> (Vec<Vec<usize>>, Vec<bool>) {
    let mut number = BTreeMap::from([(start.clone(), 0)]);
    let mut all = vec![start];
    let mut next = Vec::new();
    while next.len() < all.len() {
        let e = all[next.len()].clone();
        let mut row = Vec::new();
        for label in 0..labels {
            let after = e.after(label);
            let new = number.len();
            row.push(*number.entry(after.clone()).or_insert(new));
            if number.len() > new {
                all.push(after);
            }
        }
        next.push(row);
    }
    let accepts = all.iter().map(Expr::has_empty).collect();
    (next, accepts)
}

/// A class for each state: equal ones are told apart by no word.
fn classes(next: &[Vec<usize>], accepts: &[bool]) -> Vec<usize> {
    let mut class: Vec<usize> = accepts.iter().map(|&a| usize::from(a)).collect();
    let mut count = 0;
    loop {
        let mut number = BTreeMap::new();
        let finer: Vec<usize> = (0..next.len())
            .map(|s| {
                let row: Vec<usize> = next[s].iter().map(|&t| class[t]).collect();
                let new = number.len();
                *number.entry((class[s], row)).or_insert(new)
            })
            .collect();
        class = finer;
        if number.len() == count {
            return class;
        }
        count = number.len();
    }
}

/// The states from which some word is accepted.
fn live(next: &[Vec<usize>], accepts: &[bool]) -> Vec<bool> {
    let mut live = accepts.to_vec();
    loop {
        let more: Vec<bool> = (0..next.len())
            .map(|s| live[s] || next[s].iter().any(|&t| live[t]))
            .collect();
        if more == live {
            return live;
        }
        live = more;
    }
}

/// The table of an expression over a file's labels, or 12 or 13.
pub fn table(text: &[u8], labels: &[u8]) -> Result<Table, Refusal> {
    let start = read(text, labels).ok_or(12)?;
    let (next, accepts) = derivatives(start, labels.len());
    let class = classes(&next, &accepts);
    let live = live(&next, &accepts);
    // One state of each class that the walk has met, in the sequence of their numbers.
    let mut met = vec![0];
    let mut transitions = Vec::new();
    let mut at = 0;
    while at < met.len() {
        for label in 0..labels.len() {
            let to = next[met[at]][label];
            if !live[to] {
                continue;
            }
            let number = met.iter().position(|&s| class[s] == class[to]);
            let number = number.unwrap_or_else(|| {
                met.push(to);
                met.len() - 1
            });
            transitions.push((at as u8, label as u8, number as u8));
        }
        at += 1;
        if met.len() > MOST_STATES {
            return Err(13);
        }
    }
    let accepting = (0..met.len()).filter(|&q| accepts[met[q]]);
    Ok(Table {
        transitions,
        accepts: accepting.map(|q| q as u8).collect(),
    })
}
