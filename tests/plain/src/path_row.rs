//! Path rows: taken apart, written, compared.

use crate::gym::{number, push_number, Edge, Gym, Refusal};

pub const MOST_STEPS: usize = 63;
pub const LONGEST_ROW: usize = 256;

/// One step: a label's letter and the scope it leads to.
#[derive(Clone, Copy, Debug, PartialEq, Eq)]
pub struct Step {
    pub letter: u8,
    pub scope: u8,
}

#[derive(Clone, Debug, PartialEq, Eq)]
pub struct PathRow {
    pub mark: u16,
    pub start: u8,
    pub steps: Vec<Step>,
}

/// Which of two rows is more specific, and how many steps they share from a common start.
#[derive(Clone, Copy, Debug, PartialEq, Eq)]
pub enum Compared {
    First(usize),
    Second(usize),
    Neither(usize),
}

fn scope(text: &[u8], at: usize) -> Option<(u8, usize)> {
    let (value, len) = number(&text[at..])?;
    if value < 64 {
        Some((value as u8, at + len))
    } else {
        None
    }
}

impl PathRow {
    /// Takes a row apart; `None` is refusal 8.
    pub fn parse(text: &[u8]) -> Option<PathRow> {
        if text.len() > LONGEST_ROW {
            return None;
        }
        let (mark, len) = number(text)?;
        if mark > 65_535 || text.get(len) != Some(&b' ') {
            return None;
        }
        let (start, mut at) = scope(text, len + 1)?;
        let mut steps = Vec::new();
        while at < text.len() {
            let letter = text[at];
            if !letter.is_ascii_uppercase() || steps.len() == MOST_STEPS {
                return None;
            }
            let (to, next) = scope(text, at + 1)?;
            steps.push(Step { letter, scope: to });
            at = next;
        }
        Some(PathRow {
            mark: mark as u16,
            start,
            steps,
        })
    }

    pub fn write(&self) -> Vec<u8> {
        let mut out = Vec::new();
        push_number(&mut out, u64::from(self.mark));
        out.push(b' ');
        push_number(&mut out, u64::from(self.start));
        for step in &self.steps {
            out.push(step.letter);
            push_number(&mut out, u64::from(step.scope));
        }
        out
    }
}

/// Copies the steps of rows that both fit into their tables.
pub fn fill(table: &mut [Step], row: &PathRow) {
    table[..row.steps.len()].copy_from_slice(&row.steps);
}

/// A step's label number and, if it is an edge row, its turn.
type Numbered = (u8, Option<u8>);

/// The number of a step's label; `None` for a letter that the file does not list. `at` is the scope
/// that it leaves.
fn numbered(gym: &Gym, at: u8, step: Step) -> Option<Numbered> {
    let label = gym.labels.iter().position(|&l| l == step.letter)? as u8;
    let due = (at, label, step.scope);
    let is_due = |e: &Edge| (e.from, e.label, e.to) == due;
    let row = gym.edges.iter().position(is_due);
    Some((label, row.map(|i| gym.turns[i])))
}

/// Is going on by `a` preferred to going on by `b`, `None` being the path's end?
fn prefers(gym: &Gym, a: Option<Numbered>, b: Option<Numbered>) -> bool {
    let end = |step: Option<Numbered>| step.map_or(0, |(label, _)| label + 1);
    if gym.order.contains(&(end(a), end(b))) {
        return true;
    }
    match (a, b) {
        (Some((label, Some(turn))), Some((other, Some(lower)))) => label == other && turn > lower,
        _ => false,
    }
}

pub fn compare_rows(gym: &Gym, first: &PathRow, second: &PathRow) -> Compared {
    if first.start != second.start {
        return Compared::Neither(0);
    }
    let same = first
        .steps
        .iter()
        .zip(&second.steps)
        .take_while(|(a, b)| a == b)
        .count();
    let at = first.steps[..same].last().map_or(first.start, |s| s.scope);
    let mut ends = [None; 2];
    for (end, row) in ends.iter_mut().zip([first, second]) {
        if let Some(&step) = row.steps.get(same) {
            let Some(numbered) = numbered(gym, at, step) else {
                return Compared::Neither(same);
            };
            *end = Some(numbered);
        }
    }
    let [a, b] = ends;
    if prefers(gym, a, b) {
        Compared::First(same)
    } else if prefers(gym, b, a) {
        Compared::Second(same)
    } else {
        Compared::Neither(same)
    }
}

pub fn compare(
    text: &[u8],
    first: &[u8],
    second: &[u8],
    first_table: &mut [Step],
    second_table: &mut [Step],
) -> Result<Compared, Refusal> {
    let gym = Gym::parse(text)?;
    let first = PathRow::parse(first).ok_or(8)?;
    let second = PathRow::parse(second).ok_or(8)?;
    if first.steps.len() > first_table.len() || second.steps.len() > second_table.len() {
        return Err(9);
    }
    fill(first_table, &first);
    fill(second_table, &second);
    Ok(compare_rows(&gym, &first, &second))
}
