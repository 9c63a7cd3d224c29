//! The library's judge, its summary, its readers and its numbering of scopes against the enumerator itself, on small gyms
//! of all forms.
//! Judged is every path from a query's start, with each mark of the file and one that is nobody's,
//! and rows made from it by chance, most of which are no paths.

use crate::calls::{number, Test};
use crate::differ;
use plain::enumerate::{declarations, name_of, Graph, Path, Verdict};
use plain::gym::{Form, Gym, Query};
use plain::path_row::{PathRow, Step};
use plain::random::{gym, Rng, Size, SMALL};
use tewhoranu::Standing;

/// More queries and longer paths than where completions are tried too.
const JUDGED: Size = Size { scopes: 6, edges: 16, queries: 8, ..SMALL };

/// A small gym; of every second one the names differ past the eighth byte alone. They ascend as the
/// others do, so the rows do.
fn drawn(seed: usize) -> Vec<u8> {
    let text = String::from_utf8(gym(&mut Rng::new(2_000_000 + seed as u64), JUDGED)).expect("ASCII");
    match seed % 2 {
        0 => text.into_bytes(),
        _ => text.replace("service_2", "lane_max_weight1").replace("service", "lane_max").into_bytes(),
    }
}

/// The path's row. A label that is not listed gets a letter that is not.
fn row(gym: &Gym, path: &Path, mark: u16) -> Vec<u8> {
    let unlisted = (b'A'..=b'Z').find(|letter| !gym.labels.contains(letter)).expect("a file has 8 labels at most");
    let letter = |label: u8| gym.labels.get(label as usize).copied().unwrap_or(unlisted);
    let step = |&(label, to): &(u8, usize)| Step { letter: letter(label), scope: to as u8 };
    PathRow { mark, start: path.start as u8, steps: path.steps.iter().map(step).collect() }.write()
}

/// Scopes of the file and two that are not there, one of them the last that a row may have.
fn any_scope(rng: &mut Rng, gym: &Gym) -> usize {
    let scopes = gym.scopes as usize;
    match rng.below(scopes + 2) {
        last if last > scopes => 63,
        scope => scope,
    }
}

/// Labels of the file and one that is not listed.
fn any_step(rng: &mut Rng, gym: &Gym) -> (u8, usize) {
    (rng.below(gym.labels.len() + 1) as u8, any_scope(rng, gym))
}

/// The path with its start or a step of it changed.
fn changed(rng: &mut Rng, gym: &Gym, path: &Path) -> Path {
    let mut other = path.clone();
    while other == *path {
        match rng.below(path.steps.len() + 1).checked_sub(1) {
            None => other.start = any_scope(rng, gym),
            Some(i) => other.steps[i] = any_step(rng, gym),
        }
    }
    other
}

/// The path with a step more.
fn longer(rng: &mut Rng, gym: &Gym, path: &Path) -> Path {
    let mut path = path.clone();
    path.steps.push(any_step(rng, gym));
    path
}

/// What the tally calls the paths of a file.
fn paths_of(form: Form) -> &'static str {
    match form {
        Form::Old => "judged, old form",
        Form::Kinds => "judged, with kinds",
        Form::Turns => "judged, with turns",
    }
}

/// A gym's summary; the share (02, K1) is the whole per cent that is nearest, of two the even one.
fn summary(gym: &Gym) -> String {
    let graph = Graph::of(gym);
    let seen = |query: &Query| declarations(&graph.entries(query.start as usize, &name_of(query.name)));
    let counts: Vec<usize> = gym.queries.iter().map(seen).collect();
    let (queries, one) = (counts.len(), counts.iter().filter(|&&n| n == 1).count());
    let none = counts.iter().filter(|&&n| n == 0).count();
    let far = |share: &usize| ((share * queries).abs_diff(100 * one), share % 2);
    let share = match queries {
        0 => "-".to_string(),
        _ => (0..=100).min_by_key(far).expect("a hundred and one").to_string(),
    };
    format!("queries one several none share\n{queries} {one} {} {none} {share}\n", queries - one - none)
}

/// Every answer is to be met on paths; of made rows those that are reached, as most are not.
pub const DUE: [(&str, &[&str]); 6] = [
    ("summed", &["-", "0", "12", "38", "50", "100"]),
    ("judged, old form", &["visible", "shadowed 0", "shadowed 1", "shadowed 2", "shadowed 3", "unreached"]),
    ("judged, with kinds", &["visible", "shadowed 0", "shadowed 1", "shadowed 2", "shadowed 3", "unreached"]),
    ("judged, with turns", &["visible", "shadowed 0", "shadowed 1", "shadowed 2", "shadowed 3", "unreached"]),
    ("judged, changed", &["visible", "shadowed 0", "shadowed 1", "unreached"]),
    ("judged, longer", &["visible", "shadowed 0", "shadowed 1", "unreached"]),
];

impl Test {
    /// One row, whose path is `path`, counted under a name of its own.
    fn judged_row(&mut self, text: &[u8], gym: &Gym, query: usize, path: &Path, mark: u16, name: &'static str) {
        let (start, sought) = (gym.queries[query].start as usize, name_of(gym.queries[query].name));
        let due = match Graph::of(gym).verdict(start, &sought, path, u64::from(mark)) {
            Verdict::Visible => Standing::Visible,
            Verdict::Shadowed(steps) => Standing::Shadowed(steps),
            Verdict::Unreached => Standing::Unreached,
        };
        let row = row(gym, path, mark);
        let mut steps = [tewhoranu::Step { label: 0, scope: 0 }; tewhoranu::STEPS];
        let got = tewhoranu::judge(text, query, &row, &mut steps).map_err(number);
        self.seen.note("judge", &got, &steps.map(|step| (step.label, step.scope)));
        if got != Ok(due) {
            let row = String::from_utf8_lossy(&row).into_owned();
            differ("judge", text, format!("{got:?} and not {due:?} for query {query} and the row {row}"));
        }
        self.tally.count(name, format!("{due:?}").to_lowercase().replace('(', " ").replace(')', ""));
    }

    /// The summary of a gym, counted by its share.
    fn summed(&mut self, text: &[u8], gym: &Gym) {
        let due = summary(gym);
        let mut out = [0; 64];
        let got = tewhoranu::summary(text, &mut out).map_err(number);
        if got != Ok(due.len()) || out[..due.len()] != *due.as_bytes() {
            differ("summary", text, format!("{got:?}, {} and not {due}", String::from_utf8_lossy(&out)));
        }
        self.tally.count("summed", due.trim_end().rsplit(' ').next().unwrap_or("").to_string());
    }

    /// The summary, the readers, the numbering and all rows of a small gym.
    pub fn judged(&mut self, seed: usize) {
        let text = drawn(seed);
        let gym = Gym::parse(&text).expect("an accepted file");
        self.summed(&text, &gym);
        self.read_from(&text, &gym);
        self.renumbered(&text, &gym);
        let mut marks: Vec<u16> = gym.declarations.iter().map(|d| d.mark).collect();
        marks.sort();
        marks.dedup();
        marks.extend((0..=u16::MAX).find(|mark| !marks.contains(mark)));
        for (n, query) in gym.queries.iter().enumerate() {
            for path in Graph::of(&gym).paths(query.start as usize) {
                for &mark in &marks {
                    self.judged_row(&text, &gym, n, &path, mark, paths_of(gym.form));
                }
                let mark = *self.rng.pick(&marks);
                let other = changed(&mut self.rng, &gym, &path);
                self.judged_row(&text, &gym, n, &other, mark, "judged, changed");
                let more = longer(&mut self.rng, &gym, &path);
                self.judged_row(&text, &gym, n, &more, mark, "judged, longer");
            }
        }
    }
}
