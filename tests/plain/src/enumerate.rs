//! The rules of documents 01 and 02 by plain enumeration: every simple path, each held against every other.
//! Slow, for small graphs, and with no code of the search in it. Only a gym's rows are taken from
//! the reader.

use crate::gym::{self, Form, Gym, Query};
use std::cmp::Ordering;

/// A kind and a name (02, K8).
pub type Name = (char, String);

/// An edge row, or one of a completion: its turn is any whole number (02, K12).
#[derive(Clone, Copy, Debug, PartialEq, Eq)]
pub struct Row {
    pub from: usize,
    pub label: u8,
    pub turn: u64,
    pub to: usize,
}

/// A graph or a completion of one: any number of scopes, any marks, any turns.
#[derive(Clone)]
pub struct Graph {
    /// Pairs of ends, `None` being `$`.
    pub order: Vec<(Option<u8>, Option<u8>)>,
    pub labels: u8,
    /// State, label, next state.
    pub transitions: Vec<(u8, u8, u8)>,
    pub accepts: Vec<u8>,
    pub scopes: usize,
    pub edges: Vec<Row>,
    pub declarations: Vec<(usize, Name, u64)>,
}

#[derive(Clone, Debug, PartialEq, Eq)]
pub struct Path {
    pub start: usize,
    pub steps: Vec<(u8, usize)>,
}

pub type Entry = (Path, u64);

/// `Shadowed` has the most steps in which a reached path that is more specific agrees (02, K7).
#[derive(Clone, Copy, Debug, PartialEq, Eq)]
pub enum Verdict {
    Visible,
    Shadowed(usize),
    Unreached,
}

pub fn end(cell: u8) -> Option<u8> {
    cell.checked_sub(1)
}

/// A row's kind and name as they stand in the file.
pub fn name_of(cells: gym::Name) -> Name {
    let bytes = cells.text.to_be_bytes();
    let text = bytes.iter().take_while(|&&b| b != 0).map(|&b| b as char);
    (cells.kind as char, text.collect())
}

impl Path {
    fn last(&self) -> usize {
        self.steps.last().map_or(self.start, |step| step.1)
    }

    fn visits(&self, scope: usize) -> bool {
        self.start == scope || self.steps.iter().any(|step| step.1 == scope)
    }
}

/// How far two paths agree (02, K7): the steps of the longest beginning that both have.
pub fn agree(p: &Path, q: &Path) -> usize {
    if p.start != q.start {
        return 0;
    }
    let most = p.steps.len().min(q.steps.len());
    let shared = |n: &usize| p.steps[..*n] == q.steps[..*n];
    (0..=most).rev().find(shared).unwrap_or(0)
}

impl Graph {
    pub fn of(gym: &Gym) -> Graph {
        Graph {
            order: gym.order.iter().map(|&(a, b)| (end(a), end(b))).collect(),
            labels: gym.labels.len() as u8,
            transitions: gym
                .transitions
                .iter()
                .map(|t| (t.state, t.label, t.next))
                .collect(),
            accepts: gym.accepts.clone(),
            scopes: gym.scopes as usize,
            edges: gym
                .edges
                .iter()
                .zip(&gym.turns)
                .map(|(e, &turn)| Row {
                    from: e.from as usize,
                    label: e.label,
                    turn: u64::from(turn),
                    to: e.to as usize,
                })
                .collect(),
            declarations: gym
                .declarations
                .iter()
                .map(|d| (d.at as usize, name_of(d.name), u64::from(d.mark)))
                .collect(),
        }
    }

    fn states(&self) -> usize {
        let named = self
            .transitions
            .iter()
            .flat_map(|t| [t.0, t.2])
            .chain(self.accepts.iter().copied());
        1 + named.max().unwrap_or(0) as usize
    }

    /// All paths from a scope, those with fewer steps first.
    pub fn paths(&self, start: usize) -> Vec<Path> {
        let mut paths = vec![Path {
            start,
            steps: Vec::new(),
        }];
        let mut at = 0;
        while at < paths.len() {
            let path = paths[at].clone();
            for row in &self.edges {
                if row.from == path.last() && !path.visits(row.to) {
                    let mut longer = path.clone();
                    longer.steps.push((row.label, row.to));
                    paths.push(longer);
                }
            }
            at += 1;
        }
        paths
    }

    /// The state that a path's labels lead to.
    fn state(&self, path: &Path) -> Option<u8> {
        let mut state = 0;
        for step in &path.steps {
            let mut rows = self.transitions.iter();
            state = rows.find(|t| t.0 == state && t.1 == step.0)?.2;
        }
        Some(state)
    }

    fn lawful(&self, path: &Path) -> bool {
        self.state(path).is_some_and(|q| self.accepts.contains(&q))
    }

    fn marks(&self, scope: usize, name: &Name) -> Vec<u64> {
        self.declarations
            .iter()
            .filter(|d| d.0 == scope && d.1 == *name)
            .map(|d| d.2)
            .collect()
    }

    fn reached(&self, start: usize, name: &Name) -> Vec<Path> {
        let mut paths = self.paths(start);
        paths.retain(|p| self.lawful(p) && !self.marks(p.last(), name).is_empty());
        paths
    }

    /// The turn of a step, if it is an edge row.
    fn turn(&self, at: usize, step: (u8, usize)) -> Option<u64> {
        let is_step = |row: &&Row| row.from == at && (row.label, row.to) == step;
        self.edges.iter().find(is_step).map(|row| row.turn)
    }

    /// At one scope: is going on by the first step preferred to going on by the second, or, where
    /// there is no step, is ending?
    fn preferred(&self, at: usize, a: Option<(u8, usize)>, b: Option<(u8, usize)>) -> bool {
        if self.order.contains(&(a.map(|s| s.0), b.map(|s| s.0))) {
            return true;
        }
        let (Some(a), Some(b)) = (a, b) else {
            return false;
        };
        match (self.turn(at, a), self.turn(at, b)) {
            (Some(t), Some(u)) => a.0 == b.0 && t > u,
            _ => false,
        }
    }

    pub fn more_specific(&self, p: &Path, q: &Path) -> bool {
        if p.start != q.start {
            return false;
        }
        let mut at = p.start;
        for i in 0.. {
            match (p.steps.get(i).copied(), q.steps.get(i).copied()) {
                (None, None) => break,
                (Some(a), Some(b)) if a == b => at = a.1,
                (a, b) => return self.preferred(at, a, b),
            }
        }
        false
    }

    /// What a query sees, in the listing's order.
    pub fn entries(&self, start: usize, name: &Name) -> Vec<Entry> {
        let reached = self.reached(start, name);
        let mut entries = Vec::new();
        for path in &reached {
            if !reached.iter().any(|other| self.more_specific(other, path)) {
                for mark in self.marks(path.last(), name) {
                    entries.push((path.clone(), mark));
                }
            }
        }
        entries.sort_by(listing_order);
        entries
    }

    pub fn verdict(&self, start: usize, name: &Name, path: &Path, mark: u64) -> Verdict {
        let reached = self.reached(start, name);
        if !reached.contains(path) || !self.marks(path.last(), name).contains(&mark) {
            return Verdict::Unreached;
        }
        let specific = reached.iter().filter(|r| self.more_specific(r, path));
        match specific.map(|r| agree(r, path)).max() {
            Some(most) => Verdict::Shadowed(most),
            None => Verdict::Visible,
        }
    }

    /// A completion that adds to the old scopes at one pair only, as much as can matter: a
    /// declaration with an unused mark, or an edge, of a turn above all, into a chain of new scopes,
    /// as many as there are states, linked by every label, that all declare the name.
    fn fullest(&self, name: &Name, scope: usize, end: Option<u8>) -> Graph {
        let mut graph = self.clone();
        let unused = 1 + self.declarations.iter().map(|d| d.2).max().unwrap_or(0);
        match end {
            None => graph.declarations.push((scope, name.clone(), unused)),
            Some(label) => {
                graph.edges.push(Row {
                    from: scope,
                    label,
                    turn: 1 + self.edges.iter().map(|row| row.turn).max().unwrap_or(0),
                    to: self.scopes,
                });
                graph.scopes += self.states();
                for new in self.scopes..graph.scopes {
                    graph.declarations.push((new, name.clone(), unused));
                    for label in 0..self.labels {
                        if new + 1 < graph.scopes {
                            graph.edges.push(Row {
                                from: new,
                                label,
                                turn: 0,
                                to: new + 1,
                            });
                        }
                    }
                }
            }
        }
        graph
    }

    /// Can transitions alone lead from a state to acceptance?
    fn leads_on(&self, state: u8) -> bool {
        let mut met = vec![state];
        let mut at = 0;
        while at < met.len() {
            for t in &self.transitions {
                if t.0 == met[at] && !met.contains(&t.2) {
                    met.push(t.2);
                }
            }
            at += 1;
        }
        met.iter().any(|q| self.accepts.contains(q))
    }

    /// Does r cut p: do they share some first steps, and does r then take a step preferred to p's, or
    /// end where ending is?
    fn cuts_a_step(&self, r: &Path, p: &Path) -> bool {
        (0..p.steps.len()).any(|i| {
            let at = if i == 0 { p.start } else { p.steps[i - 1].1 };
            r.steps.get(..i) == Some(&p.steps[..i])
                && self.preferred(at, r.steps.get(i).copied(), Some(p.steps[i]))
        })
    }

    /// The lawful beginnings of a query (02, K11).
    pub fn beginnings(&self, start: usize, name: &Name) -> Vec<Path> {
        let reached = self.reached(start, name);
        let mut paths = self.paths(start);
        paths.retain(|p| {
            self.state(p).is_some_and(|q| self.leads_on(q))
                && !reached.iter().any(|r| self.cuts_a_step(r, p))
        });
        paths
    }

    pub fn decisive(&self, start: usize, name: &Name, scope: usize, end: Option<u8>) -> bool {
        self.fullest(name, scope, end).entries(start, name) != self.entries(start, name)
    }
}

/// The order of a listing's rows (01, "The listing").
fn listing_order(a: &Entry, b: &Entry) -> Ordering {
    for i in 0.. {
        match (a.0.steps.get(i), b.0.steps.get(i)) {
            (None, None) => break,
            (None, Some(_)) => return Ordering::Less,
            (Some(_), None) => return Ordering::Greater,
            (Some(x), Some(y)) if x != y => return x.cmp(y),
            _ => {}
        }
    }
    a.1.cmp(&b.1)
}

/// The first decisive open pair.
pub fn awaits(gym: &Gym, query: Query) -> Option<(u8, u8)> {
    let graph = Graph::of(gym);
    let mut open = gym.open.clone();
    open.sort();
    let sought = name_of(query.name);
    open.into_iter()
        .find(|&(scope, e)| graph.decisive(query.start as usize, &sought, scope as usize, end(e)))
}

/// How many declarations of the name sought the entries have: pairs of a scope and a mark.
pub fn declarations(entries: &[Entry]) -> usize {
    let mut seen: Vec<(usize, u64)> = entries.iter().map(|(p, mark)| (p.last(), *mark)).collect();
    seen.sort();
    seen.dedup();
    seen.len()
}

/// Who reads the declaration at a place of the rows (02, K5): the line `at`, then each scope of whose
/// query for its kind and name some entry ends in it.
pub fn readers(gym: &Gym, place: usize) -> Vec<u8> {
    let graph = Graph::of(gym);
    let (at, name, mark) = &graph.declarations[place];
    let mut out = "at\n".to_string();
    for start in 0..graph.scopes {
        let entries = graph.entries(start, name);
        if entries.iter().any(|(p, m)| (p.last(), m) == (*at, mark)) {
            out += &format!("{start}\n");
        }
    }
    out.into_bytes()
}

/// Is the list the breadth-first one of a gym (02, K13)? By what it is, without a queue: scopes met
/// from the start stand in the sequence in which they are met first, by the place of the scope that
/// leads to them and the row of its edge; the others follow, ascending.
pub fn is_breadth_first(gym: &Gym, was: &[usize]) -> bool {
    let start = gym.queries.first().map_or(0, |q| q.start as usize);
    let mut met: Vec<usize> = Graph::of(gym).paths(start).iter().map(Path::last).collect();
    met.sort();
    met.dedup();
    let place = |scope: u8| was.iter().position(|&s| s == scope as usize);
    let first_met = |scope: usize| {
        let edges = gym.edges.iter().enumerate();
        edges
            .filter(|(_, e)| e.to as usize == scope)
            .map(|(row, e)| (place(e.from), row))
            .min()
    };
    let (front, rest) = was.split_at(met.len().min(was.len()));
    let mut scopes = was.to_vec();
    scopes.sort();
    scopes.into_iter().eq(0..gym.scopes as usize)
        && front.first() == Some(&start)
        && front.iter().all(|scope| met.contains(scope))
        && front[1..]
            .windows(2)
            .all(|s| first_met(s[0]) < first_met(s[1]))
        && (1..front.len()).all(|i| first_met(front[i]).is_some_and(|(p, _)| p < Some(i)))
        && rest.windows(2).all(|s| s[0] < s[1])
}

/// Does each query of a gym keep its entries, and so `found`, in another one in which scope `was[n]`
/// is called n, and is it settled in both or in neither (02, K13)?
pub fn same_under(was: &[usize], old: &Gym, new: &Gym) -> bool {
    let (graph, other) = (Graph::of(old), Graph::of(new));
    let under = |(path, mark): &Entry| {
        let steps = path.steps.iter().map(|&(label, to)| (label, was[to]));
        let path = Path {
            start: was[path.start],
            steps: steps.collect(),
        };
        (path, *mark)
    };
    let same = |(&q, &r): (&Query, &Query)| {
        let entries = graph.entries(q.start as usize, &name_of(q.name));
        let seen = other.entries(r.start as usize, &name_of(r.name));
        let mut renamed: Vec<Entry> = seen.iter().map(under).collect();
        renamed.sort_by(listing_order);
        (q.name, q.start as usize) == (r.name, was[r.start as usize])
            && entries == renamed
            && declarations(&entries) == declarations(&seen)
            && awaits(old, q).is_none() == awaits(new, r).is_none()
    };
    old.queries.len() == new.queries.len() && old.queries.iter().zip(&new.queries).all(same)
}

/// A query's listing.
pub fn listing(gym: &Gym, query: Query) -> Vec<u8> {
    let sought = name_of(query.name);
    let entries = Graph::of(gym).entries(query.start as usize, &sought);
    let found = match declarations(&entries) {
        0 => "none",
        1 => "one",
        _ => "several",
    };
    let awaits = match awaits(gym, query) {
        None => "-".to_string(),
        Some((scope, 0)) => format!("{scope}$"),
        Some((scope, e)) => format!("{scope}{}", gym.labels[e as usize - 1] as char),
    };
    let (start, (kind, text)) = (query.start, sought);
    let mut out = match gym.form {
        Form::Old => format!("start seek found awaits\n{start} {text} {found} {awaits}\n"),
        Form::Kinds | Form::Turns => {
            format!("start kind seek found awaits\n{start} {kind} {text} {found} {awaits}\n")
        }
    };
    out += "mark path\n";
    for (path, mark) in entries {
        out += &format!("{mark} {}", path.start);
        for (label, scope) in path.steps {
            out += &format!("{}{scope}", gym.labels[label as usize] as char);
        }
        out += "\n";
    }
    out.into_bytes()
}
