//! The search. From a query's start the simple paths form a tree; a node is a path, its last scope
//! and the automaton's state there. Sets of scopes are bits of a `u64`, sets of ends of a `u16`.

use crate::gym::{Edge, Gym, Name, STOP};

pub mod beginnings;

const NONE: u8 = 255;

/// Places, that is scopes, by state.
pub type Places = [u64; 16];

fn bit(scope: u8) -> u64 {
    1 << scope
}

fn holds(places: &Places, scope: u8, state: u8) -> bool {
    places[state as usize] & bit(scope) != 0
}

/// By label, the turn that an edge must have at a node to be followed there.
type Turns = [u8; 8];

/// What all queries of a gym share.
pub struct Rules<'a> {
    gym: &'a Gym,
    /// Is there a turn other than 0?
    turned: bool,
    next: [[u8; 8]; 16],
    accepting: u16,
    /// States from which transitions alone reach acceptance.
    hopeful: u16,
    /// For each end, the ends that it is preferred to.
    worse: [u16; 9],
    /// Where each scope's edges begin.
    first_edge: [usize; 65],
    /// Edges by the scope they lead to.
    incoming: Vec<Vec<Edge>>,
    /// For each state and label, the states that go there by it.
    before: [[u16; 8]; 16],
}

impl<'a> Rules<'a> {
    pub fn new(gym: &'a Gym) -> Rules<'a> {
        let mut rules = Rules {
            gym,
            turned: gym.turns.iter().any(|&turn| turn != 0),
            next: [[NONE; 8]; 16],
            accepting: 0,
            hopeful: 0,
            worse: [0; 9],
            first_edge: [0; 65],
            incoming: vec![Vec::new(); 64],
            before: [[0; 8]; 16],
        };
        for t in &gym.transitions {
            rules.next[t.state as usize][t.label as usize] = t.next;
            rules.before[t.next as usize][t.label as usize] |= 1 << t.state;
        }
        for &state in &gym.accepts {
            rules.accepting |= 1 << state;
        }
        rules.hopeful = rules.accepting;
        for _ in 0..16 {
            for t in &gym.transitions {
                if rules.hopeful >> t.next & 1 == 1 {
                    rules.hopeful |= 1 << t.state;
                }
            }
        }
        for &(a, b) in &gym.order {
            rules.worse[a as usize] |= 1 << b;
        }
        for edge in &gym.edges {
            rules.first_edge[edge.from as usize + 1] += 1;
            rules.incoming[edge.to as usize].push(*edge);
        }
        for scope in 0..64 {
            rules.first_edge[scope + 1] += rules.first_edge[scope];
        }
        rules
    }

    fn leaving(&self, scope: u8) -> &'a [Edge] {
        &self.gym.edges[self.first_edge[scope as usize]..self.first_edge[scope as usize + 1]]
    }

    /// The turns of these edges.
    fn turns_leaving(&self, scope: u8) -> &'a [u8] {
        &self.gym.turns[self.first_edge[scope as usize]..self.first_edge[scope as usize + 1]]
    }

    fn accepts(&self, state: u8) -> bool {
        self.accepting >> state & 1 == 1
    }

    /// The states in which a path may still be continued by an end, to be reached in some
    /// completion.
    fn usable(&self, end: u8) -> u16 {
        if end == STOP {
            return self.accepting;
        }
        let label = end as usize - 1;
        (0..16)
            .filter(|&q| {
                self.next[q][label] != NONE && self.hopeful >> self.next[q][label] & 1 == 1
            })
            .fold(0, |set, q| set | 1 << q)
    }
}

/// What a path row is for a query. `Shadowed` has the number of steps after which the name was
/// caught.
#[derive(Clone, Copy, Debug, PartialEq, Eq)]
pub enum Standing {
    Visible,
    Shadowed(usize),
    Unreached,
}

/// The visitor's word on whether the walk goes on.
#[derive(Clone, Copy, PartialEq)]
pub enum Go {
    On,
    Stop,
}

/// One query over its gym's rules.
pub struct Search<'a> {
    rules: &'a Rules<'a>,
    pub start: u8,
    name: Name,
    declaring: u64,
    /// Places from which a walk reaches the name.
    live: Places,
}

impl<'a> Search<'a> {
    pub fn new(rules: &'a Rules<'a>, start: u8, name: Name) -> Search<'a> {
        let mut declaring = 0;
        for d in &rules.gym.declarations {
            if d.name == name {
                declaring |= bit(d.at);
            }
        }
        let mut search = Search {
            rules,
            start,
            name,
            declaring,
            live: [0; 16],
        };
        search.live = search.live_off(0);
        search
    }

    fn matches(&self, at: u8, state: u8) -> bool {
        self.rules.accepts(state) && self.declaring & bit(at) != 0
    }

    fn marks(&self, at: u8) -> impl Iterator<Item = u16> + 'a {
        let name = self.name;
        let from = self
            .rules
            .gym
            .declarations
            .partition_point(move |d| (d.at, d.name) < (at, name));
        let rest = &self.rules.gym.declarations[from..];
        rest.iter()
            .take_while(move |d| d.at == at && d.name == name)
            .map(|d| d.mark)
    }

    /// All places off `path` from which a walk off `path` leads into `targets`; `passes` says which
    /// places a walk may go on from, by which end.
    fn leading_to(
        &self,
        targets: &Places,
        path: u64,
        passes: impl Fn(u8, u8, u8) -> bool,
    ) -> Places {
        let mut places = [0; 16];
        let mut todo = Vec::with_capacity(64);
        for state in 0..16 {
            places[state] = targets[state] & !path;
            let mut left = places[state];
            while left != 0 {
                todo.push((left.trailing_zeros() as u8, state as u8));
                left &= left - 1;
            }
        }
        while let Some((at, state)) = todo.pop() {
            for edge in &self.rules.incoming[at as usize] {
                if path & bit(edge.from) != 0 {
                    continue;
                }
                let mut states = self.rules.before[state as usize][edge.label as usize];
                while states != 0 {
                    let earlier = states.trailing_zeros() as u8;
                    states &= states - 1;
                    if !holds(&places, edge.from, earlier)
                        && passes(edge.from, earlier, edge.label + 1)
                    {
                        places[earlier as usize] |= bit(edge.from);
                        todo.push((edge.from, earlier));
                    }
                }
            }
        }
        places
    }

    fn live_off(&self, path: u64) -> Places {
        let mut targets = [0; 16];
        for &state in &self.rules.gym.accepts {
            targets[state as usize] = self.declaring;
        }
        self.leading_to(&targets, path, |_, _, _| true)
    }

    /// The state behind an edge, if the edge leads off the path into one of `places`.
    fn enter(&self, edge: &Edge, state: u8, path: u64, places: &Places) -> Option<u8> {
        let next = self.rules.next[state as usize][edge.label as usize];
        if next != NONE && path & bit(edge.to) == 0 && holds(places, edge.to, next) {
            Some(next)
        } else {
            None
        }
    }

    /// Is there a reached path from this node on? `path` holds `at` too.
    fn exists(&self, at: u8, state: u8, path: u64, live: &Places) -> bool {
        if self.matches(at, state) {
            return true;
        }
        let mut finer = None;
        for edge in self.rules.leaving(at) {
            let table = finer.as_ref().unwrap_or(live);
            if let Some(next) = self.enter(edge, state, path, table) {
                if self.exists(edge.to, next, path | bit(edge.to), table) {
                    return true;
                }
                if finer.is_none() {
                    finer = Some(self.live_off(path));
                }
            }
        }
        false
    }

    /// Those of the `wanted` ends that some reached path's next end is preferred to, at this node.
    fn cuts(&self, at: u8, state: u8, path: u64, live: &Places, wanted: u16) -> u16 {
        let mut cut = 0;
        if self.matches(at, state) {
            cut |= self.rules.worse[STOP as usize];
        }
        for edge in self.rules.leaving(at) {
            let worse = self.rules.worse[edge.label as usize + 1];
            if worse & wanted & !cut == 0 {
                continue;
            }
            if let Some(next) = self.enter(edge, state, path, live) {
                if self.exists(edge.to, next, path | bit(edge.to), live) {
                    cut |= worse;
                }
            }
        }
        cut & wanted
    }

    /// Of each of the `wanted` ends the highest turn by which a reached path goes on from this node,
    /// that of the last edge of its label that leads on. An edge of the label with a lower turn is
    /// cut; one with this turn is not.
    fn turns(&self, at: u8, state: u8, path: u64, live: &Places, wanted: u16) -> Turns {
        let mut turns = [0; 8];
        let mut done = !wanted;
        let edges = self.rules.leaving(at);
        let given = self.rules.turns_leaving(at);
        for (i, edge) in edges.iter().enumerate().rev() {
            let end = 1 << (edge.label + 1);
            // The first edge of its label has the lowest turn and cuts none.
            let first = i == 0 || edges[i - 1].label != edge.label;
            if done & end != 0 || first {
                continue;
            }
            if let Some(next) = self.enter(edge, state, path, live) {
                if self.exists(edge.to, next, path | bit(edge.to), live) {
                    turns[edge.label as usize] = given[i];
                    done |= end;
                }
            }
        }
        turns
    }

    /// The ends by which a path may go on from this node into `places`.
    fn ends_into(&self, at: u8, state: u8, path: u64, places: &Places) -> u16 {
        let mut ends = 0;
        for edge in self.rules.leaving(at) {
            if self.enter(edge, state, path, places).is_some() {
                ends |= 1 << (edge.label + 1);
            }
        }
        ends
    }

    /// Visits the query's entries in the listing's order.
    pub fn entries(&self, visit: &mut impl FnMut(&[Edge], u16) -> Go) {
        if holds(&self.live, self.start, 0) {
            let mut steps = Vec::with_capacity(64);
            let mut found = false;
            let follow = if self.rules.turned {
                Self::follow::<true, _>
            } else {
                Self::follow::<false, _>
            };
            follow(
                self,
                self.start,
                0,
                bit(self.start),
                &self.live,
                &mut steps,
                visit,
                &mut found,
            );
        }
    }

    /// `TURNED`: whether some turn is not 0; a file without turns is not to pay for them.
    #[allow(clippy::too_many_arguments)]
    fn follow<const TURNED: bool, V: FnMut(&[Edge], u16) -> Go>(
        &self,
        at: u8,
        state: u8,
        path: u64,
        live: &Places,
        steps: &mut Vec<Edge>,
        visit: &mut V,
        found: &mut bool,
    ) -> Go {
        let ends = self.ends_into(at, state, path, live);
        let stop = u16::from(self.matches(at, state));
        let cut = self.cuts(at, state, path, live, ends | stop);
        let turns = if TURNED {
            self.turns(at, state, path, live, ends & !cut)
        } else {
            [0; 8]
        };
        if stop & !cut != 0 {
            *found = true;
            for mark in self.marks(at) {
                if visit(steps, mark) == Go::Stop {
                    return Go::Stop;
                }
            }
        }
        let mut finer = None;
        for (i, edge) in self.rules.leaving(at).iter().enumerate() {
            if cut >> (edge.label + 1) & 1 == 1 {
                continue;
            }
            if TURNED && self.rules.turns_leaving(at)[i] < turns[edge.label as usize] {
                continue;
            }
            let table = finer.as_ref().unwrap_or(live);
            if let Some(next) = self.enter(edge, state, path, table) {
                let mut below = false;
                steps.push(*edge);
                let go = self.follow::<TURNED, _>(
                    edge.to,
                    next,
                    path | bit(edge.to),
                    table,
                    steps,
                    visit,
                    &mut below,
                );
                steps.pop();
                if go == Go::Stop {
                    return Go::Stop;
                }
                *found |= below;
                if !below && finer.is_none() {
                    finer = Some(self.live_off(path));
                }
            }
        }
        Go::On
    }

    /// Does a visible path end at this scope, which declares the name? It may exactly if `$` is
    /// followed there, as at an open pair.
    pub fn sees(&self, scope: u8) -> bool {
        self.decisive(scope, STOP)
    }

    /// The declarations at the scopes where visible paths end, counted up to `most`.
    pub fn declarations_seen(&self, most: usize) -> usize {
        let mut seen = 0;
        let mut left = self.declaring;
        while left != 0 && seen < most {
            let scope = left.trailing_zeros() as u8;
            left &= left - 1;
            if self.sees(scope) {
                seen += self.marks(scope).count();
            }
        }
        seen.min(most)
    }

    /// The first open pair, in their order, that a followed node has.
    pub fn awaits(&self) -> Option<(u8, u8)> {
        self.rules
            .gym
            .open
            .iter()
            .copied()
            .find(|&(scope, end)| self.decisive(scope, end))
    }

    /// Whether a match at a node is preferred to going on by `end`.
    fn stops_before(&self, at: u8, state: u8, end: u8) -> bool {
        self.rules.worse[STOP as usize] >> end & 1 == 1 && self.matches(at, state)
    }

    fn goals_off(&self, goal: &Goal, path: u64) -> Places {
        self.leading_to(&goal.targets, path, |at, state, end| {
            at != goal.scope && !self.stops_before(at, state, end)
        })
    }

    fn decisive(&self, scope: u8, end: u8) -> bool {
        let usable = self.rules.usable(end);
        let mut targets = [0; 16];
        for state in 0..16 {
            if usable >> state & 1 == 1 && !self.stops_before(scope, state, end) {
                targets[state as usize] = bit(scope);
            }
        }
        let goal = Goal {
            scope,
            end,
            targets,
        };
        let places = self.goals_off(&goal, 0);
        let reaches = if self.rules.turned {
            Self::reaches::<true>
        } else {
            Self::reaches::<false>
        };
        holds(&places, self.start, 0)
            && reaches(
                self,
                &goal,
                self.start,
                0,
                bit(self.start),
                &places,
                &self.live,
            )
    }

    /// Is the goal's end followed at or behind this followed node?
    fn reaches<const TURNED: bool>(
        &self,
        goal: &Goal,
        at: u8,
        state: u8,
        path: u64,
        places: &Places,
        live: &Places,
    ) -> bool {
        if at == goal.scope {
            let wanted = 1 << goal.end;
            return holds(&goal.targets, at, state)
                && self.cuts(at, state, path, live, wanted) == 0;
        }
        let ends = self.ends_into(at, state, path, places);
        let cut = self.cuts(at, state, path, live, ends);
        let turns = if TURNED {
            self.turns(at, state, path, live, ends & !cut)
        } else {
            [0; 8]
        };
        let mut finer = None;
        for (i, edge) in self.rules.leaving(at).iter().enumerate() {
            if cut >> (edge.label + 1) & 1 == 1 {
                continue;
            }
            if TURNED && self.rules.turns_leaving(at)[i] < turns[edge.label as usize] {
                continue;
            }
            let table = finer.as_ref().unwrap_or(places);
            if let Some(next) = self.enter(edge, state, path, table) {
                if self.reaches::<TURNED>(goal, edge.to, next, path | bit(edge.to), table, live) {
                    return true;
                }
                if finer.is_none() {
                    finer = Some(self.goals_off(goal, path));
                }
            }
        }
        false
    }

    /// What a path, by its labels and scopes, is with a mark. Another path that is more specific
    /// leaves it where its own end is cut, so it was caught at the last such place.
    pub fn standing(&self, start: u8, steps: &[(u8, u8)], mark: u16) -> Standing {
        let Some(turns) = self.reached_by(start, steps, mark) else {
            return Standing::Unreached;
        };
        let (mut at, mut state, mut path) = (start, 0, bit(start));
        let mut caught = None;
        for (n, (&(label, to), turn)) in steps.iter().zip(turns).enumerate() {
            let end = 1 << (label + 1);
            if self.cuts(at, state, path, &self.live, end) != 0
                || turn < self.turns(at, state, path, &self.live, end)[label as usize]
            {
                caught = Some(n);
            }
            state = self.rules.next[state as usize][label as usize];
            (at, path) = (to, path | bit(to));
        }
        if self.cuts(at, state, path, &self.live, 1 << STOP) != 0 {
            caught = Some(steps.len());
        }
        caught.map_or(Standing::Visible, Standing::Shadowed)
    }

    /// The turns of a path's steps; `None` if it is not reached, or not with this mark.
    fn reached_by(&self, start: u8, steps: &[(u8, u8)], mark: u16) -> Option<Vec<u8>> {
        if start != self.start {
            return None;
        }
        let (mut at, mut state, mut path) = (start, 0, bit(start));
        let mut turns = Vec::with_capacity(steps.len());
        for &(label, to) in steps {
            let next = self.rules.next[state as usize][label as usize];
            if next == NONE || path & bit(to) != 0 {
                return None;
            }
            let mut leaving = self.rules.leaving(at).iter();
            let i = leaving.position(|e| (e.label, e.to) == (label, to))?;
            turns.push(self.rules.turns_leaving(at)[i]);
            (at, state, path) = (to, next, path | bit(to));
        }
        let ends = self.rules.accepts(state) && self.marks(at).any(|m| m == mark);
        ends.then_some(turns)
    }
}

/// An open pair, and the places where a path may go on by its end.
struct Goal {
    scope: u8,
    end: u8,
    targets: Places,
}
