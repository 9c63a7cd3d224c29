//! Scopes numbered for storage (02, K13): the list that a walk makes, the file under it, and the way
//! back from both.

use crate::gym::{
    number, push_number, push_sections, sections_of, Refusal, Row, DECLARATIONS, EDGES, OPEN,
    QUERIES, SCOPES,
};

type Sections = [Vec<Row>; 9];

const TITLE: &[u8] = b"was\n";

fn count(sections: &Sections) -> u64 {
    sections[SCOPES][0][0]
}

/// The old number of each new scope: those that a breadth-first walk meets, along the edges in row
/// sequence, and then the others.
fn breadth_first(sections: &Sections) -> Vec<u64> {
    let edges = &sections[EDGES];
    let start = sections[QUERIES].first().map_or(0, |row| row[0]);
    let mut list = vec![start];
    let mut met = 1u64 << start;
    let mut at = 0;
    while at < list.len() {
        let first = edges.partition_point(|row| row[0] < list[at]);
        for row in &edges[first..] {
            if row[0] != list[at] {
                break;
            }
            if met >> row[2] & 1 == 0 {
                met |= 1 << row[2];
                list.push(row[2]);
            }
        }
        at += 1;
    }
    list.extend((0..count(sections)).filter(|s| met >> s & 1 == 0));
    list
}

/// Gives each scope the number that the list has for it, and sorts the rows that ascend.
fn rename(sections: &mut Sections, number: &[u64]) {
    let new = |cell: &mut u64| *cell = number[*cell as usize];
    for section in [EDGES, DECLARATIONS, OPEN, QUERIES] {
        for row in &mut sections[section] {
            new(&mut row[0]);
            if section == EDGES {
                new(&mut row[2]);
            }
        }
    }
    // an edge's turn is its last cell, and stands before the scope that it leads to
    sections[EDGES].sort_unstable_by_key(|row| (row[0], row[1], row[3], row[2]));
    sections[DECLARATIONS].sort_unstable();
    sections[OPEN].sort_unstable();
}

/// The new number of each old scope.
fn inverse(list: &[u64]) -> Vec<u64> {
    let mut number = vec![0; list.len()];
    for (new, &old) in list.iter().enumerate() {
        number[old as usize] = new as u64;
    }
    number
}

/// The file renumbered, and the list.
pub fn renumbered(text: &[u8]) -> Result<(Vec<u8>, Vec<u8>), Refusal> {
    let (form, mut sections) = sections_of(text)?;
    let list = breadth_first(&sections);
    rename(&mut sections, &inverse(&list));
    let mut was = TITLE.to_vec();
    for scope in list {
        push_number(&mut was, scope);
        was.push(b'\n');
    }
    Ok((push_sections(form, &sections), was))
}

/// The scopes of a list that has each of them once.
fn listed(was: &[u8], scopes: u64) -> Option<Vec<u64>> {
    let mut rest = was.strip_prefix(TITLE)?;
    let mut list = Vec::new();
    let mut seen = 0u64;
    while !rest.is_empty() {
        let (scope, len) = number(rest)?;
        if rest.get(len) != Some(&b'\n') || scope >= scopes || seen >> scope & 1 == 1 {
            return None;
        }
        seen |= 1 << scope;
        list.push(scope);
        rest = &rest[len + 1..];
    }
    (list.len() as u64 == scopes).then_some(list)
}

/// The file with the old numbers.
pub fn gone_back(text: &[u8], was: &[u8]) -> Result<Vec<u8>, Refusal> {
    let (form, mut sections) = sections_of(text)?;
    let list = listed(was, count(&sections)).ok_or(17)?;
    rename(&mut sections, &list);
    Ok(push_sections(form, &sections))
}
