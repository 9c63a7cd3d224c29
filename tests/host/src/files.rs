//! The files that the test is run on: random, damaged, faulty, and at the limits.

use plain::random::{damage, gym, Rng, MIDDLE, SMALL};

/// Where a line that is this names line stands.
fn names_line(lines: &[&[u8]], names: &[u8]) -> Option<usize> {
    lines.iter().position(|line| *line == names)
}

/// The file without its order pairs; the file as it is where it is too damaged to tell them.
pub fn without_pairs(text: &[u8]) -> Vec<u8> {
    let mut lines: Vec<&[u8]> = text.split_inclusive(|&b| b == b'\n').collect();
    if let (Some(less), Some(state)) = (names_line(&lines, b"less more\n"), names_line(&lines, b"state label next\n")) {
        if less < state {
            lines.drain(less + 1..state);
        }
    }
    lines.concat()
}

/// The file with every turn 0, its edges sorted; the file as it is where it says no turns or is too damaged to tell them.
pub fn without_turns(text: &[u8]) -> Vec<u8> {
    let mut lines: Vec<Vec<u8>> = text.split_inclusive(|&b| b == b'\n').map(<[u8]>::to_vec).collect();
    let at = |names: &[u8]| lines.iter().position(|line| line == names);
    let (Some(first), Some(last)) = (at(b"from label turn to\n"), at(b"at kind name mark\n")) else {
        return text.to_vec();
    };
    let labels: Vec<Vec<u8>> = lines.iter().skip(1).take_while(|line| *line != b"less more\n").cloned().collect();
    let mut rows = Vec::new();
    for line in lines.get(first + 1..last).unwrap_or(&[]) {
        let fields: Vec<String> = String::from_utf8_lossy(line).trim_end().split(' ').map(String::from).collect();
        let number = |i: usize| fields.get(i).and_then(|field| field.parse::<usize>().ok());
        let letter = fields.get(1).map(|letter| format!("{letter}\n").into_bytes());
        let label = labels.iter().position(|l| Some(l) == letter.as_ref());
        let (Some(from), Some(label), Some(to)) = (number(0), label, number(3)) else {
            return text.to_vec();
        };
        rows.push((from, label, to, format!("{from} {} 0 {to}\n", fields[1]).into_bytes()));
    }
    rows.sort();
    for (line, row) in lines[first + 1..].iter_mut().zip(rows) {
        *line = row.3;
    }
    lines.concat()
}

/// The names lines by which the forms of file differ, the old one first.
const LINES: [[&[u8]; 2]; 3] = [
    [b"from label to\n", b"from label turn to\n"],
    [b"at name mark\n", b"at kind name mark\n"],
    [b"start seek\n", b"start kind seek\n"],
];

/// A file that is whole line by line, with a fault that small damage seldom makes: an order pair
/// left out, an order pair with equal ends, a second count of scopes, an edge that is there at
/// another turn, one names line of another form or all.
fn faulty(rng: &mut Rng, text: &[u8]) -> Vec<u8> {
    let mut lines: Vec<&[u8]> = text.split_inclusive(|&b| b == b'\n').collect();
    let at = |names: &[u8]| names_line(&lines, names).expect("an accepted file has them all");
    let pairs = at(b"less more\n") + 1..at(b"state label next\n");
    let scopes = at(b"scopes\n") + 1;
    let edges = names_line(&lines, b"from label turn to\n").zip(names_line(&lines, b"at kind name mark\n"));
    let again;
    match rng.below(6) {
        0 if !pairs.is_empty() => {
            lines.remove(pairs.start + rng.below(pairs.len()));
        }
        1 => {
            lines.splice(pairs, [&b"$ $\n"[..]]);
        }
        2 => other_line(&mut lines, LINES[rng.below(3)]),
        4 if edges.is_some_and(|(first, last)| first + 1 < last) => {
            let (first, last) = edges.expect("edges");
            let edge = first + 1 + rng.below(last - first - 1);
            again = at_turn_99(lines[edge]);
            lines.insert(last, &again);
        }
        3 => LINES.into_iter().for_each(|both| other_line(&mut lines, both)),
        _ => lines.insert(scopes, lines[scopes]),
    }
    lines.concat()
}

/// An edge with the turn 99.
fn at_turn_99(row: &[u8]) -> Vec<u8> {
    let mut fields: Vec<&[u8]> = row.split(|&b| b == b' ').collect();
    fields[2] = b"99";
    fields.join(&b' ')
}

/// One form's names line put in place of the other's.
fn other_line<'a>(lines: &mut [&'a [u8]], both: [&'a [u8]; 2]) {
    for line in lines {
        if let Some(form) = both.iter().position(|names| names == line) {
            *line = both[1 - form];
        }
    }
}

/// A random file of any form: small or of middle size, whole or with a fault.
pub fn file(rng: &mut Rng) -> Vec<u8> {
    let text = if rng.below(4) == 0 { gym(rng, MIDDLE) } else { gym(rng, SMALL) };
    match rng.below(6) {
        0 | 1 => damage(rng, &text),
        2 => faulty(rng, &text),
        _ => text,
    }
}

/// The file whose walk goes deepest: it enters each of 504 edges that leave one scope, without an
/// order, and has a frame for each of them when it is at the last.
fn widest() -> Vec<u8> {
    let labels = "ABCDEFGH";
    let lines = |section: &str, rows: Vec<String>| format!("{section}\n{}", rows.concat());
    let mut text = lines("label", labels.chars().map(|l| format!("{l}\n")).collect());
    text += "less more\n";
    text += &lines("state label next", labels.chars().map(|l| format!("0 {l} 1\n")).collect());
    text += "accept\n1\nscopes\n64\n";
    text += &lines("from label to", labels.chars().flat_map(|l| (1..64).map(move |to| format!("0 {l} {to}\n"))).collect());
    text += &lines("at name mark", (1..64).map(|at| format!("{at} service 1\n")).collect());
    text += "at open\n0 A\nstart seek\n0 service\n";
    text.into_bytes()
}

/// A file whose search goes deep: all 512 edges leave one scope, and only the last one leads to the
/// name, so that the walk is at that row when it asks about the labels that are preferred to its
/// own, and each question goes through all the rows again.
fn deepest() -> Vec<u8> {
    let mut text = String::from("label\n");
    let labels = "ABCDEFGH";
    let lines = |section: &str, rows: Vec<String>| format!("{section}\n{}", rows.concat());
    text += &labels.chars().map(|l| format!("{l}\n")).collect::<String>();
    let pairs = labels.chars().flat_map(|a| format!("${labels}").chars().filter(move |&b| b == '$' || a < b).map(move |b| format!("{a} {b}\n")).collect::<Vec<_>>());
    text += &lines("less more", pairs.collect());
    text += &lines("state label next", labels.chars().enumerate().map(|(next, l)| format!("0 {l} {next}\n")).collect());
    text += "accept\n7\nscopes\n64\n";
    text += &lines("from label to", labels.chars().flat_map(|l| (0..64).map(move |to| format!("0 {l} {to}\n"))).collect());
    text += "at name mark\n63 service 1\nat open\n63 $\nstart seek\n0 service\n";
    text.into_bytes()
}

/// Files at the limits: empty, the longest, one byte more, those that go deepest.
pub fn limits() -> Vec<Vec<u8>> {
    let longest = vec![b'0'; tewhoranu::TEXT];
    let longer = vec![b'0'; tewhoranu::TEXT + 1];
    vec![Vec::new(), b"\n".to_vec(), b"label".to_vec(), longest, longer, vec![0xff; 100], deepest(), widest()]
}
