//! Random DOT texts for a gym: its own drawing with its statements mixed and its blanks varied,
//! other edges, and faults of every kind.

use crate::gym::{Gym, EDGE_LIMIT};
use crate::random::Rng;

/// A drawing's edge: where it comes from, its letter, where it leads.
type Arrow = (usize, u8, usize);

/// Numbers from 0 up in any sequence; seldom one missing, one twice, or another too.
fn scopes(rng: &mut Rng, count: usize) -> Vec<usize> {
    let mut scopes: Vec<usize> = (0..count).collect();
    rng.shuffle(&mut scopes);
    match rng.below(30) {
        0 => {
            scopes.remove(rng.below(count));
        }
        1 => scopes.insert(rng.below(count + 1), rng.below(count)),
        2 => scopes.insert(rng.below(count + 1), count + rng.below(3)),
        3 => scopes[0] = *rng.pick(&[count, 63, 64, 99_999]),
        _ => {}
    }
    scopes
}

fn arrow(rng: &mut Rng, count: usize, letters: &[u8]) -> Arrow {
    let letter = if letters.is_empty() {
        b'A'
    } else {
        *rng.pick(letters)
    };
    (rng.below(count), letter, rng.below(count))
}

/// The gym's edges in any sequence, or others; seldom more than a file may have.
fn arrows(rng: &mut Rng, gym: &Gym) -> Vec<Arrow> {
    let count = gym.scopes as usize;
    let mut arrows: Vec<Arrow> = match rng.below(3) {
        0 => {
            let some = rng.below(2 * count + 2);
            (0..some).map(|_| arrow(rng, count, &gym.labels)).collect()
        }
        _ => {
            let label = |l: u8| gym.labels[l as usize];
            let edges = gym.edges.iter();
            edges
                .map(|e| (e.from as usize, label(e.label), e.to as usize))
                .collect()
        }
    };
    if gym.labels.len() * count * count > EDGE_LIMIT && rng.below(4) == 0 {
        // from each scope by each label to each, the most of a file and two more or less
        let all = gym
            .labels
            .iter()
            .flat_map(|&l| (0..count * count).map(move |i| (i / count, l, i % count)));
        arrows = all.take(EDGE_LIMIT - 2 + rng.below(5)).collect();
    }
    rng.shuffle(&mut arrows);
    let at = rng.below(arrows.len() + 1);
    match rng.below(16) {
        0 => arrows.insert(at, (count + rng.below(2), *rng.pick(b"AIP"), 0)),
        1 => arrows.insert(
            at,
            (0, *rng.pick(b"IPQZ"), *rng.pick(&[0, count, 64, 99_999])),
        ),
        2 | 3 if !arrows.is_empty() => {
            let again = *rng.pick(&arrows);
            arrows.insert(at, again);
        }
        _ => {}
    }
    arrows
}

/// The tokens of a drawing.
fn tokens(scopes: &[usize], arrows: &[Arrow]) -> Vec<Vec<u8>> {
    let mut tokens: Vec<Vec<u8>> = vec![b"digraph".to_vec(), b"scopes".to_vec(), b"{".to_vec()];
    for scope in scopes {
        tokens.extend([scope.to_string().into_bytes(), b";".to_vec()]);
    }
    for &(from, letter, to) in arrows {
        tokens.push(from.to_string().into_bytes());
        tokens.push(b"->".to_vec());
        tokens.push(to.to_string().into_bytes());
        tokens.extend([&b"["[..], b"label", b"="].map(<[u8]>::to_vec));
        tokens.push(vec![b'"', letter, b'"']);
        tokens.extend([&b"]"[..], b";"].map(<[u8]>::to_vec));
    }
    tokens.push(b"}".to_vec());
    tokens
}

const OTHER_TOKENS: [&[u8]; 20] = [
    b"{", b"}", b"[", b"]", b";", b"=", b"->", b"--", b"- >", b"\"P\"", b"\"p\"", b"\"PI\"", b"P",
    b"0", b"04", b"100000", b"label", b"scopes", b"graph", b"//",
];

/// A token left out, said twice, exchanged with another, or another in its place.
fn other_tokens(rng: &mut Rng, tokens: &mut Vec<Vec<u8>>) {
    let i = rng.below(tokens.len());
    match rng.below(5) {
        0 => {
            tokens.remove(i);
        }
        1 => tokens.insert(i, tokens[i].clone()),
        2 => {
            let j = rng.below(tokens.len());
            tokens.swap(i, j);
        }
        3 => tokens.truncate(i),
        _ => tokens[i] = rng.pick(&OTHER_TOKENS).to_vec(),
    }
}

/// A scope's statement moved behind an edge's, where there are both.
fn scope_behind(tokens: &mut Vec<Vec<u8>>) {
    let close = tokens.len() - 1;
    if tokens.get(4).is_some_and(|token| token == b";") {
        let statement: Vec<Vec<u8>> = tokens.drain(3..5).collect();
        tokens.splice(close - 2..close - 2, statement);
    }
}

/// The text of tokens, with as many blanks between them as fall.
fn spaced(rng: &mut Rng, tokens: &[Vec<u8>]) -> Vec<u8> {
    let thick = *rng.pick(&[1, 2, 2, 3, 9]);
    let mut text = Vec::new();
    for (i, token) in tokens.iter().enumerate() {
        let blanks = rng
            .below(thick)
            .max(usize::from(i == 1 && rng.below(60) > 0));
        text.extend((0..blanks).map(|_| *rng.pick(b" \t\n")));
        text.extend_from_slice(token);
    }
    text.extend((0..rng.below(3)).map(|_| *rng.pick(b" \t\n")));
    text
}

/// A byte left out, put in or changed.
fn other_byte(rng: &mut Rng, text: &mut Vec<u8>) {
    let i = rng.below(text.len() + 1);
    let byte = *rng.pick(b" \t\n\r\0;}{]0497->\"Pp=dx/");
    match rng.below(3) {
        0 if i < text.len() => {
            text.remove(i);
        }
        1 if i < text.len() => text[i] = byte,
        _ => text.insert(i, byte),
    }
}

const FIRST_LINES: [&[u8]; 6] = [
    b"// turns dropped\n",
    b"// turns dropped\n",
    b"// turns dropped\n",
    b"// turns dropped\n// turns dropped\n",
    b"// turns dropped",
    b"\n// turns dropped\n",
];

/// A DOT text for a gym, whole or with a fault.
pub fn drawing(rng: &mut Rng, gym: &Gym) -> Vec<u8> {
    let scopes = scopes(rng, gym.scopes as usize);
    let arrows = arrows(rng, gym);
    let mut tokens = tokens(&scopes, &arrows);
    match rng.below(16) {
        0 | 1 => other_tokens(rng, &mut tokens),
        2 => scope_behind(&mut tokens),
        _ => {}
    }
    let mut text = spaced(rng, &tokens);
    if rng.below(12) == 0 {
        other_byte(rng, &mut text);
    }
    if rng.below(5) == 0 {
        text = [*rng.pick(&FIRST_LINES), &text].concat();
    }
    text
}
