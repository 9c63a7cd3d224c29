//! Calls one function of our library, or of the plain implementation, on a gym file, so many times over: bench/run counts the instructions of
//! both. `library (ours|plain) (read|write|listing|listing_counted|summary|rules|readers|renumber|back|dot|undot) FILE TIMES`. Prints a sum over
//! what was written, which must be the same on both sides.

use plain::random::{expression, Rng};
use std::{env, fs};

fn sum(cells: impl Iterator<Item = u64>) -> u64 {
    cells.fold(0, |s: u64, c| s.wrapping_mul(31).wrapping_add(c))
}

/// How many cells were read; 0 for a refusal.
fn read(ours: bool, text: &[u8], table: &mut [u64]) -> usize {
    if ours {
        tewhoranu::read(text, table).unwrap_or(0)
    } else {
        plain::gym::read(text, table).unwrap_or(0)
    }
}

fn write(ours: bool, table: &[u64], out: &mut [u8]) -> usize {
    if ours {
        tewhoranu::write(table, out).unwrap_or(0)
    } else {
        plain::gym::write(table, out).unwrap_or(0)
    }
}

fn listing(ours: bool, text: &[u8], query: usize, out: &mut [u8]) -> Option<usize> {
    if ours {
        tewhoranu::listing(text, query, out).ok()
    } else {
        plain::answers::listing(text, query, out).ok()
    }
}

/// A listing and its number of lawful beginnings.
fn listing_counted(ours: bool, text: &[u8], query: usize, out: &mut [u8]) -> Option<(usize, u64)> {
    if ours {
        tewhoranu::listing_counted(text, query, out).ok()
    } else {
        let n = plain::answers::listing(text, query, out).ok()?;
        Some((n, plain::answers::beginnings(text, query).ok()?))
    }
}

fn summary(ours: bool, text: &[u8], out: &mut [u8]) -> usize {
    if ours {
        tewhoranu::summary(text, out).unwrap_or(0)
    } else {
        plain::answers::summary(text, out).unwrap_or(0)
    }
}

/// Who sees a declaration, by its place.
fn readers(ours: bool, text: &[u8], place: usize, out: &mut [u8]) -> usize {
    if ours {
        tewhoranu::readers(text, place, out).unwrap_or(0)
    } else {
        plain::answers::readers(text, place, out).unwrap_or(0)
    }
}

/// The file with its scopes numbered for storage, and the list.
fn renumber(ours: bool, text: &[u8], out: &mut [u8], list: &mut [u8]) -> (usize, usize) {
    if ours {
        tewhoranu::renumber(text, out, list).unwrap_or((0, 0))
    } else {
        plain::answers::renumber(text, out, list).unwrap_or((0, 0))
    }
}

/// The way back.
fn back(ours: bool, text: &[u8], was: &[u8], out: &mut [u8]) -> usize {
    if ours {
        tewhoranu::back(text, was, out).unwrap_or(0)
    } else {
        plain::answers::back(text, was, out).unwrap_or(0)
    }
}

/// The file in the DOT language.
fn dot(ours: bool, text: &[u8], out: &mut [u8]) -> usize {
    if ours {
        tewhoranu::dot(text, out).unwrap_or(0)
    } else {
        plain::answers::dot(text, out).unwrap_or(0)
    }
}

/// The file with the edges of a DOT text.
fn undot(ours: bool, text: &[u8], drawing: &[u8], out: &mut [u8]) -> usize {
    if ours {
        tewhoranu::undot(text, drawing, out).unwrap_or(0)
    } else {
        plain::answers::undot(text, drawing, out).unwrap_or(0)
    }
}

/// How many expressions are drawn over a file's labels, from one seed.
const EXPRESSIONS: usize = 100;

/// The file with the path rules of each expression: a sum over what is put out, and over the numbers of refusals.
fn rules(ours: bool, text: &[u8], expressions: &[Vec<u8>], out: &mut [u8]) -> u64 {
    expressions.iter().fold(0, |s: u64, e| {
        let answer = if ours {
            tewhoranu::rules(text, e, out).map_err(|r| u64::from(r.number()))
        } else {
            plain::answers::rules(text, e, out).map_err(u64::from)
        };
        s.wrapping_add(answer.map_or_else(|number| number, |n| sum(out[..n].iter().map(|&b| b.into()))))
    })
}

/// Expressions over the labels of a file, whose first section has one a line.
fn drawn(text: &[u8]) -> Vec<Vec<u8>> {
    let rows = text.split(|&b| b == b'\n').skip(1);
    let letters: Vec<u8> = rows.take_while(|row| row.len() == 1).map(|row| row[0]).collect();
    let mut rng = Rng::new(6);
    (0..EXPRESSIONS).map(|_| expression(&mut rng, &letters)).collect()
}

fn main() {
    let words: Vec<String> = env::args().collect();
    let ours = match words[1].as_str() {
        "ours" => true,
        "plain" => false,
        other => panic!("ours or plain, not {other}"),
    };
    let text = fs::read(&words[3]).expect("the file");
    let times: usize = words[4].parse().expect("how many times");
    let mut table = vec![0; tewhoranu::CELLS];
    let mut out = vec![0; tewhoranu::LISTING];
    let cells = read(ours, &text, &mut table);
    let queries = text.split(|&b| b == b'\n').rev().skip(1).take_while(|l| l[0].is_ascii_digit()).count();
    let places = plain::gym::Gym::parse(&text).map_or(0, |gym| gym.declarations.len());
    let expressions = drawn(&text);
    let (numbered, was) = plain::renumbering::renumbered(&text).unwrap_or_default();
    let mut list = vec![0; tewhoranu::WAS];
    let drawing = plain::dot::dot(&text).unwrap_or_default();
    let mut total: u64 = 0;
    for _ in 0..times {
        let of = match words[2].as_str() {
            "read" => {
                let n = read(ours, &text, &mut table);
                sum(table[..n].iter().copied())
            }
            "write" => {
                let n = write(ours, &table[..cells], &mut out);
                sum(out[..n].iter().map(|&b| b.into()))
            }
            "listing" => (0..queries).fold(0, |s: u64, q| {
                let n = listing(ours, &text, q, &mut out).unwrap_or(0);
                s.wrapping_add(sum(out[..n].iter().map(|&b| b.into())))
            }),
            "listing_counted" => (0..queries).fold(0, |s: u64, q| {
                let (n, followed) = listing_counted(ours, &text, q, &mut out).unwrap_or((0, 0));
                s.wrapping_add(sum(out[..n].iter().map(|&b| b.into()).chain([followed])))
            }),
            "summary" => {
                let n = summary(ours, &text, &mut out);
                sum(out[..n].iter().map(|&b| b.into()))
            }
            "readers" => (0..places).fold(0, |s: u64, place| {
                let n = readers(ours, &text, place, &mut out);
                s.wrapping_add(sum(out[..n].iter().map(|&b| b.into())))
            }),
            "dot" => {
                let n = dot(ours, &text, &mut out);
                sum(out[..n].iter().map(|&b| b.into()))
            }
            "undot" => {
                let n = undot(ours, &text, &drawing, &mut out);
                sum(out[..n].iter().map(|&b| b.into()))
            }
            "rules" => rules(ours, &text, &expressions, &mut out),
            "renumber" => {
                let (n, m) = renumber(ours, &text, &mut out, &mut list);
                sum(out[..n].iter().chain(&list[..m]).map(|&b| b.into()))
            }
            "back" => {
                let n = back(ours, &numbered, &was, &mut out);
                sum(out[..n].iter().map(|&b| b.into()))
            }
            other => panic!("no function {other}"),
        };
        total = total.wrapping_mul(31).wrapping_add(of);
    }
    println!("{total}");
}
