//! Answers the cases of `crates/trials/stdin` on standard output, in the form of the `stdout`
//! beside it: a check of this implementation against answers made by other code.
//! `tests/trials/cases/case_file.py` says how cases stand.

use plain::answers::Standing;
use plain::path_row::{self, Compared, PathRow, Step};
use plain::{answers, gym, row_changes};
use std::io::{self, Read, Write};

const BLANK: Step = Step {
    letter: 0,
    scope: 255,
};

fn sum(numbers: impl Iterator<Item = u64>) -> u64 {
    numbers.fold(0, |s, x| (s * 1_000_003 + x + 1) % 4_294_967_291)
}

fn byte_sum(bytes: &[u8]) -> u64 {
    sum(bytes.iter().map(|&b| u64::from(b)))
}

fn halves(cells: &[u64]) -> impl Iterator<Item = u64> + '_ {
    cells.iter().flat_map(|c| [c >> 32, c & 0xFFFF_FFFF])
}

fn kept<T: PartialEq>(lent: &[T], filler: T) -> &'static str {
    if lent.iter().all(|x| *x == filler) {
        "kept"
    } else {
        "CHANGED"
    }
}

fn back(same: bool) -> &'static str {
    if same {
        "back the same"
    } else {
        "back ANOTHER"
    }
}

fn read(text: &[u8], room: usize) -> String {
    let mut table = vec![7; room];
    match gym::read(text, &mut table) {
        Err(number) => format!("refused {number}, all {}\n", kept(&table, 7)),
        Ok(len) => {
            let mut out = vec![0; text.len()];
            let same = gym::write(&table[..len], &mut out) == Ok(text.len()) && out == text;
            let (sum, rest) = (sum(halves(&table[..len])), kept(&table[len..], 7));
            format!("read {len} sum {sum}, rest {rest}, {}\n", back(same))
        }
    }
}

type Conversion = fn(&[u8], &mut [u8]) -> Result<usize, u8>;

/// A text converted, and what comes out converted back by `other`.
fn convert(text: &[u8], room: usize, there: Conversion, other: Conversion) -> String {
    let mut out = vec![b'#'; room];
    match there(text, &mut out) {
        Err(number) => format!("refused {number}, all {}\n", kept(&out, b'#')),
        Ok(len) => {
            let mut again = vec![0; text.len()];
            let same = other(&out[..len], &mut again) == Ok(text.len()) && again == text;
            let (sum, rest) = (byte_sum(&out[..len]), kept(&out[len..], b'#'));
            let back = if out[..len] == *text {
                "as it was"
            } else {
                back(same)
            };
            format!("converted {len} sum {sum}, rest {rest}, {back}\n")
        }
    }
}

/// Numbers in hexadecimal.
fn numbers(body: &[u8]) -> Vec<u64> {
    let text = std::str::from_utf8(body).expect("numbers");
    text.split_whitespace()
        .map(|w| u64::from_str_radix(w, 16).expect("a number"))
        .collect()
}

fn write(body: &[u8], room: usize) -> String {
    let cells = numbers(body);
    let mut out = vec![b'#'; room];
    match gym::write(&cells, &mut out) {
        Err(number) => format!("refused {number}, all {}\n", kept(&out, b'#')),
        Ok(len) => {
            let mut table = vec![0; cells.len()];
            let same = gym::read(&out[..len], &mut table) == Ok(cells.len()) && table == cells;
            let (sum, rest) = (byte_sum(&out[..len]), kept(&out[len..], b'#'));
            format!("written {len} sum {sum}, rest {rest}, {}\n", back(same))
        }
    }
}

fn tested(body: &[u8]) -> String {
    let refusal = gym::text_of(&numbers(body)).err().unwrap_or(0);
    format!("tested {refusal}\n")
}

/// The line from a place on: where its LF stands, and the place after it.
fn line_from(text: &[u8], at: usize) -> String {
    let rest = text.get(at..).unwrap_or(&[]);
    match rest.iter().position(|&b| b == b'\n') {
        None => "no line\n".to_string(),
        Some(n) => format!("line {} next {}\n", at + n, at + n + 1),
    }
}

fn apart(row: &[u8], room: usize) -> String {
    let Some(parts) = PathRow::parse(row) else {
        return "refused 8\n".to_string();
    };
    let steps: String = parts
        .steps
        .iter()
        .map(|s| format!(" {}{}", s.letter as char, s.scope))
        .collect();
    format!(
        "mark {} start {} steps {}{steps}, {}",
        parts.mark,
        parts.start,
        parts.steps.len(),
        row_put(&parts.write(), room, row)
    )
}

/// A row put into a buffer of `room` bytes, and whether it is the one that is due.
fn row_put(written: &[u8], room: usize, due: &[u8]) -> String {
    if written.len() > room {
        return "refused 9, all kept\n".to_string();
    }
    let (len, sum) = (written.len(), byte_sum(written));
    format!(
        "written {len} sum {sum}, rest kept, {}\n",
        back(written == due)
    )
}

/// A row from its parts: mark, start, how many steps, how many letters and scopes are lent, then 80
/// of each. Past the lent ones a step has 0.
fn from_parts(body: &[u8], room: usize) -> String {
    let n = numbers(body);
    let (mark, start, count) = (n[0], n[1], n[2]);
    let lent = |len: u64, from: usize, i: u64| if i < len { n[from + i as usize] } else { 0 };
    let step = |i: u64| (lent(n[3], 5, i), lent(n[4], 85, i));
    let well = mark <= 65_535 && start < 64 && count <= 63;
    if !well || !(0..count).all(|i| (65..=90).contains(&step(i).0) && step(i).1 < 64) {
        return "refused 8, all kept\n".to_string();
    }
    let row = PathRow {
        mark: mark as u16,
        start: start as u8,
        steps: (0..count)
            .map(|i| Step {
                letter: step(i).0 as u8,
                scope: step(i).1 as u8,
            })
            .collect(),
    };
    let written = row.write();
    let same = PathRow::parse(&written) == Some(row);
    row_put(&written, room, if same { &written } else { b"" })
}

/// The places of the rows that leave a scope, above the first row of a later one.
fn edge_rows(body: &[u8], scope: u64) -> String {
    let cells = numbers(body);
    let rows = cells.chunks_exact(6).enumerate();
    let found = rows
        .take_while(|(_, row)| row[1] <= scope)
        .filter(|(_, row)| row[1] == scope)
        .map(|(i, _)| format!(" {}", 6 * i));
    format!("found{}\n", found.collect::<String>())
}

/// What a lent cell holds before it is used.
const CELL: u64 = 12_297_829_382_473_034_410;

/// A row's five values, those that are missing 0.
fn row_values(body: &[u8]) -> [u64; 5] {
    let given = numbers(body);
    std::array::from_fn(|i| given.get(i).copied().unwrap_or(0))
}

fn row_place(body: &[u8], section: u64, row: &[u8]) -> String {
    let (at, there) = row_changes::place(&numbers(body), section, &row_values(row));
    format!("{} {at}\n", if there { "there" } else { "free" })
}

fn edge_sought(body: &[u8], row: &[u8]) -> String {
    let there = row_changes::has_edge(&numbers(body), &row_values(row));
    let answer = if there { "has it" } else { "has it not" };
    format!("{answer}\n")
}

/// A table of `room` cells with those of a body at its front, changed, and the sum of all of them.
fn changed(body: &[u8], room: usize, change: impl Fn(&[u64]) -> Vec<u64>) -> String {
    let mut cells = numbers(body);
    cells.truncate(room);
    let out = change(&cells);
    let mut table = vec![CELL; room];
    table[..cells.len()].copy_from_slice(&cells);
    if room < out.len() {
        return format!("refused 9 sum {}\n", sum(halves(&table)));
    }
    table[..out.len()].copy_from_slice(&out);
    format!("used {} sum {}\n", out.len(), sum(halves(&table)))
}

fn judge(text: &[u8], query: usize, row: &[u8], room: usize) -> String {
    match answers::judge(text, query, row, &mut vec![BLANK; room]) {
        Err(number) => format!("refused {number}\n"),
        Ok(Standing::Visible) => "visible\n".to_string(),
        Ok(Standing::Shadowed(n)) => format!("shadowed {n}\n"),
        Ok(Standing::Unreached) => "unreached\n".to_string(),
    }
}

fn compare(text: &[u8], first: &[u8], second: &[u8], n: usize, m: usize) -> String {
    // More records than any row has steps are as good as the numbers that the cases ask for.
    let (mut a, mut b) = (vec![BLANK; n.min(1000)], vec![BLANK; m.min(1000)]);
    let answer = match path_row::compare(text, first, second, &mut a, &mut b) {
        Err(number) => format!("refused {number}"),
        Ok(Compared::First(n)) => format!("first {n}"),
        Ok(Compared::Second(n)) => format!("second {n}"),
        Ok(Compared::Neither(n)) => format!("neither {n}"),
    };
    let records = |table: &[Step]| table.iter().filter(|s| **s != BLANK).count();
    format!("{answer}, records {} and {}\n", records(&a), records(&b))
}

fn shown(verb: &str, room: usize, put: impl Fn(&mut [u8]) -> Result<usize, u8>) -> String {
    let mut out = vec![b'#'; room];
    match put(&mut out) {
        Err(number) => format!("refused {number}, all {}\n", kept(&out, b'#')),
        Ok(len) => {
            let text = if len <= 4096 {
                String::from_utf8_lossy(&out[..len])
            } else {
                "".into()
            };
            let (sum, rest) = (byte_sum(&out[..len]), kept(&out[len..], b'#'));
            format!("{verb} {len} sum {sum}, rest {rest}\n{text}")
        }
    }
}

/// A text with its scopes renumbered, the list in a buffer of its own, and the way back from both.
fn renumber(text: &[u8], room: usize, places: usize) -> String {
    let (mut out, mut list) = (vec![b'#'; room], vec![b'#'; places]);
    match answers::renumber(text, &mut out, &mut list) {
        Err(number) => format!(
            "refused {number}, all {}\nlist, all {}\n",
            kept(&out, b'#'),
            kept(&list, b'#')
        ),
        Ok((n, m)) => {
            let put = |verb, lent: &[u8], n| {
                shown(verb, lent.len(), |out| {
                    out.copy_from_slice(lent);
                    Ok(n)
                })
            };
            let mut again = vec![0; text.len()];
            let gone = answers::back(&out[..n], &list[..m], &mut again);
            let same = gone == Ok(text.len()) && again == text;
            let both = format!("both, {}\n", back(same));
            put("renumbered", &out, n) + &put("list", &list, m) + &both
        }
    }
}

fn counted(text: &[u8], query: usize) -> String {
    match answers::beginnings(text, query) {
        Err(number) => format!("refused {number}\n"),
        Ok(count) => format!("count {count}\n"),
    }
}

/// A file drawn, and the drawing put into that file.
fn drawn(text: &[u8], room: usize) -> String {
    let mut out = vec![b'#'; room];
    match answers::dot(text, &mut out) {
        Err(number) => format!("refused {number}, all {}\n", kept(&out, b'#')),
        Ok(len) => {
            let mut again = vec![0; text.len()];
            let same =
                answers::undot(text, &out[..len], &mut again) == Ok(text.len()) && again == text;
            let (sum, rest) = (byte_sum(&out[..len]), kept(&out[len..], b'#'));
            let short = if len <= 4096 { &out[..len] } else { &[] };
            let shown = String::from_utf8_lossy(short);
            format!(
                "drawn {len} sum {sum}, rest {rest}, {}\n{shown}",
                back(same)
            )
        }
    }
}

/// A drawing put into a file.
fn taken(text: &[u8], drawn: &[u8], room: usize) -> String {
    let mut out = vec![b'#'; room];
    match answers::undot(text, drawn, &mut out) {
        Err(number) => format!("refused {number}, all {}\n", kept(&out, b'#')),
        Ok(len) => {
            let (sum, rest) = (byte_sum(&out[..len]), kept(&out[len..], b'#'));
            format!("taken {len} sum {sum}, rest {rest}\n")
        }
    }
}

/// A query's listing, and the number beside it, which a refusal leaves as it was.
fn followed(text: &[u8], query: usize, room: usize) -> String {
    let listed = shown("listed", room, |out| answers::listing(text, query, out));
    match answers::beginnings(text, query) {
        Ok(count) if !listed.starts_with("refused") => listed + &format!("number {count}\n"),
        _ => listed + "number kept\n",
    }
}

fn main() -> io::Result<()> {
    let mut input = Vec::new();
    io::stdin().lock().read_to_end(&mut input)?;
    let mut rest = &input[..];
    let mut body = Vec::new();
    let mut stdout = io::stdout().lock();
    while !rest.is_empty() {
        let line = rest.iter().position(|&b| b == b'\n').expect("a line");
        let head = std::str::from_utf8(&rest[..line]).expect("a head");
        let words: Vec<&str> = head.split_whitespace().collect();
        let hex = |n: usize| u64::from_str_radix(words[n], 16).expect("a number") as usize;
        let (width, keep, len) = (hex(1), hex(2), hex(3));
        let (number, room) = (hex(6), hex(7));
        let title = &rest[line + 1..line + 1 + width];
        body.truncate(keep);
        body.extend_from_slice(&rest[line + 2 + width..line + 2 + width + len]);
        rest = &rest[line + 3 + width + len..];
        let (text, rows) = body.split_at(hex(4));
        let (first, second) = rows.split_at(hex(5));
        let listing = |n: usize| shown("listed", room, |out| answers::listing(text, n, out));
        let summary = || shown("summed", room, |out| answers::summary(text, out));
        let answer = match words[0] {
            "r" => read(text, room),
            "w" => write(text, room),
            "y" => tested(text),
            "z" => line_from(text, number),
            "n" => format!(
                "seeks <{}>\n",
                String::from_utf8_lossy(gym::name_sought(text, number))
            ),
            "p" if first.starts_with(b"=") => from_parts(&first[1..], room),
            "p" => apart(first, room),
            "e" => edge_rows(text, number as u64),
            "q" => row_place(text, number as u64, first),
            "i" => changed(text, room, |cells| {
                row_changes::inserted(cells, number as u64, &row_values(first))
            }),
            "t" => changed(text, room, |cells| {
                row_changes::removed(cells, number as u64, &row_values(first))
            }),
            "Q" => edge_sought(text, first),
            "I" => changed(text, room, |cells| {
                row_changes::put_at(cells, number, &numbers(first))
            }),
            "T" => changed(text, room, |cells| row_changes::taken_at(cells, number)),
            "m" => changed(text, room, |cells| {
                row_changes::replaced(cells, number as u64, &numbers(first))
            }),
            "j" => judge(text, number, first, room),
            "c" => compare(text, first, second, number, room),
            "l" => listing(number),
            "s" => summary(),
            "b" => counted(text, number),
            "f" => followed(text, number, room),
            "o" => convert(text, room, answers::to_old, answers::to_new),
            "k" => convert(text, room, answers::to_new, answers::to_old),
            "x" => shown("ruled", room, |out| answers::rules(text, first, out)),
            "d" => shown("readers", room, |out| answers::readers(text, number, out)),
            "u" => renumber(text, room, number),
            "v" => shown("back", room, |out| answers::back(text, first, out)),
            "g" => drawn(text, room),
            "h" => taken(text, second, room),
            "a" => (0..number).map(listing).chain([summary()]).collect(),
            _ => "A KIND UNKNOWN HERE\n".to_string(),
        };
        stdout.write_all(title)?;
        stdout.write_all(b": ")?;
        stdout.write_all(answer.as_bytes())?;
    }
    Ok(())
}
