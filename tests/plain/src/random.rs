//! Random gyms in all forms of file, path rows, expressions, `was` lists, and damage to them. The same seed gives the same
//! inputs everywhere.

use crate::gym::Form;

pub struct Rng(u64);

impl Rng {
    pub fn new(seed: u64) -> Rng {
        Rng(seed.wrapping_mul(0x9E37_79B9_7F4A_7C15) | 1)
    }

    fn next(&mut self) -> u64 {
        self.0 ^= self.0 >> 12;
        self.0 ^= self.0 << 25;
        self.0 ^= self.0 >> 27;
        self.0.wrapping_mul(0x2545_F491_4F6C_DD1D)
    }

    pub fn below(&mut self, n: usize) -> usize {
        ((self.next() >> 33) % n as u64) as usize
    }

    pub fn pick<'a, T>(&mut self, items: &'a [T]) -> &'a T {
        &items[self.below(items.len())]
    }

    pub fn shuffle<T>(&mut self, items: &mut [T]) {
        for i in (1..items.len()).rev() {
            items.swap(i, self.below(i + 1));
        }
    }
}

/// How large the random gyms are at most.
#[derive(Clone, Copy)]
pub struct Size {
    pub labels: usize,
    pub states: usize,
    pub scopes: usize,
    pub edges: usize,
    pub declarations: usize,
    pub open: usize,
    pub queries: usize,
}

pub const SMALL: Size = Size {
    labels: 3,
    states: 3,
    scopes: 5,
    edges: 12,
    declarations: 8,
    open: 4,
    queries: 3,
};

/// For tests of program against program, where nothing is enumerated.
pub const MIDDLE: Size = Size {
    labels: 5,
    states: 6,
    scopes: 14,
    edges: 40,
    declarations: 14,
    open: 20,
    queries: 12,
};

/// Ascending, and one a beginning of the other.
const NAMES: [&str; 2] = ["service", "service_2"];
const KINDS: [&str; 3] = ["c", "l", "v"];
/// The turns that a file's edges take. In one of them the column is zeros.
const TURNS: [&[usize]; 5] = [&[0], &[0, 1], &[1, 2], &[0, 1, 2, 99], &[3, 9, 10, 50]];
const MARKS: [usize; 6] = [0, 1, 2, 10, 99, 65_535];

/// Up to `most` different numbers below `all`, ascending.
fn subset(rng: &mut Rng, all: usize, most: usize) -> Vec<usize> {
    let count = rng.below(most.min(all) + 1);
    chosen(rng, all, count)
}

/// So many different numbers below `all`, ascending.
fn chosen(rng: &mut Rng, all: usize, count: usize) -> Vec<usize> {
    let mut chosen: Vec<usize> = (0..all).collect();
    rng.shuffle(&mut chosen);
    chosen.truncate(count);
    chosen.sort();
    chosen
}

/// A strict order on the ends 0 to `ends` - 1: pairs from a random line, closed under chains.
fn order(rng: &mut Rng, ends: usize) -> Vec<(usize, usize)> {
    let mut line: Vec<usize> = (0..ends).collect();
    rng.shuffle(&mut line);
    let density = rng.below(5);
    let mut less = vec![vec![false; ends]; ends];
    for i in 0..ends {
        for j in i + 1..ends {
            less[i][j] = rng.below(4) < density;
        }
    }
    for k in 0..ends {
        for i in 0..ends {
            for j in 0..ends {
                less[i][j] |= less[i][k] && less[k][j];
            }
        }
    }
    let mut pairs = Vec::new();
    for i in 0..ends {
        for j in 0..ends {
            if less[i][j] {
                pairs.push((line[i], line[j]));
            }
        }
    }
    pairs.sort();
    pairs
}

fn form(rng: &mut Rng) -> Form {
    match rng.below(12) {
        0..=3 => Form::Old,
        4..=6 => Form::Kinds,
        _ => Form::Turns,
    }
}

/// The names that a file's rows take, ascending, as they stand in a row: in files with kinds up to
/// three of them, drawn. Most files with turns have a single one, which is then at many scopes.
fn names(rng: &mut Rng, form: Form) -> Vec<String> {
    if !form.has_kinds() {
        return NAMES.map(String::from).to_vec();
    }
    if form == Form::Turns && rng.below(4) > 0 {
        return vec![format!("{} {}", rng.pick(&KINDS), rng.pick(&NAMES))];
    }
    let kinds = &KINDS[rng.below(KINDS.len())..];
    let names = &NAMES[rng.below(NAMES.len())..];
    let each = |kind: &&str| {
        names
            .iter()
            .map(move |name| format!("{kind} {name}"))
            .collect::<Vec<_>>()
    };
    kinds.iter().flat_map(each).collect()
}

/// The edges' names line and rows; where the file has turns, these are drawn, and the rows are many,
/// so that several leave a scope by one label.
fn edges(rng: &mut Rng, form: Form, scopes: usize, letters: &[char], most: usize) -> String {
    let turns = *rng.pick(&TURNS);
    let labels = letters.len();
    let all = scopes * labels * scopes;
    let mut count = rng.below(most.min(all) + 1);
    if form == Form::Turns {
        count = count.max(most.min(all) * 2 / 3);
    }
    let mut rows = Vec::new();
    for edge in chosen(rng, all, count) {
        let (from, rest) = (edge / scopes / labels, edge % (scopes * labels));
        let turn = if form == Form::Turns {
            *rng.pick(turns)
        } else {
            0
        };
        rows.push((from, rest / scopes, turn, rest % scopes));
    }
    rows.sort();
    let line = |(from, label, turn, to): (usize, usize, usize, usize)| match form {
        Form::Turns => format!("{from} {} {turn} {to}\n", letters[label]),
        _ => format!("{from} {} {to}\n", letters[label]),
    };
    let names = match form {
        Form::Turns => "from label turn to\n",
        _ => "from label to\n",
    };
    rows.into_iter()
        .map(line)
        .fold(names.to_string(), |text, row| text + &row)
}

/// A gym file's text that is accepted.
pub fn gym(rng: &mut Rng, size: Size) -> Vec<u8> {
    let mut letters: Vec<char> = ('A'..='Z').collect();
    rng.shuffle(&mut letters);
    let form = form(rng);
    // Mostly with labels; a gym without any has one-scope paths only.
    let labels = if rng.below(20) == 0 {
        0
    } else if form == Form::Turns {
        1 + rng.below(size.labels.min(2))
    } else {
        1 + rng.below(size.labels)
    };
    let letters = &letters[..labels];
    let end = |e: usize| if e == 0 { '$' } else { letters[e - 1] };
    // Where turns decide, several edges of a label lead on: half of the files with turns have one
    // state, and all of them some scopes.
    let states = match form {
        Form::Turns if rng.below(2) == 0 => 1,
        _ => 1 + rng.below(size.states),
    };
    let scopes = match form {
        Form::Turns => 3 + rng.below(size.scopes - 2),
        _ => 1 + rng.below(size.scopes),
    };
    let mut text = String::from("label\n");
    for letter in letters {
        text += &format!("{letter}\n");
    }
    text += "less more\n";
    for (a, b) in order(rng, labels + 1) {
        text += &format!("{} {}\n", end(a), end(b));
    }
    text += "state label next\n";
    let sparse = rng.below(3);
    for state in 0..states {
        for letter in letters {
            if sparse == 0 || rng.below(4) > 0 {
                text += &format!("{state} {letter} {}\n", rng.below(states));
            }
        }
    }
    text += "accept\n";
    for state in 0..states {
        if rng.below(3) > 0 {
            text += &format!("{state}\n");
        }
    }
    let kinds = form.has_kinds();
    text += &format!("scopes\n{scopes}\n");
    text += &edges(rng, form, scopes, letters, size.edges);
    let names = names(rng, form);
    text += if kinds {
        "at kind name mark\n"
    } else {
        "at name mark\n"
    };
    let each = names.len() * MARKS.len();
    for decl in subset(rng, scopes * each, size.declarations) {
        let (at, rest) = (decl / each, decl % each);
        text += &format!(
            "{at} {} {}\n",
            names[rest / MARKS.len()],
            MARKS[rest % MARKS.len()]
        );
    }
    text += "at open\n";
    for open in subset(rng, scopes * (labels + 1), size.open) {
        text += &format!("{} {}\n", open / (labels + 1), end(open % (labels + 1)));
    }
    text += if kinds {
        "start kind seek\n"
    } else {
        "start seek\n"
    };
    for _ in 0..rng.below(size.queries + 1) {
        text += &format!("{} {}\n", rng.below(scopes), rng.pick(&names));
    }
    text.into_bytes()
}

const BYTES: &[u8] = b"0123456789 \n\n$ABIPZ[@abcvz_`{-/:+\x00\x7f\x80\xff";
const PIECES: [&str; 38] = [
    "0",
    "1",
    "15",
    "16",
    "63",
    "64",
    "65",
    "00",
    "05",
    "65535",
    "65536",
    "99999",
    "100000",
    "$",
    "I",
    "P",
    "Z",
    "service",
    "hours",
    "a",
    "abcdefghijklmnop",
    "abcdefghijklmnopq",
    " ",
    "\n",
    "accept",
    "start seek",
    "start kind seek",
    "at name mark",
    "at kind name mark",
    "from label to",
    "from label turn to",
    "turn ",
    "99",
    "100",
    "kind ",
    "c",
    "v ",
    "V",
];

/// One to three small faults in a text; it may still be accepted.
pub fn damage(rng: &mut Rng, text: &[u8]) -> Vec<u8> {
    let mut text = text.to_vec();
    for _ in 0..1 + rng.below(3) {
        damage_once(rng, &mut text);
    }
    text
}

fn damage_once(rng: &mut Rng, text: &mut Vec<u8>) {
    let at = rng.below(text.len() + 1);
    match rng.below(10) {
        0 => text.truncate(at),
        1 => text.insert(at, *rng.pick(BYTES)),
        2 if at < text.len() => {
            text.remove(at);
        }
        3 if at < text.len() => text[at] = *rng.pick(BYTES),
        4 => {
            let piece = *rng.pick(&PIECES);
            text.splice(at..at, piece.bytes());
        }
        5 if at < text.len() => {
            // A whole field is replaced.
            let is_gap = |b: &u8| *b == b' ' || *b == b'\n';
            let from = text[..at].iter().rposition(is_gap).map_or(0, |i| i + 1);
            let to = text[at..]
                .iter()
                .position(is_gap)
                .map_or(text.len(), |i| at + i);
            if from <= to {
                let piece = *rng.pick(&PIECES);
                text.splice(from..to, piece.bytes());
            }
        }
        _ => {
            // Lines are dropped, doubled, swapped or moved; the row limits are met by doubling many
            // times.
            let mut lines: Vec<Vec<u8>> = text
                .split_inclusive(|&b| b == b'\n')
                .map(<[u8]>::to_vec)
                .collect();
            if lines.is_empty() {
                return;
            }
            let (a, b) = (rng.below(lines.len()), rng.below(lines.len()));
            match rng.below(5) {
                0 => {
                    lines.remove(a);
                }
                1 => lines.insert(a, lines[a].clone()),
                2 => lines.swap(a, b),
                3 => {
                    let line = lines.remove(a);
                    lines.insert(b.min(lines.len()), line);
                }
                _ => {
                    let line = lines[a].clone();
                    let times = rng.below(40);
                    lines.splice(a..a, std::iter::repeat_n(line, times));
                }
            }
            *text = lines.concat();
        }
    }
}

/// A path row that may or may not be a path of the text's graph: scopes below `scopes`, letters
/// mostly of `letters`.
pub fn path_row(rng: &mut Rng, scopes: usize, letters: &[u8]) -> Vec<u8> {
    let mut row = format!("{} {}", rng.pick(&MARKS), rng.below(scopes)).into_bytes();
    for _ in 0..rng.below(5) {
        let listed = !letters.is_empty() && rng.below(8) > 0;
        row.push(if listed {
            *rng.pick(letters)
        } else {
            b'A' + rng.below(26) as u8
        });
        row.extend(rng.below(scopes).to_string().bytes());
    }
    row
}

/// A path row with a fault, or a very long one.
pub fn damaged_row(rng: &mut Rng, row: &[u8]) -> Vec<u8> {
    let mut row = row.to_vec();
    if rng.below(6) == 0 {
        for _ in 0..60 + rng.below(8) {
            row.push(b'A' + rng.below(26) as u8);
            let scopes = if rng.below(30) == 0 { 70 } else { 64 };
            row.extend(rng.below(scopes).to_string().bytes());
        }
        return row;
    }
    let at = rng.below(row.len() + 1);
    match rng.below(4) {
        0 => row.truncate(at),
        1 => row.insert(at, *rng.pick(BYTES)),
        2 if at < row.len() => {
            row.remove(at);
        }
        _ => {
            let piece = *rng.pick(&PIECES);
            row.splice(at..at, piece.bytes());
        }
    }
    row
}

/// A `was` list that has each of so many scopes once (02, K13), in any sequence.
pub fn was_list(rng: &mut Rng, scopes: usize) -> Vec<u8> {
    let mut list: Vec<usize> = (0..scopes).collect();
    rng.shuffle(&mut list);
    let lines = list.iter().map(|scope| format!("{scope}\n"));
    format!("was\n{}", lines.collect::<String>()).into_bytes()
}

/// Some cells of a graph table changed, dropped or added.
pub fn damaged_table(rng: &mut Rng, cells: &[u64]) -> Vec<u64> {
    let mut cells = cells.to_vec();
    for _ in 0..1 + rng.below(2) {
        if cells.is_empty() {
            return cells;
        }
        let at = rng.below(cells.len());
        let odd = [
            0,
            1,
            2,
            3,
            5,
            8,
            9,
            15,
            16,
            64,
            65,
            90,
            91,
            96,
            97,
            99,
            100,
            118,
            122,
            123,
            99_999,
            100_000,
            1 << 32,
            u64::MAX,
        ];
        match rng.below(5) {
            0 => cells.truncate(at),
            1 => {
                let row = at / 6 * 6;
                cells.drain((row + 1).min(cells.len())..(row + 7).min(cells.len()));
            }
            2 => cells[at] = cells[at].wrapping_add(1),
            3 => cells[at] = cells[at].wrapping_sub(1),
            _ => cells[at] = *rng.pick(&odd),
        }
    }
    cells
}

/// A drawn expression (02, K6) over the letters, now and then with a fault.
pub fn expression(rng: &mut Rng, letters: &[u8]) -> Vec<u8> {
    let letters: &[u8] = if letters.is_empty() { b"P" } else { letters };
    let depth = rng.below(4);
    let mut text = if rng.below(8) == 0 {
        remembering(rng, letters)
    } else {
        choice(rng, letters, depth)
    };
    let longest = if rng.below(10) == 0 { 12 } else { 10 };
    while text.iter().filter(|b| b.is_ascii_uppercase()).count() > longest {
        text = choice(rng, letters, 1);
    }
    if rng.below(5) == 0 {
        let at = rng.below(text.len() + 1);
        let byte = *rng.pick(b"()*|PZ \n$a");
        match rng.below(3) {
            0 if at < text.len() => text[at] = byte,
            1 if at < text.len() => {
                text.remove(at);
            }
            _ => text.insert(at, byte),
        }
    }
    if rng.below(60) == 0 {
        let times = 60 + rng.below(8);
        text.resize(text.len().max(times), b'*');
    }
    text
}

/// What came some letters ago decides: such an expression needs many states.
fn remembering(rng: &mut Rng, letters: &[u8]) -> Vec<u8> {
    let at = rng.below(letters.len());
    let (a, b) = (
        letters[at] as char,
        letters[(at + 1) % letters.len()] as char,
    );
    let both = format!("({a}|{b})");
    let mut text = format!("{both}*{a}");
    let parts = [
        both.clone(),
        both.clone(),
        both,
        a.to_string(),
        format!("{b}*"),
    ];
    while text.bytes().filter(u8::is_ascii_uppercase).count() < 8 + rng.below(3) {
        text += rng.pick::<String>(&parts);
    }
    text.into_bytes()
}

fn choice(rng: &mut Rng, letters: &[u8], depth: usize) -> Vec<u8> {
    let sides: Vec<Vec<u8>> = (0..*rng.pick(&[1, 1, 1, 2, 2, 3]))
        .map(|_| sequence(rng, letters, depth))
        .collect();
    sides.join(&b'|')
}

fn sequence(rng: &mut Rng, letters: &[u8], depth: usize) -> Vec<u8> {
    let mut text = Vec::new();
    for _ in 0..*rng.pick(&[1, 1, 2, 2, 3, 4]) {
        if depth > 0 && rng.below(5) < 2 {
            text.push(b'(');
            text.extend(choice(rng, letters, depth - 1));
            text.push(b')');
        } else {
            text.push(*rng.pick(letters));
        }
        text.extend(vec![b'*'; *rng.pick(&[0, 0, 0, 1, 1, 2])]);
    }
    text
}
