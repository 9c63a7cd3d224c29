//! Random expressions (02, K6) put into random gyms: `expressions [COUNT [SEED]]`, 5,000 if not
//! said.
//!
//! Is an expression taken exactly if it is well formed, by a test of neighbouring bytes and
//! brackets; does the table of the file that comes out lead to acceptance on precisely the words
//! that a matcher accepts, words tried one by one, of the letters that occur and of these and one
//! that is listed and does not; does it have the fewest states, each met in the sequence of its
//! number; is 13 shown by so many words that no two lead to one state; and is the rest of the file
//! as it was? Nothing here is shared with the derivatives.

use plain::answers;
use plain::gym::{Gym, LONGEST};
use plain::random::{self, expression, Rng};
use std::collections::{BTreeMap, BTreeSet};

#[derive(Default, Debug)]
struct Counts {
    taken: usize,
    refused_12: usize,
    refused_13: usize,
    words: usize,
    accepted_words: usize,
    states: [usize; 17],
}

fn fail(seed: usize, what: &str, text: &[u8], expression: &[u8]) -> ! {
    let (text, expression) = (
        String::from_utf8_lossy(text),
        String::from_utf8_lossy(expression),
    );
    eprintln!("expression {seed}: {what}\n{expression}\n{text}");
    std::process::exit(1)
}

/// The grammar and its limits by neighbours: what follows the start, `(` or `|` is a letter or `(`,
/// and the end, `)`, `|` and `*` follow none of these; brackets pair.
fn well_formed(text: &[u8], letters: &[u8]) -> bool {
    let mut before = b'(';
    for &byte in text.iter().chain(b")") {
        let begins = byte == b'(' || letters.contains(&byte);
        if !begins && (!b")|*".contains(&byte) || b"(|".contains(&before)) {
            return false;
        }
        before = byte;
    }
    let mut open = 0;
    for &byte in text {
        open += i32::from(byte == b'(') - i32::from(byte == b')');
        if open < 0 {
            return false;
        }
    }
    let count = text.iter().filter(|b| b.is_ascii_uppercase()).count();
    open == 0 && text.len() <= 64 && count <= 10
}

/// Where the closing bracket of the one at a place stands.
fn closing(text: &[u8], at: usize) -> usize {
    let mut open = 0;
    for (i, &byte) in text.iter().enumerate().skip(at) {
        open += i32::from(byte == b'(') - i32::from(byte == b')');
        if open == 0 {
            return i;
        }
    }
    text.len()
}

type Ends = BTreeSet<usize>;

/// The places of a word where a match of a well-formed text can end that begins at one of these.
fn ends(text: &[u8], word: &[u8], from: &Ends) -> Ends {
    // the sides of the outermost bars
    let mut at = 0;
    let mut begin = 0;
    let mut sides = Vec::new();
    while at < text.len() {
        match text[at] {
            b'(' => at = closing(text, at),
            b'|' => {
                sides.push(&text[begin..at]);
                begin = at + 1;
            }
            _ => {}
        }
        at += 1;
    }
    sides.push(&text[begin..]);
    sides
        .into_iter()
        .flat_map(|side| sequence_ends(side, word, from))
        .collect()
}

fn sequence_ends(text: &[u8], word: &[u8], from: &Ends) -> Ends {
    let mut here = from.clone();
    let mut at = 0;
    while at < text.len() {
        let last = if text[at] == b'(' {
            closing(text, at)
        } else {
            at
        };
        let item = &text[at..=last];
        at = last + 1;
        let starred = text.get(at) == Some(&b'*');
        while text.get(at) == Some(&b'*') {
            at += 1;
        }
        let once = |from: &Ends| -> Ends {
            match item {
                [b'(', inner @ .., b')'] => ends(inner, word, from),
                _ => {
                    let goes = |i: &&usize| word.get(**i) == Some(&item[0]);
                    from.iter().filter(goes).map(|i| i + 1).collect()
                }
            }
        };
        if !starred {
            here = once(&here);
            continue;
        }
        loop {
            let more: Ends = &here | &once(&here);
            if more == here {
                break;
            }
            here = more;
        }
    }
    here
}

fn matches(text: &[u8], word: &[u8]) -> bool {
    ends(text, word, &Ends::from([0])).contains(&word.len())
}

/// All words of the letters up to a length.
fn words(letters: &[u8], longest: usize) -> Vec<Vec<u8>> {
    let mut all = vec![Vec::new()];
    let mut from = 0;
    for _ in 0..longest {
        let until = all.len();
        for i in from..until {
            for &letter in letters {
                let mut word = all[i].clone();
                word.push(letter);
                all.push(word);
            }
        }
        from = until;
    }
    all
}

/// Words of the letters, as long as they are not too many.
fn tried(letters: &[u8], most: usize) -> Vec<Vec<u8>> {
    let mut longest = 1;
    while longest < 12 && letters.len().pow(longest as u32 + 1) <= most {
        longest += 1;
    }
    words(letters, longest)
}

/// The state that a word leads to.
fn led(gym: &Gym, word: &[u8]) -> Option<u8> {
    let mut state = 0;
    for letter in word {
        let label = gym.labels.iter().position(|l| l == letter)? as u8;
        let rows = &mut gym.transitions.iter();
        state = rows.find(|t| (t.state, t.label) == (state, label))?.next;
    }
    Some(state)
}

/// Is each state met in its turn, rows in sequence, and led by some word to acceptance, and are two
/// states always told apart by some word?
fn smallest(gym: &Gym) -> Result<usize, &'static str> {
    let mut states = 1;
    for t in &gym.transitions {
        if t.state >= states || t.next > states {
            return Err("a state out of its sequence");
        }
        states = states.max(t.next + 1);
    }
    if gym.accepts.iter().any(|&q| q >= states) {
        return Err("a state that nothing leads to accepts");
    }
    // how states look for words up to a length: whether each is accepted; one more is the dead one
    let dead = states;
    let next = |q: u8, l: u8| {
        let row = gym
            .transitions
            .iter()
            .find(|t| (t.state, t.label) == (q, l));
        row.map_or(dead, |t| t.next)
    };
    let mut look: Vec<Vec<u32>> = (0..=dead)
        .map(|q| vec![u32::from(gym.accepts.contains(&q))])
        .collect();
    for _ in 0..=states {
        let mut number = BTreeMap::new();
        for row in &look {
            let new = number.len() as u32;
            number.entry(row.clone()).or_insert(new);
        }
        let seen = |q: u8| number[&look[q as usize]];
        look = (0..=dead)
            .map(|q| {
                let led = (0..gym.labels.len() as u8).map(|l| seen(next(q, l)));
                [seen(q)].into_iter().chain(led).collect()
            })
            .collect();
    }
    let different: BTreeSet<_> = look.iter().collect();
    if different.len() != look.len() {
        return Err("two states, or one and the dead one, that no word tells apart");
    }
    Ok(usize::from(states))
}

/// Are there 17 words of which no two lead to one state of any table, as some word behind them, of
/// those given, tells them apart? Words behind which none of these is accepted are left out. Each
/// word is one that was found before, with a letter more.
fn needs_more(expression: &[u8], letters: &[u8], behind: &[Vec<u8>]) -> bool {
    let look = |word: &[u8]| -> Vec<bool> {
        let whole = |rest: &Vec<u8>| matches(expression, &[word, rest].concat());
        behind.iter().map(whole).collect()
    };
    let mut found = BTreeSet::from([look(&[])]);
    let mut words = vec![Vec::new()];
    let mut at = 0;
    while at < words.len() && found.len() <= 16 {
        for &letter in letters {
            let word = [&words[at][..], &[letter]].concat();
            let row = look(&word);
            if row.contains(&true) && found.insert(row) {
                words.push(word);
            }
        }
        at += 1;
    }
    found.len() > 16
}

/// The lines without those of the two sections that an expression becomes.
fn rest_of(text: &[u8]) -> Vec<Vec<u8>> {
    let mut inside = false;
    let mut lines = Vec::new();
    for line in text.split_inclusive(|&b| b == b'\n') {
        if line[0].is_ascii_lowercase() {
            inside = line == b"state label next\n" || line == b"accept\n";
            lines.push(line.to_vec());
        } else if !inside {
            lines.push(line.to_vec());
        }
    }
    lines
}

fn check(seed: usize, c: &mut Counts) {
    let mut rng = Rng::new(seed as u64 + 1);
    let text = random::gym(&mut rng, random::SMALL);
    let before = Gym::parse(&text).expect("a gym");
    let letters = before.labels.clone();
    let expression = expression(&mut rng, &letters);
    let (used, others): (Vec<u8>, Vec<u8>) = letters
        .iter()
        .copied()
        .partition(|l| expression.contains(l));
    let mut out = vec![b'#'; LONGEST];
    let answer = answers::rules(&text, &expression, &mut out);
    if (answer == Err(12)) == well_formed(&expression, &letters) {
        fail(seed, "12", &text, &expression);
    }
    let made = match answer {
        Err(12) => {
            c.refused_12 += 1;
            return;
        }
        Err(13) => {
            c.refused_13 += 1;
            // few words show it mostly
            let shows = |most| {
                let behind = tried(&used, most);
                needs_more(&expression, &letters, &behind)
            };
            if ![64, 260, 2100].into_iter().any(shows) {
                fail(seed, "13 is not shown", &text, &expression);
            }
            return;
        }
        Err(n) => fail(seed, &format!("refused {n}"), &text, &expression),
        Ok(n) => &out[..n],
    };
    c.taken += 1;
    if out[made.len()..].iter().any(|&b| b != b'#') {
        fail(seed, "bytes behind the output", &text, &expression);
    }
    if answers::rules(&text, &expression, &mut vec![0; made.len() - 1]) != Err(9) {
        fail(seed, "9", &text, &expression);
    }
    let gym = Gym::parse(made).unwrap_or_else(|n| fail(seed, &format!("{n}"), made, &expression));
    if gym.form != before.form || rest_of(made) != rest_of(&text) {
        fail(seed, "another file", made, &expression);
    }
    match smallest(&gym) {
        Ok(states) => c.states[states] += 1,
        Err(what) => fail(seed, what, made, &expression),
    }
    let with_other = [&used[..], &others[..others.len().min(1)]].concat();
    let both: BTreeSet<_> = [tried(&used, 300), tried(&with_other, 300)]
        .concat()
        .into_iter()
        .collect();
    for word in both {
        c.words += 1;
        let accepted = led(&gym, &word).is_some_and(|q| gym.accepts.contains(&q));
        c.accepted_words += usize::from(accepted);
        if accepted != matches(&expression, &word) {
            let word = String::from_utf8_lossy(&word);
            fail(seed, &format!("the word {word}"), made, &expression);
        }
    }
}

fn main() {
    let mut args = std::env::args()
        .skip(1)
        .map(|a| a.parse().expect("a number"));
    let count = args.next().unwrap_or(5_000);
    let seed = args.next().unwrap_or(0);
    let mut counts = Counts::default();
    for n in seed..seed + count {
        check(n, &mut counts);
    }
    println!("{count} expressions agree\n{counts:#?}");
}
