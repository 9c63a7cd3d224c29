//! The exchange with DOT: against the plain Rust implementation with lent memory of every length
//! about the due one, on drawings of every kind; a file's own drawing put into it; and the drawings
//! of accepted files handed to Graphviz, where that is installed.

use crate::calls::{length, lent, number, Test};
use crate::differ;
use crate::files::without_turns;
use plain::drawings::drawing;
use plain::gym::Gym;
use std::io::{ErrorKind, Write};
use std::process::{Command, Stdio};

/// What a drawing was answered with, by accepted files, and what a file's own drawing gave.
pub const DUE: [(&str, &[&str]); 2] = [
    ("drawing", &["taken", "refused 18", "refused 19", "refused 5", "refused 3", "refused 4"]),
    ("own drawing", &["the same file", "the file with turns of 0"]),
];

/// What the library draws for an accepted text.
fn drawn(text: &[u8]) -> Vec<u8> {
    let mut out = vec![0; tewhoranu::DRAWING];
    let n = tewhoranu::dot(text, &mut out).unwrap_or_else(|r| differ("dot", text, format!("{r}")));
    out.truncate(n);
    out
}

impl Test {
    fn dot(&mut self, text: &[u8]) {
        let due = plain::answers::dot(text, &mut vec![0; tewhoranu::DRAWING]).unwrap_or(40);
        let n = length(&mut self.rng, due, tewhoranu::DRAWING);
        let memory = lent(&mut self.rng, n, |i| i as u8);
        self.same("dot", text, memory, |m| tewhoranu::dot(text, m).map_err(number), |m| plain::answers::dot(text, m));
    }

    fn undot(&mut self, text: &[u8], drawn: &[u8]) {
        let due = plain::answers::undot(text, drawn, &mut vec![0; tewhoranu::TEXT]).unwrap_or(300);
        let n = length(&mut self.rng, due, tewhoranu::TEXT);
        let memory = lent(&mut self.rng, n, |i| i as u8);
        let shown = [b"the drawing\n", drawn, b"\nand the file\n", text].concat();
        self.same(
            "undot",
            &shown,
            memory,
            |m| tewhoranu::undot(text, drawn, m).map_err(number),
            |m| plain::answers::undot(text, drawn, m),
        );
    }

    /// A text drawn; drawings of every kind put into it, and into one that is refused any.
    pub fn drawings(&mut self, text: &[u8]) {
        self.dot(text);
        let Ok(gym) = Gym::parse(text) else {
            for drawn in [&b"digraph scopes {0;}"[..], b"digraph scopes {0;", b""] {
                self.undot(text, drawn);
            }
            return;
        };
        self.own_drawing(text, &gym);
        for _ in 0..4 {
            let drawn = drawing(&mut self.rng, &gym);
            self.undot(text, &drawn);
            let answer = match plain::dot::undot(text, &drawn) {
                Ok(_) => "taken".to_string(),
                Err(number) => format!("refused {number}"),
            };
            self.tally.count("drawing", answer);
        }
    }

    /// The drawing of a file, put into that file, gives the file, or it with turns of 0.
    fn own_drawing(&mut self, text: &[u8], gym: &Gym) {
        let turned = gym.turns.iter().any(|&turn| turn != 0);
        let due = if turned { without_turns(text) } else { text.to_vec() };
        let drawn = drawn(text);
        if drawn.starts_with(b"// turns dropped\n") != turned {
            differ("dot", text, "the first line is wrong".to_string());
        }
        let mut out = vec![0; tewhoranu::TEXT];
        let answer = tewhoranu::undot(text, &drawn, &mut out);
        if answer != Ok(due.len()) || out[..due.len()] != due[..] {
            differ("undot", text, format!("its own drawing gives {answer:?}"));
        }
        let which = if turned { "the file with turns of 0" } else { "the same file" };
        self.tally.count("own drawing", which.to_string());
    }
}

/// Hands the drawings of accepted texts to Graphviz, each of which it must draw with as many scopes and
/// edges; says what was done. Graphviz need not be there.
pub fn drawn_by_graphviz(texts: impl Iterator<Item = Vec<u8>>) -> String {
    let mut drawings = 0;
    for text in texts {
        let Ok(gym) = Gym::parse(&text) else { continue };
        let Some(picture) = graphviz(&drawn(&text)) else {
            return "Graphviz is not installed: no drawing was handed to it".to_string();
        };
        let count = |class: &str| picture.matches(&format!("class=\"{class}\"")).count();
        if (count("node"), count("edge")) != (gym.scopes as usize, gym.edges.len()) {
            differ("dot -Tsvg", &text, format!("it draws {} scopes and {} edges", count("node"), count("edge")));
        }
        drawings += 1;
    }
    format!("{drawings} drawings drawn by Graphviz")
}

/// The picture of a drawing; `None` where there is no Graphviz.
fn graphviz(drawn: &[u8]) -> Option<String> {
    let program = Command::new("dot").arg("-Tsvg").stdin(Stdio::piped()).stdout(Stdio::piped()).stderr(Stdio::piped()).spawn();
    let mut program = match program {
        Err(error) if error.kind() == ErrorKind::NotFound => return None,
        started => started.expect("Graphviz, where it is installed, can be started"),
    };
    let _ = program.stdin.take().expect("piped").write_all(drawn);
    let output = program.wait_with_output().expect("a program that was started ends");
    if !output.status.success() || !output.stderr.is_empty() {
        differ("dot -Tsvg", drawn, format!("it ends with {}: {}", output.status, String::from_utf8_lossy(&output.stderr)));
    }
    Some(String::from_utf8_lossy(&output.stdout).into_owned())
}
