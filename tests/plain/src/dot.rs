//! Exchange with DOT (02, K14): the edges as a graph that Graphviz draws, and such a graph put into
//! a file.

use crate::gym::{
    number, push_number, push_sections, sections_of, Refusal, Row, EDGES, EDGE_LIMIT, LABELS,
    SCOPES,
};

const DROPPED: &[u8] = b"// turns dropped\n";

/// The text's edges in the DOT language.
pub fn dot(text: &[u8]) -> Result<Vec<u8>, Refusal> {
    let (_, sections) = sections_of(text)?;
    let mut out = Vec::new();
    if sections[EDGES].iter().any(|row| row[3] != 0) {
        out.extend_from_slice(DROPPED);
    }
    out.extend_from_slice(b"digraph scopes {\n");
    for scope in 0..sections[SCOPES][0][0] {
        push_number(&mut out, scope);
        out.extend_from_slice(b";\n");
    }
    for row in &sections[EDGES] {
        push_number(&mut out, row[0]);
        out.extend_from_slice(b" -> ");
        push_number(&mut out, row[2]);
        out.extend_from_slice(b" [label=\"");
        out.push(sections[LABELS][row[1] as usize][0] as u8);
        out.extend_from_slice(b"\"];\n");
    }
    out.extend_from_slice(b"}\n");
    Ok(out)
}

/// What a drawing says, in its sequence: scopes, and edges with their letters.
struct Drawing {
    scopes: Vec<u64>,
    edges: Vec<(u64, u8, u64)>,
}

/// The part of a drawing that is not taken yet.
struct Rest<'a>(&'a [u8]);

impl Rest<'_> {
    fn skip_blanks(&mut self) {
        let blank = |b: &u8| matches!(b, b' ' | b'\t' | b'\n');
        self.0 = &self.0[self.0.iter().take_while(|b| blank(b)).count()..];
    }

    /// Does a token of these bytes come next, blanks before it left out? It is taken then.
    fn takes(&mut self, token: &[u8]) -> bool {
        self.skip_blanks();
        match self.0.strip_prefix(token) {
            Some(rest) => {
                self.0 = rest;
                true
            }
            None => false,
        }
    }

    fn takes_all(&mut self, tokens: &[&[u8]]) -> Option<()> {
        tokens.iter().all(|token| self.takes(token)).then_some(())
    }

    /// A number of the file's form. More digits than it has are no token that may follow it.
    fn number(&mut self) -> Option<u64> {
        self.skip_blanks();
        let (value, len) = number(self.0)?;
        self.0 = &self.0[len..];
        Some(value)
    }

    /// A quoted capital, and the letter alone.
    fn letter(&mut self) -> Option<u8> {
        self.skip_blanks();
        match *self.0 {
            [b'"', letter @ b'A'..=b'Z', b'"', ref rest @ ..] => {
                self.0 = rest;
                Some(letter)
            }
            _ => None,
        }
    }
}

impl Drawing {
    /// `None` where the text is outside the subset.
    fn parse(text: &[u8]) -> Option<Drawing> {
        let mut rest = Rest(text.strip_prefix(DROPPED).unwrap_or(text));
        let mut drawing = Drawing {
            scopes: Vec::new(),
            edges: Vec::new(),
        };
        rest.takes_all(&[b"digraph"])?;
        if !matches!(rest.0.first()?, b' ' | b'\t' | b'\n') {
            return None;
        }
        rest.takes_all(&[b"scopes", b"{"])?;
        while !rest.takes(b"}") {
            let from = rest.number()?;
            if drawing.edges.is_empty() && rest.takes(b";") {
                drawing.scopes.push(from);
                continue;
            }
            rest.takes_all(&[b"->"])?;
            let to = rest.number()?;
            rest.takes_all(&[b"[", b"label", b"="])?;
            let letter = rest.letter()?;
            rest.takes_all(&[b"]", b";"])?;
            drawing.edges.push((from, letter, to));
        }
        rest.skip_blanks();
        rest.0.is_empty().then_some(drawing)
    }
}

/// Are these the numbers below `count`, each once?
fn are_all(scopes: &[u64], count: u64) -> bool {
    let mut met = 0u64;
    for &scope in scopes {
        if scope >= count || met >> scope & 1 == 1 {
            return false;
        }
        met |= 1 << scope;
    }
    scopes.len() as u64 == count
}

/// The edges as rows, sorted, their turn 0; or the refusal of the first that is refused.
fn rows(edges: &[(u64, u8, u64)], labels: &[u8], count: u64) -> Result<Vec<Row>, Refusal> {
    let mut rows = Vec::with_capacity(edges.len().min(EDGE_LIMIT));
    // the scopes that an edge leads to, by the scope and the label that it leaves by
    let mut met = [[0u64; 8]; 64];
    for &(from, letter, to) in edges {
        if rows.len() == EDGE_LIMIT {
            return Err(5);
        }
        let label = labels.iter().position(|&l| l == letter).ok_or(3)?;
        if from >= count || to >= count {
            return Err(3);
        }
        let ends = &mut met[from as usize][label];
        if *ends >> to & 1 == 1 {
            return Err(4);
        }
        *ends |= 1 << to;
        rows.push([from, label as u64, to, 0, 0]);
    }
    rows.sort_unstable();
    Ok(rows)
}

/// The text with the edges of a drawing in place of its own.
pub fn undot(text: &[u8], drawn: &[u8]) -> Result<Vec<u8>, Refusal> {
    let (form, mut sections) = sections_of(text)?;
    let drawing = Drawing::parse(drawn).ok_or(18)?;
    let count = sections[SCOPES][0][0];
    if !are_all(&drawing.scopes, count) {
        return Err(19);
    }
    let labels: Vec<u8> = sections[LABELS].iter().map(|row| row[0] as u8).collect();
    sections[EDGES] = rows(&drawing.edges, &labels, count)?;
    Ok(push_sections(form, &sections))
}
