//! The gym file: text and graph table read, admitted and written.
//!
//! A row is five cells, as many as in the graph table: a name takes two, an end is 0 for `$` and
//! n + 1 for label number n. Text and table give rows to one `Admission`, which tests 5, 3 and 4.
//! All forms of file have the same cells: where no kinds are shown each is `v`, and where no turns
//! are shown each is 0. In an admission an edge with a turn has its line's columns, `from label
//! turn to`; everywhere else the turn is its last cell (`turn_last`).

use crate::rules;

pub type Refusal = u8;
pub type Row = [u64; 5];

pub const LONGEST: usize = 32_768;
pub const STOP: u8 = 0;

#[derive(Clone, Copy, PartialEq)]
enum Field {
    Letter,
    End,
    Label,
    State,
    Count,
    Scope,
    Kind,
    Name,
    Mark,
    Turn,
}

struct Section {
    title: &'static str,
    limit: usize,
    fields: &'static [Field],
    /// How many leading cells must ascend.
    key: usize,
}

use Field::{Count, End, Label, Letter, Mark, Scope, State, Turn};

const SECTIONS: [Section; 9] = [
    Section {
        title: "label",
        limit: 8,
        fields: &[Letter],
        key: 0,
    },
    Section {
        title: "less more",
        limit: 36,
        fields: &[End, End],
        key: 2,
    },
    Section {
        title: "state label next",
        limit: 128,
        fields: &[State, Label, State],
        key: 2,
    },
    Section {
        title: "accept",
        limit: 16,
        fields: &[State],
        key: 1,
    },
    Section {
        title: "scopes",
        limit: 1,
        fields: &[Count],
        key: 0,
    },
    Section {
        title: "from label to",
        limit: 512,
        fields: &[Scope, Label, Scope],
        key: 3,
    },
    Section {
        title: "at name mark",
        limit: 512,
        fields: &[Scope, Field::Kind, Field::Name, Mark],
        key: 5,
    },
    Section {
        title: "at open",
        limit: 576,
        fields: &[Scope, End],
        key: 2,
    },
    Section {
        title: "start seek",
        limit: 256,
        fields: &[Scope, Field::Kind, Field::Name],
        key: 0,
    },
];

/// The most edges of a file.
pub const EDGE_LIMIT: usize = SECTIONS[EDGES].limit;

/// The edges of a file with turns.
const TURNED: Section = Section {
    title: "from label turn to",
    limit: EDGE_LIMIT,
    fields: &[Scope, Label, Turn, Scope],
    key: 4,
};

pub const LABELS: usize = 0;
const ORDER: usize = 1;
const TRANSITIONS: usize = 2;
const ACCEPTS: usize = 3;
pub const SCOPES: usize = 4;
pub const EDGES: usize = 5;
pub const DECLARATIONS: usize = 6;
pub const OPEN: usize = 7;
pub const QUERIES: usize = 8;

/// A file's form, by its number in the graph table.
#[derive(Clone, Copy, Debug, Default, PartialEq, Eq)]
pub enum Form {
    #[default]
    Old = 0,
    Kinds = 1,
    Turns = 2,
}

impl Form {
    const ALL: [Form; 3] = [Form::Old, Form::Kinds, Form::Turns];

    pub fn has_kinds(self) -> bool {
        self != Form::Old
    }
}

/// The kind that a file of the old form does not show.
pub const USUAL: u8 = b'v';

fn section_of(form: Form, section: usize) -> &'static Section {
    if section == EDGES && form == Form::Turns {
        &TURNED
    } else {
        &SECTIONS[section]
    }
}

fn title(form: Form, section: usize) -> &'static [u8] {
    match section {
        DECLARATIONS if form.has_kinds() => b"at kind name mark",
        QUERIES if form.has_kinds() => b"start kind seek",
        _ => section_of(form, section).title.as_bytes(),
    }
}

/// A row by its line's columns with the turn behind them, and the other way round.
fn turn_last(form: Form, section: usize, row: &mut Row) {
    if section == EDGES && form == Form::Turns {
        row.swap(2, 3);
    }
}

/// A label number that no file lists.
const UNLISTED: u64 = 1000;

#[derive(Clone, Copy, Debug, PartialEq, Eq)]
pub struct Edge {
    pub from: u8,
    pub label: u8,
    pub to: u8,
}

/// What the rules call a name: a kind and a name. They sort in this order.
#[derive(Clone, Copy, Debug, PartialEq, Eq, PartialOrd, Ord)]
pub struct Name {
    pub kind: u8,
    pub text: u128,
}

#[derive(Clone, Copy, Debug, PartialEq, Eq)]
pub struct Declaration {
    pub at: u8,
    pub name: Name,
    pub mark: u16,
}

#[derive(Clone, Copy, Debug, PartialEq, Eq)]
pub struct Query {
    pub start: u8,
    pub name: Name,
}

#[derive(Clone, Copy, Debug, PartialEq, Eq)]
pub struct Transition {
    pub state: u8,
    pub label: u8,
    pub next: u8,
}

/// An accepted graph. Pairs and open rows hold ends: 0 is `$`, n + 1 is label number n.
#[derive(Clone, Debug, Default, PartialEq, Eq)]
pub struct Gym {
    pub form: Form,
    pub labels: Vec<u8>,
    pub order: Vec<(u8, u8)>,
    pub transitions: Vec<Transition>,
    pub accepts: Vec<u8>,
    pub scopes: u8,
    pub edges: Vec<Edge>,
    /// The turn of each edge. It stands apart, as a search that meets no turn does not ask for it.
    pub turns: Vec<u8>,
    pub declarations: Vec<Declaration>,
    pub open: Vec<(u8, u8)>,
    pub queries: Vec<Query>,
}

/// What the rows so far allow the next one to be.
struct Admission {
    form: Form,
    section: usize,
    /// The section's shape in this form.
    shape: &'static Section,
    rows: usize,
    last: Row,
    /// The scopes that the edges above lead to by the last one's label, where turns are shown.
    met: u64,
    labels: Vec<u8>,
    scopes: u64,
    order: Vec<(u64, u64)>,
}

impl Admission {
    fn new(form: Form) -> Admission {
        Admission {
            form,
            section: 0,
            shape: section_of(form, 0),
            rows: 0,
            last: [0; 5],
            met: 0,
            labels: Vec::new(),
            scopes: 0,
            order: Vec::new(),
        }
    }

    /// Goes on to the next section; false if this one may not be left.
    fn leave(&mut self) -> bool {
        if self.section == SCOPES && self.rows == 0 {
            return false;
        }
        self.section += 1;
        self.shape = section_of(self.form, self.section);
        self.rows = 0;
        true
    }

    /// The form that a names line says, where it is the first to say it.
    fn found(&mut self, form: Form) {
        self.form = form;
        self.shape = section_of(form, self.section);
    }

    fn in_range(&self, field: Field, cell: u64) -> bool {
        match field {
            Letter | Field::Kind | Field::Name => true,
            End => cell <= self.labels.len() as u64,
            Label => cell < self.labels.len() as u64,
            State => cell < 16,
            Count => (1..=64).contains(&cell),
            Scope => cell < self.scopes,
            Mark => cell <= 65_535,
            Turn => cell < 100,
        }
    }

    fn admit(&mut self, row: &Row) -> Result<(), Refusal> {
        let section = self.shape;
        if self.rows == section.limit {
            return Err(5);
        }
        let mut cell = 0;
        for &field in section.fields {
            if !self.in_range(field, row[cell]) {
                return Err(3);
            }
            cell += if field == Field::Name { 2 } else { 1 };
        }
        match self.section {
            LABELS => {
                if self.labels.contains(&(row[0] as u8)) {
                    return Err(4);
                }
                self.labels.push(row[0] as u8);
            }
            _ => {
                let key = section.key;
                if key > 0 && self.rows > 0 && self.last[..key] >= row[..key] {
                    return Err(4);
                }
                match self.section {
                    ORDER => self.order.push((row[0], row[1])),
                    SCOPES => self.scopes = row[0],
                    EDGES if self.form == Form::Turns => {
                        if self.repeats(row) {
                            return Err(4);
                        }
                    }
                    _ => {}
                }
            }
        }
        self.last = *row;
        self.rows += 1;
        Ok(())
    }

    /// Does an edge with a turn lead where one above it led by the same label? Edges that leave one
    /// scope by one label stand together.
    fn repeats(&mut self, row: &Row) -> bool {
        if self.rows == 0 || self.last[..2] != row[..2] {
            self.met = 0;
        }
        let before = self.met;
        self.met |= 1 << row[3];
        self.met == before
    }

    fn order_is_strict(&self) -> bool {
        let mut less = [[false; 9]; 9];
        for &(a, b) in &self.order {
            if a == b {
                return false;
            }
            less[a as usize][b as usize] = true;
        }
        self.order
            .iter()
            .all(|&(a, b)| (0..9).all(|c| !less[b as usize][c] || less[a as usize][c]))
    }

    fn label_number(&self, letter: u8) -> u64 {
        self.labels
            .iter()
            .position(|&l| l == letter)
            .map_or(UNLISTED, |n| n as u64)
    }
}

/// A number of one to five digits at the start of `text`, and its length.
pub fn number(text: &[u8]) -> Option<(u64, usize)> {
    let mut value = 0;
    let mut len = 0;
    while len < 5 && len < text.len() && text[len].is_ascii_digit() {
        value = 10 * value + u64::from(text[len] - b'0');
        len += 1;
        if value == 0 {
            break;
        }
    }
    if len == 0 {
        None
    } else {
        Some((value, len))
    }
}

/// A name's bytes at the start of `text`.
fn name_length(text: &[u8]) -> Option<usize> {
    if text.is_empty() || !text[0].is_ascii_lowercase() {
        return None;
    }
    let rest = |b: &u8| b.is_ascii_lowercase() || b.is_ascii_digit() || *b == b'_';
    let len = text.iter().take_while(|b| rest(b)).count();
    if len <= 16 {
        Some(len)
    } else {
        None
    }
}

pub fn pack(name: &[u8]) -> u128 {
    let mut bytes = [0; 16];
    bytes[..name.len()].copy_from_slice(name);
    u128::from_be_bytes(bytes)
}

/// The bytes of a packed name; `None` if it is no name's packing.
pub fn unpack(name: u128) -> Option<([u8; 16], usize)> {
    let bytes = name.to_be_bytes();
    let len = bytes.iter().position(|&b| b == 0).unwrap_or(16);
    if bytes[len..].iter().all(|&b| b == 0) && name_length(&bytes[..len]) == Some(len) {
        Some((bytes, len))
    } else {
        None
    }
}

/// A line's row, or `None` where the line has not its section's form.
fn row_of_line(admission: &Admission, line: &[u8]) -> Option<Row> {
    let mut row = [0; 5];
    let (mut at, mut cell) = (0, 0);
    for (i, &field) in admission.shape.fields.iter().enumerate() {
        if field == Field::Kind && admission.form == Form::Old {
            row[cell] = u64::from(USUAL);
            cell += 1;
            continue;
        }
        if i > 0 {
            if line.get(at) != Some(&b' ') {
                return None;
            }
            at += 1;
        }
        let rest = line.get(at..)?;
        match field {
            Letter | Label | End => {
                let byte = *rest.first()?;
                row[cell] = match field {
                    End if byte == b'$' => 0,
                    _ if !byte.is_ascii_uppercase() => return None,
                    Letter => u64::from(byte),
                    Label => admission.label_number(byte),
                    _ => admission.label_number(byte) + 1,
                };
                at += 1;
            }
            Field::Kind => {
                let byte = *rest.first()?;
                if !byte.is_ascii_lowercase() {
                    return None;
                }
                row[cell] = u64::from(byte);
                at += 1;
            }
            Field::Name => {
                let len = name_length(rest)?;
                let packed = pack(&rest[..len]);
                row[cell] = (packed >> 64) as u64;
                cell += 1;
                row[cell] = packed as u64;
                at += len;
            }
            State | Count | Scope | Mark | Turn => {
                let (value, len) = number(rest)?;
                row[cell] = value;
                at += len;
            }
        }
        cell += 1;
    }
    if at == line.len() {
        Some(row)
    } else {
        None
    }
}

/// Reads a text, handing each admitted row with its section to `take`; answers its form.
fn read_rows(text: &[u8], mut take: impl FnMut(usize, &Row)) -> Result<Form, Refusal> {
    if text.len() > LONGEST {
        return Err(1);
    }
    let mut lines = text.split(|&b| b == b'\n');
    if lines.next() != Some(SECTIONS[0].title.as_bytes()) {
        return Err(2);
    }
    let mut admission = Admission::new(Form::Old);
    let mut line = lines.next().ok_or(2)?;
    // What follows the last LF is no line and must be empty.
    for following in lines {
        if line.first().is_some_and(|b| b.is_ascii_lowercase()) {
            if admission.section == QUERIES || !admission.leave() {
                return Err(2);
            }
            // The edges' names line says turns; else that of the declarations says the form.
            if admission.section == EDGES && line == title(Form::Turns, EDGES) {
                admission.found(Form::Turns);
            }
            if admission.section == DECLARATIONS
                && admission.form == Form::Old
                && line == title(Form::Kinds, DECLARATIONS)
            {
                admission.found(Form::Kinds);
            }
            if line != title(admission.form, admission.section) {
                return Err(2);
            }
        } else {
            let mut row = row_of_line(&admission, line).ok_or(2)?;
            admission.admit(&row)?;
            turn_last(admission.form, admission.section, &mut row);
            take(admission.section, &row);
        }
        line = following;
    }
    if !line.is_empty() || admission.section != QUERIES {
        return Err(2);
    }
    if admission.order_is_strict() {
        Ok(admission.form)
    } else {
        Err(6)
    }
}

impl Gym {
    pub fn parse(text: &[u8]) -> Result<Gym, Refusal> {
        let mut gym = Gym::default();
        gym.form = read_rows(text, |section, row| gym.push(section, row))?;
        Ok(gym)
    }

    fn push(&mut self, section: usize, row: &Row) {
        let small = |cell: usize| row[cell] as u8;
        let name = || Name {
            kind: small(1),
            text: u128::from(row[2]) << 64 | u128::from(row[3]),
        };
        match section {
            0 => self.labels.push(small(0)),
            1 => self.order.push((small(0), small(1))),
            2 => self.transitions.push(Transition {
                state: small(0),
                label: small(1),
                next: small(2),
            }),
            3 => self.accepts.push(small(0)),
            4 => self.scopes = small(0),
            5 => {
                self.edges.push(Edge {
                    from: small(0),
                    label: small(1),
                    to: small(2),
                });
                self.turns.push(small(3));
            }
            6 => self.declarations.push(Declaration {
                at: small(0),
                name: name(),
                mark: row[4] as u16,
            }),
            7 => self.open.push((small(0), small(1))),
            _ => self.queries.push(Query {
                start: small(0),
                name: name(),
            }),
        }
    }
}

/// Reads a text into a graph table; answers the cells written.
pub fn read(text: &[u8], table: &mut [u64]) -> Result<usize, Refusal> {
    let mut cells = vec![0];
    let form = read_rows(text, |section, row| {
        cells.push(section as u64);
        cells.extend_from_slice(row);
    })?;
    cells[0] = form as u64;
    let lent = table.get_mut(..cells.len()).ok_or(9)?;
    lent.copy_from_slice(&cells);
    Ok(cells.len())
}

/// Whether a table's row could be written: numbers of five digits, letters, names, unused cells 0,
/// that of the turn too where none are shown.
fn has_form(form: Form, section: usize, row: &Row) -> bool {
    let mut cell = 0;
    for &field in section_of(form, section).fields {
        let good = match field {
            Letter => (65..=90).contains(&row[cell]),
            Label | End => true,
            State | Count | Scope | Mark | Turn => row[cell] <= 99_999,
            Field::Kind if form == Form::Old => row[cell] == u64::from(USUAL),
            Field::Kind => (97..=122).contains(&row[cell]),
            Field::Name => {
                cell += 1;
                unpack(u128::from(row[cell - 1]) << 64 | u128::from(row[cell])).is_some()
            }
        };
        if !good {
            return false;
        }
        cell += 1;
    }
    row[cell..].iter().all(|&c| c == 0)
}

pub fn push_number(out: &mut Vec<u8>, value: u64) {
    let mut digits = [0; 20];
    let mut at = digits.len();
    let mut rest = value;
    loop {
        at -= 1;
        digits[at] = b'0' + (rest % 10) as u8;
        rest /= 10;
        if rest == 0 {
            break;
        }
    }
    out.extend_from_slice(&digits[at..]);
}

pub fn push_name(out: &mut Vec<u8>, name: u128) {
    let bytes = name.to_be_bytes();
    let len = bytes.iter().position(|&b| b == 0).unwrap_or(16);
    out.extend_from_slice(&bytes[..len]);
}

pub fn push_end(out: &mut Vec<u8>, labels: &[u8], end: u64) {
    out.push(if end == 0 {
        b'$'
    } else {
        labels[end as usize - 1]
    });
}

/// Writes an admitted row's line.
fn push_line(out: &mut Vec<u8>, form: Form, section: usize, row: &Row, labels: &[u8]) {
    let mut cell = 0;
    for (i, &field) in section_of(form, section).fields.iter().enumerate() {
        if field == Field::Kind && form == Form::Old {
            cell += 1;
            continue;
        }
        if i > 0 {
            out.push(b' ');
        }
        match field {
            Letter | Field::Kind => out.push(row[cell] as u8),
            Label => out.push(labels[row[cell] as usize]),
            End => push_end(out, labels, row[cell]),
            State | Count | Scope | Mark | Turn => push_number(out, row[cell]),
            Field::Name => {
                cell += 1;
                push_name(out, u128::from(row[cell - 1]) << 64 | u128::from(row[cell]));
            }
        }
        cell += 1;
    }
    out.push(b'\n');
}

fn push_title(out: &mut Vec<u8>, form: Form, section: usize) {
    out.extend_from_slice(title(form, section));
    out.push(b'\n');
}

/// A graph table's text, or what the table is refused by.
pub fn text_of(table: &[u64]) -> Result<Vec<u8>, Refusal> {
    let (&form, rows) = table.split_first().ok_or(2)?;
    let form = Form::ALL.into_iter().find(|&f| f as u64 == form).ok_or(2)?;
    let mut admission = Admission::new(form);
    let mut text = Vec::new();
    push_title(&mut text, form, 0);
    for cells in rows.chunks(6) {
        let section = cells[0];
        if section < admission.section as u64 || section > QUERIES as u64 {
            return Err(2);
        }
        while (admission.section as u64) < section {
            if !admission.leave() {
                return Err(2);
            }
            push_title(&mut text, form, admission.section);
        }
        let mut row: Row = cells[1..].try_into().map_err(|_| 2)?;
        turn_last(form, admission.section, &mut row);
        if !has_form(form, admission.section, &row) {
            return Err(2);
        }
        admission.admit(&row)?;
        push_line(&mut text, form, admission.section, &row, &admission.labels);
    }
    while admission.section < QUERIES {
        if !admission.leave() {
            return Err(2);
        }
        push_title(&mut text, form, admission.section);
    }
    if !admission.order_is_strict() {
        return Err(6);
    }
    Ok(text)
}

/// Writes a graph table's text; answers the bytes written.
pub fn write(table: &[u64], out: &mut [u8]) -> Result<usize, Refusal> {
    let text = text_of(table)?;
    let lent = out.get_mut(..text.len()).ok_or(9)?;
    lent.copy_from_slice(&text);
    Ok(text.len())
}

/// The rows of a text by section, and its form.
pub fn sections_of(text: &[u8]) -> Result<(Form, [Vec<Row>; 9]), Refusal> {
    let mut sections: [Vec<Row>; 9] = Default::default();
    let form = read_rows(text, |section, row| sections[section].push(*row))?;
    Ok((form, sections))
}

/// The text of rows in a form that shows all that they have.
pub fn push_sections(form: Form, sections: &[Vec<Row>; 9]) -> Vec<u8> {
    let labels: Vec<u8> = sections[LABELS].iter().map(|row| row[0] as u8).collect();
    let mut out = Vec::new();
    for (section, rows) in sections.iter().enumerate() {
        push_title(&mut out, form, section);
        for row in rows {
            let mut row = *row;
            turn_last(form, section, &mut row);
            push_line(&mut out, form, section, &row, &labels);
        }
    }
    out
}

/// A text in the old form or in the one with kinds. A text with turns has kinds. To the old form
/// 14 is a kind or a turn that it does not show.
pub fn in_form(text: &[u8], wanted: Form) -> Result<Vec<u8>, Refusal> {
    let (form, sections) = sections_of(text)?;
    if form == Form::Turns && wanted == Form::Kinds {
        return Ok(text.to_vec());
    }
    let mut named = sections[DECLARATIONS].iter().chain(&sections[QUERIES]);
    if wanted == Form::Old
        && (named.any(|row| row[1] != u64::from(USUAL))
            || sections[EDGES].iter().any(|row| row[3] != 0))
    {
        return Err(14);
    }
    Ok(push_sections(wanted, &sections))
}

/// A text with the path rules of an expression in place of its own, in the form that it has.
pub fn with_rules(text: &[u8], expression: &[u8]) -> Result<Vec<u8>, Refusal> {
    let (form, mut sections) = sections_of(text)?;
    let labels: Vec<u8> = sections[LABELS].iter().map(|row| row[0] as u8).collect();
    let table = rules::table(expression, &labels)?;
    let small = |values: &[u8]| {
        let mut row = [0; 5];
        for (cell, &value) in row.iter_mut().zip(values) {
            *cell = u64::from(value);
        }
        row
    };
    let transitions = table.transitions.iter();
    sections[TRANSITIONS] = transitions.map(|&(q, l, r)| small(&[q, l, r])).collect();
    sections[ACCEPTS] = table.accepts.iter().map(|&q| small(&[q])).collect();
    Ok(push_sections(form, &sections))
}

/// The part of the text that is a query's name; empty if the file or the query is refused.
pub fn name_sought(text: &[u8], query: usize) -> &[u8] {
    let mut queries = 0;
    if read_rows(text, |section, _| {
        queries += usize::from(section == QUERIES)
    })
    .is_err()
        || query >= queries
    {
        return &[];
    }
    // Queries are the last lines; the text ends in LF.
    let lines = &text[..text.len() - 1];
    let line = lines
        .rsplit(|&b| b == b'\n')
        .nth(queries - 1 - query)
        .unwrap_or(&[]);
    // The name is its last field.
    let space = line.iter().rposition(|&b| b == b' ').map_or(0, |i| i + 1);
    &line[space..]
}
