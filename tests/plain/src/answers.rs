//! Listing, judge and summary, a declaration's readers, a file in the other form, with the rules of
//! an expression, with other numbers for its scopes, its drawing, and with the edges of a drawing.

use crate::dot;
use crate::gym::{
    in_form, push_end, push_name, push_number, with_rules, Form, Gym, Query, Refusal,
};
use crate::path_row::{fill, PathRow, Step};
use crate::renumbering::{gone_back, renumbered};
pub use crate::search::Standing;
use crate::search::{Go, Rules, Search};

const HEAD: &[u8] = b"start seek found awaits\n";
const HEAD_WITH_KIND: &[u8] = b"start kind seek found awaits\n";
const ROWS: &[u8] = b"mark path\n";

/// Appends the names line and the values that the query gives.
fn push_head(out: &mut Vec<u8>, form: Form, query: Query) {
    out.extend_from_slice(if form.has_kinds() {
        HEAD_WITH_KIND
    } else {
        HEAD
    });
    push_number(out, u64::from(query.start));
    if form.has_kinds() {
        out.extend_from_slice(&[b' ', query.name.kind]);
    }
    out.push(b' ');
    push_name(out, query.name.text);
}

/// Appends a query's listing to `out` and answers how many declarations its entries have, two
/// meaning several; or, where the listing is longer than `limit`, appends nothing and answers
/// `None`.
pub fn push_listing(
    rules: &Rules,
    gym: &Gym,
    query: Query,
    limit: usize,
    out: &mut Vec<u8>,
) -> Option<u8> {
    let search = Search::new(rules, query.start, query.name);
    let mut rows = Vec::new();
    let mut found = 0;
    let mut first = None;
    search.entries(&mut |steps, mark| {
        let declaration = (steps.last().map_or(query.start, |step| step.to), mark);
        if *first.get_or_insert(declaration) != declaration {
            found = 2;
        }
        found = 1.max(found);
        push_number(&mut rows, u64::from(mark));
        rows.push(b' ');
        push_number(&mut rows, u64::from(query.start));
        for step in steps {
            rows.push(gym.labels[step.label as usize]);
            push_number(&mut rows, u64::from(step.to));
        }
        rows.push(b'\n');
        if rows.len() > limit {
            Go::Stop
        } else {
            Go::On
        }
    });
    if rows.len() > limit {
        return None;
    }
    let before = out.len();
    push_head(out, gym.form, query);
    out.extend_from_slice([&b" none "[..], b" one ", b" several "][found as usize]);
    match search.awaits() {
        None => out.push(b'-'),
        Some((scope, end)) => {
            push_number(out, u64::from(scope));
            push_end(out, &gym.labels, u64::from(end));
        }
    }
    out.push(b'\n');
    out.extend_from_slice(ROWS);
    out.extend_from_slice(&rows);
    if out.len() - before > limit {
        out.truncate(before);
        return None;
    }
    Some(found)
}

/// How many routes to one declaration are gone before the scopes are asked one by one: that takes
/// longer than a few routes, but there may be 2^30 of them.
const ROUTES: usize = 64;

/// The declarations of a query's entries, counted up to two: by its first entries and, where these
/// are many routes to one declaration, by the scopes where a visible path ends.
pub fn count(rules: &Rules, query: Query) -> u8 {
    let search = Search::new(rules, query.start, query.name);
    let mut first = None;
    let mut routes = 0;
    let mut found = 0;
    search.entries(&mut |steps, mark| {
        let declaration = (steps.last().map_or(query.start, |step| step.to), mark);
        found = if *first.get_or_insert(declaration) == declaration {
            1
        } else {
            2
        };
        routes += 1;
        if found == 2 || routes == ROUTES {
            Go::Stop
        } else {
            Go::On
        }
    });
    if found == 1 && routes == ROUTES {
        return search.declarations_seen(2) as u8;
    }
    found
}

/// How many queries found none, one and several.
pub type Figures = [u64; 3];

/// Whole per cent to the nearest, an exact half to the even one: half up, and one back from an odd
/// number at the half.
fn share(one: u64, queries: u64) -> u64 {
    let up = (200 * one + queries) / (2 * queries);
    let half = (200 * one + queries) % (2 * queries) == 0;
    if half && up % 2 == 1 {
        up - 1
    } else {
        up
    }
}

pub fn push_summary(figures: &Figures, out: &mut Vec<u8>) {
    let [none, one, several] = *figures;
    let queries = none + one + several;
    out.extend_from_slice(b"queries one several none share\n");
    for value in [queries, one, several, none] {
        push_number(out, value);
        out.push(b' ');
    }
    if queries == 0 {
        out.push(b'-');
    } else {
        push_number(out, share(one, queries));
    }
    out.push(b'\n');
}

fn put(text: &[u8], out: &mut [u8]) -> Result<usize, Refusal> {
    out.get_mut(..text.len()).ok_or(9)?.copy_from_slice(text);
    Ok(text.len())
}

pub fn listing(text: &[u8], query: usize, out: &mut [u8]) -> Result<usize, Refusal> {
    let gym = Gym::parse(text)?;
    let query = *gym.queries.get(query).ok_or(7)?;
    let mut listing = Vec::new();
    push_listing(&Rules::new(&gym), &gym, query, out.len(), &mut listing).ok_or(9)?;
    put(&listing, out)
}

/// How many lawful beginnings a query has, 1,000,000,000 where there are more.
pub fn beginnings(text: &[u8], query: usize) -> Result<u64, Refusal> {
    let gym = Gym::parse(text)?;
    let query = *gym.queries.get(query).ok_or(7)?;
    Ok(Search::new(&Rules::new(&gym), query.start, query.name).beginnings())
}

/// Writes who reads a declaration, by its place among the rows (02, K5): the line `at`, then the
/// scopes; answers the bytes written.
pub fn readers(text: &[u8], place: usize, out: &mut [u8]) -> Result<usize, Refusal> {
    let gym = Gym::parse(text)?;
    let declaration = gym.declarations.get(place).ok_or(11)?;
    let rules = Rules::new(&gym);
    // what leads to the name is the same from every start
    let mut search = Search::new(&rules, 0, declaration.name);
    let mut listing = b"at\n".to_vec();
    for start in 0..gym.scopes {
        search.start = start;
        if search.sees(declaration.at) {
            push_number(&mut listing, u64::from(start));
            listing.push(b'\n');
        }
    }
    put(&listing, out)
}

pub fn summary(text: &[u8], out: &mut [u8]) -> Result<usize, Refusal> {
    let gym = Gym::parse(text)?;
    let rules = Rules::new(&gym);
    let mut figures = [0; 3];
    for &query in &gym.queries {
        figures[count(&rules, query) as usize] += 1;
    }
    let mut summary = Vec::new();
    push_summary(&figures, &mut summary);
    put(&summary, out)
}

/// Writes a text in the old form; answers the bytes written.
pub fn to_old(text: &[u8], out: &mut [u8]) -> Result<usize, Refusal> {
    put(&in_form(text, Form::Old)?, out)
}

/// Writes a text in the form with kinds, one with turns as it is; answers the bytes written.
pub fn to_new(text: &[u8], out: &mut [u8]) -> Result<usize, Refusal> {
    put(&in_form(text, Form::Kinds)?, out)
}

/// Writes a text with the path rules of an expression in place of its own; answers the bytes
/// written.
pub fn rules(text: &[u8], expression: &[u8], out: &mut [u8]) -> Result<usize, Refusal> {
    put(&with_rules(text, expression)?, out)
}

/// Writes a text with its scopes numbered for storage, and the list of their old numbers; answers
/// the bytes written of both. Neither changes where one is too short.
pub fn renumber(text: &[u8], out: &mut [u8], list: &mut [u8]) -> Result<(usize, usize), Refusal> {
    let (file, was) = renumbered(text)?;
    if list.len() < was.len() {
        return Err(9);
    }
    Ok((put(&file, out)?, put(&was, list)?))
}

/// Writes a text with the numbers of a list for its scopes; answers the bytes written.
pub fn back(text: &[u8], was: &[u8], out: &mut [u8]) -> Result<usize, Refusal> {
    put(&gone_back(text, was)?, out)
}

/// Writes a text's edges in the DOT language; answers the bytes written.
pub fn dot(text: &[u8], out: &mut [u8]) -> Result<usize, Refusal> {
    put(&dot::dot(text)?, out)
}

/// Writes a text with the edges of a DOT text in place of its own; answers the bytes written.
pub fn undot(text: &[u8], drawn: &[u8], out: &mut [u8]) -> Result<usize, Refusal> {
    put(&dot::undot(text, drawn)?, out)
}

pub fn judge_row(gym: &Gym, rules: &Rules, query: Query, row: &PathRow) -> Standing {
    let mut steps = Vec::with_capacity(row.steps.len());
    for step in &row.steps {
        match gym.labels.iter().position(|&l| l == step.letter) {
            Some(label) => steps.push((label as u8, step.scope)),
            None => return Standing::Unreached,
        }
    }
    Search::new(rules, query.start, query.name).standing(row.start, &steps, row.mark)
}

pub fn judge(
    text: &[u8],
    query: usize,
    row: &[u8],
    table: &mut [Step],
) -> Result<Standing, Refusal> {
    let gym = Gym::parse(text)?;
    let query = *gym.queries.get(query).ok_or(7)?;
    let row = PathRow::parse(row).ok_or(8)?;
    if row.steps.len() > table.len() {
        return Err(9);
    }
    fill(table, &row);
    Ok(judge_row(&gym, &Rules::new(&gym), query, &row))
}

/// What the program prints for a file.
pub fn program(text: &[u8]) -> Vec<u8> {
    let mut out = Vec::new();
    let gym = match Gym::parse(text) {
        Ok(gym) => gym,
        Err(number) => {
            push_refused(number, &mut out);
            return out;
        }
    };
    let rules = Rules::new(&gym);
    let mut figures = [0; 3];
    for &query in &gym.queries {
        let found = push_listing(&rules, &gym, query, 65_536, &mut out).unwrap_or_else(|| {
            push_refused(9, &mut out);
            count(&rules, query)
        });
        figures[found as usize] += 1;
    }
    push_summary(&figures, &mut out);
    out
}

fn push_refused(number: Refusal, out: &mut Vec<u8>) {
    out.extend_from_slice(b"refused ");
    push_number(out, u64::from(number));
    out.push(b'\n');
}
