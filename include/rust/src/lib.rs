//! Names in a climbing gym's file, resolved by scope graphs: safe functions over the proved
//! library.
//!
//! Every function is total. A refusal leaves all that was lent as it was. What each function takes,
//! answers and refuses is said in `include/tewhoranu.h`, and so is the layout of a graph table; the
//! numbers there are the cases of the enums here. Nothing bounds the time of a call: the header says
//! which files are slow.
//!
//! The library is the archive that the Rattle kit builds, or, with the feature `source`, the proved
//! source itself, compiled with the program. Nothing else differs.
//!
//! # Stack
//!
//! A call may take as much as [`STACK`] bytes of stack, and only [`listing_counted`] more than three
//! quarters of it. The main thread of a Linux program has 8 MiB, unless it was given less. A thread
//! that `std::thread::spawn` starts has 2 MiB, some of which it needs itself: not enough for
//! `listing_counted`. This starts one that has enough:
//!
//! ```
//! # let (text, query) = (b"".to_vec(), 0);
//! let thread = std::thread::Builder::new().stack_size(tewhoranu::STACK + 256 * 1024).spawn(move || {
//!     let mut out = vec![0; tewhoranu::LISTING];
//!     tewhoranu::listing_counted(&text, query, &mut out).map(|(n, followed)| (out[..n].to_vec(), followed))
//! });
//! # assert_eq!(thread.unwrap().join().unwrap(), Err(tewhoranu::Refusal::Malformed));
//! ```

#![no_std]
#![cfg_attr(feature = "source", forbid(unsafe_code))]

#[cfg(not(feature = "source"))]
mod archive;
#[cfg(feature = "source")]
include!(concat!(env!("OUT_DIR"), "/package/src/modules.rs"));

#[cfg(not(feature = "source"))]
use crate::archive as library;
#[cfg(feature = "source")]
use crate::tewhoranu as library;

#[cfg(not(feature = "source"))]
pub use crate::archive::Step;
#[cfg(feature = "source")]
pub use crate::path_row::form::Step;

use core::error::Error;
use core::fmt;

/// The version of the interface that these declarations are for; [`version`] tells the library's.
pub const VERSION: u64 = 1;
/// Cells of a graph table that serve every file.
pub const CELLS: usize = 12_271;
/// Bytes that serve every file's text.
pub const TEXT: usize = 32_768;
/// Records of a step table that serve every path row.
pub const STEPS: usize = 63;
/// Bytes that serve every summary.
pub const SUMMARY: usize = 64;
/// Bytes that serve every list of readers.
pub const READERS: usize = 195;
/// Bytes that serve every `was` list.
pub const WAS: usize = 196;
/// Bytes that serve every drawing.
pub const DRAWING: usize = 11_556;
/// Bytes that the program lends for a listing.
pub const LISTING: usize = 65_536;
/// The number of lawful beginnings where there are so many or more.
pub const FOLLOWED: u64 = 1_000_000_000;
/// The forms of file, as the first cell of a graph table has them: names alone, which are of the
/// kind `v`, or kinds and names; with kinds and names also a turn for each edge, which is 0 in the
/// other forms.
pub const OLD_FORM: u64 = 0;
pub const WITH_KINDS: u64 = 1;
pub const WITH_TURNS: u64 = 2;
/// Stack that serves every call, in bytes: counted, not proved.
pub const STACK: usize = 4 * 512 * 1024;

/// Why a call was refused, by its number. Later versions may have more.
#[derive(Clone, Copy, Debug, PartialEq, Eq)]
#[non_exhaustive]
pub enum Refusal {
    TooLong,
    Malformed,
    OutOfRange,
    NotAscending,
    TooManyRows,
    NoOrder,
    NoQuery,
    NoPathRow,
    NoRoom,
    NoDeclaration,
    NoExpression,
    TooManyStates,
    NoOldForm,
    NoList,
    NoDrawing,
    OtherScopes,
    /// A number that these declarations do not know: the library is of another version.
    Unknown(u64),
}

impl Refusal {
    /// Those that have a name here, with their numbers.
    const NAMED: [(Refusal, u64); 16] = [
        (Refusal::TooLong, 1),
        (Refusal::Malformed, 2),
        (Refusal::OutOfRange, 3),
        (Refusal::NotAscending, 4),
        (Refusal::TooManyRows, 5),
        (Refusal::NoOrder, 6),
        (Refusal::NoQuery, 7),
        (Refusal::NoPathRow, 8),
        (Refusal::NoRoom, 9),
        (Refusal::NoDeclaration, 11),
        (Refusal::NoExpression, 12),
        (Refusal::TooManyStates, 13),
        (Refusal::NoOldForm, 14),
        (Refusal::NoList, 17),
        (Refusal::NoDrawing, 18),
        (Refusal::OtherScopes, 19),
    ];

    /// The refusal of a number.
    pub fn of(number: u64) -> Refusal {
        match Refusal::NAMED.into_iter().find(|&(_, n)| n == number) {
            Some((refusal, _)) => refusal,
            None => Refusal::Unknown(number),
        }
    }

    /// The number of the refusal, as the header has it.
    pub fn number(self) -> u64 {
        match self {
            Refusal::Unknown(number) => number,
            named => Refusal::NAMED.into_iter().find(|&(refusal, _)| refusal == named).map_or(0, |(_, n)| n),
        }
    }
}

/// What was refused, in words.
impl fmt::Display for Refusal {
    fn fmt(&self, f: &mut fmt::Formatter) -> fmt::Result {
        f.write_str(match self {
            Refusal::TooLong => "the file is longer than 32,768 bytes",
            Refusal::Malformed => "a line or a table's row is not of its section's form, or a section is missing",
            Refusal::OutOfRange => {
                "a number is outside the bounds of its column, or names a scope or label that the file lacks"
            }
            Refusal::NotAscending => "a row is out of its sequence, or there twice",
            Refusal::TooManyRows => "a section has more rows than it may",
            Refusal::NoOrder => "the order prefers an end to itself, or lacks a pair that follows from two others",
            Refusal::NoQuery => "there is no query of this number",
            Refusal::NoPathRow => "a path row is not of its form",
            Refusal::NoRoom => "the memory lent is too short for the output or the steps",
            Refusal::NoDeclaration => "the file has no declaration at this place",
            Refusal::NoExpression => "not an expression over the file's labels, or past 64 bytes or ten letters",
            Refusal::TooManyStates => "the smallest table for the expression has more than 16 states",
            Refusal::NoOldForm => "the old form has no kinds and no turns, and a kind is not v or a turn is not 0",
            Refusal::NoList => "the list is not of its form, or does not have each scope of the file once",
            Refusal::NoDrawing => "the DOT text is outside the subset that is taken",
            Refusal::OtherScopes => "the DOT text has not each scope of the file once and no other",
            Refusal::Unknown(_) => "no refusal that this header knows",
        })
    }
}

impl Error for Refusal {}

/// Which of two path rows is more specific, and how many steps both begin with.
#[derive(Clone, Copy, Debug, PartialEq, Eq)]
pub enum Compared {
    First(usize),
    Second(usize),
    Neither(usize),
}

/// What a path row is for a query. `Shadowed` has the number of steps after which its name was
/// caught: the most that the row shares with a reached path that is more specific.
#[derive(Clone, Copy, Debug, PartialEq, Eq)]
pub enum Standing {
    Visible,
    Shadowed(usize),
    Unreached,
}

/// An answer of this and more is no refusal. Cases are as far apart.
const DONE: u64 = 64;

/// How much was written, or the refusal.
fn written(answer: u64) -> Result<usize, Refusal> {
    match answer.checked_sub(DONE) {
        Some(amount) => Ok(amount as usize),
        None => Err(Refusal::of(answer)),
    }
}

/// Which case holds and the steps that come with it, or the refusal.
fn case(answer: u64) -> Result<(u64, usize), Refusal> {
    match (answer / DONE).checked_sub(1) {
        Some(case) => Ok((case, (answer % DONE) as usize)),
        None => Err(Refusal::of(answer)),
    }
}

/// The version of the library's interface: [`VERSION`], if it goes with these declarations.
pub fn version() -> u64 {
    library::tewhoranu_version()
}

/// Reads a gym file's text into a graph table and answers how many cells were written. The first is
/// the file's form.
pub fn read(text: &[u8], table: &mut [u64]) -> Result<usize, Refusal> {
    written(library::tewhoranu_read(text, table))
}

/// Writes a graph table as a gym file's text, in the form that its first cell says, and answers how
/// many bytes were written.
pub fn write(table: &[u64], out: &mut [u8]) -> Result<usize, Refusal> {
    written(library::tewhoranu_write(table, out))
}

/// The name that a query of the file seeks, without its kind, as the part of the text that holds
/// it; `None` if a refusal by 1 to 7 stands in the way.
pub fn name_sought(text: &[u8], query: usize) -> Option<&[u8]> {
    let mut place = 0;
    let length = library::tewhoranu_name_sought(text, query, &mut place);
    (length != 0).then(|| &text[place as usize..][..length as usize])
}

/// Writes a query's listing and answers how many bytes were written.
pub fn listing(text: &[u8], query: usize, out: &mut [u8]) -> Result<usize, Refusal> {
    written(library::tewhoranu_listing(text, query, out))
}

/// Writes a query's listing and answers how many bytes were written, and how many lawful beginnings
/// the query follows, `FOLLOWED` where there are so many or more. Counting may take much longer than
/// listing, and more stack than a thread has by default: see above.
pub fn listing_counted(text: &[u8], query: usize, out: &mut [u8]) -> Result<(usize, u64), Refusal> {
    let mut followed = 0;
    let answer = library::tewhoranu_listing_counted(text, query, out, &mut followed);
    written(answer).map(|length| (length, followed))
}

/// Judges a path row for a query; its steps go into the first records of the table.
pub fn judge(text: &[u8], query: usize, row: &[u8], steps: &mut [Step]) -> Result<Standing, Refusal> {
    let answer = library::tewhoranu_judge(text, query, row, steps);
    match case(answer)? {
        (0, 0) => Ok(Standing::Visible),
        (1, n) => Ok(Standing::Shadowed(n)),
        (2, 0) => Ok(Standing::Unreached),
        _ => Err(Refusal::Unknown(answer)),
    }
}

/// Compares two path rows by the file's order and turns, and tells how many steps both begin with;
/// the steps of each go into the first records of its table.
pub fn compare(
    text: &[u8],
    first: &[u8],
    second: &[u8],
    first_steps: &mut [Step],
    second_steps: &mut [Step],
) -> Result<Compared, Refusal> {
    let answer = library::tewhoranu_compare(text, first, second, first_steps, second_steps);
    match case(answer)? {
        (0, n) => Ok(Compared::First(n)),
        (1, n) => Ok(Compared::Second(n)),
        (2, n) => Ok(Compared::Neither(n)),
        _ => Err(Refusal::Unknown(answer)),
    }
}

/// Writes the summary and answers how many bytes were written.
pub fn summary(text: &[u8], out: &mut [u8]) -> Result<usize, Refusal> {
    written(library::tewhoranu_summary(text, out))
}

/// Writes the file in the old form and answers how many bytes were written. A kind other than `v` is refused,
/// and so is a turn other than 0.
pub fn to_old(text: &[u8], out: &mut [u8]) -> Result<usize, Refusal> {
    written(library::tewhoranu_to_old(text, out))
}

/// Writes the file in the form with kinds, one with turns as it is, and answers how many bytes were written.
pub fn to_new(text: &[u8], out: &mut [u8]) -> Result<usize, Refusal> {
    written(library::tewhoranu_to_new(text, out))
}

/// Writes the file with the path rules of an expression in the place of its own and answers how many
/// bytes were written. What is no expression over the file's labels is refused, and what needs more
/// than 16 states.
pub fn rules(text: &[u8], expression: &[u8], out: &mut [u8]) -> Result<usize, Refusal> {
    written(library::tewhoranu_rules(text, expression, out))
}

/// Writes the scopes that see a declaration, given its place among the declaration rows from 0, and
/// answers how many bytes were written. A place past the rows is refused.
pub fn readers(text: &[u8], place: usize, out: &mut [u8]) -> Result<usize, Refusal> {
    written(library::tewhoranu_readers(text, place, out))
}

/// Writes the file with its scopes numbered for storage, and the list of their old numbers, and answers
/// how many bytes were written of each.
pub fn renumber(text: &[u8], out: &mut [u8], list: &mut [u8]) -> Result<(usize, usize), Refusal> {
    let mut listed = 0;
    let answer = library::tewhoranu_renumber(text, out, list, &mut listed);
    written(answer).map(|length| (length, listed as usize))
}

/// Writes the file with the numbers that a `was` list gives its scopes, the way back from [`renumber`],
/// and answers how many bytes were written. What is no list with each scope of the file once is refused.
pub fn back(text: &[u8], was: &[u8], out: &mut [u8]) -> Result<usize, Refusal> {
    written(library::tewhoranu_back(text, was, out))
}

/// Writes the scopes and edges of the file in the DOT language, for Graphviz, and answers how many
/// bytes were written. Turns are not drawn: where one is not 0, the first line says so.
pub fn dot(text: &[u8], out: &mut [u8]) -> Result<usize, Refusal> {
    written(library::tewhoranu_dot(text, out))
}

/// Writes the file with the edges of a DOT text in the place of its own, each of turn 0 where the
/// file has turns, and answers how many bytes were written. A DOT text outside the subset is
/// refused, then one without the file's scopes, then its edges in their sequence: past 512, with a
/// scope or label that the file lacks, or there before.
pub fn undot(text: &[u8], dot: &[u8], out: &mut [u8]) -> Result<usize, Refusal> {
    written(library::tewhoranu_undot(text, dot, out))
}

#[cfg(test)]
mod tests {
    use super::*;

    #[test]
    fn the_library_has_this_version() {
        assert_eq!(version(), VERSION);
    }

    #[test]
    fn numbers_and_refusals_go_together() {
        for number in 0..DONE {
            assert_eq!(Refusal::of(number).number(), number);
        }
        for (refusal, number) in Refusal::NAMED {
            assert_eq!((Refusal::of(number), refusal.number()), (refusal, number));
        }
    }

    #[test]
    fn an_unknown_number_is_an_error_and_no_panic() {
        assert_eq!(written(63), Err(Refusal::Unknown(63)));
        assert_eq!(case(10), Err(Refusal::Unknown(10)));
    }
}
