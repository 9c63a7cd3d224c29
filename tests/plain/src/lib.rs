//! A plain Rust implementation of documents 01 and 02, as far as they are met, written apart from
//! the proved one, to measure and to test that one against. Nothing here is proved.

pub mod answers;
pub mod dot;
pub mod drawings;
pub mod enumerate;
pub mod gym;
pub mod path_row;
pub mod random;
pub mod renumbering;
pub mod row_changes;
pub mod rules;
pub mod search;
