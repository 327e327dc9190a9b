//! The two formats that a text can have, told by its file's name.

use reference::{ClauseList, Refusal};

pub struct Format {
    pub answer_text: fn(&[u8]) -> String,
    pub read: fn(&[u8], usize) -> Result<ClauseList, Refusal>,
}

const DIMACS: Format = Format { answer_text: reference::answer_text, read: reference::read };
const AIGER: Format = Format { answer_text: reference::aiger::answer_text, read: reference::aiger::read };

pub fn is_aiger(file: &str) -> bool {
    file.ends_with(".aag")
}

/// The reference's side of a file's format.
pub fn of(file: &str) -> Format {
    if is_aiger(file) {
        AIGER
    } else {
        DIMACS
    }
}
