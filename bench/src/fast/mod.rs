//! The comparison sheet from document 01 and, for ITEs, document 02, by hash tables, occurrence lists and going again only
//! over what changed in the last round. It shares no code with the program or with the tests' reference.

mod clauses;
mod gates;
mod grouping;
mod ites;
mod keys;
mod occurrences;
mod reading;
mod rounds;
mod sheet;

pub use reading::{read, Refused};

/// What the program prints for a text.
pub fn answer(text: &[u8]) -> Vec<u8> {
    match read(text) {
        Err(Refused { number, place }) => format!("refusal,place\n{number},{place}\n").into_bytes(),
        Ok(list) => {
            let clauses = clauses::Clauses::of(&list.entries);
            let gates = gates::Gates::of(&clauses, list.nets);
            let closing = rounds::close(&clauses, &gates, list.nets);
            sheet::sheet(list.nets, &gates, &closing)
        }
    }
}
