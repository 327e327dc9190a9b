//! Reads DIMACS or AIGER text from standard input and prints its sheet.
//!
//!     (cd crates/cuddremai_c && rt lib)
//!     rustc -O examples/rust/sheet.rs -C link-arg=crates/cuddremai_c/out/libcuddremai_c.a -o crates/cuddremai_c/out/sheet
//!     crates/cuddremai_c/out/sheet < examples/two_ands.cnf

#[allow(dead_code)]
mod cuddremai;

use std::io::{self, Read, Write};

fn main() -> io::Result<()> {
    let mut input = Vec::new();
    io::stdin().read_to_end(&mut input)?;
    let mut text = [0; cuddremai::SHEET];
    let mut out = io::stdout();
    let compare = if input.starts_with(b"aag ") { cuddremai::compare_aiger } else { cuddremai::compare };
    match compare(&input, &mut text) {
        Ok(written) => out.write_all(&text[..written]),
        Err(r) => writeln!(out, "refusal,place\n{},{}", r.number, r.place),
    }
}
