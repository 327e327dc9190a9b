//! Reads DIMACS text, or with --aiger AIGER text, from standard input and prints the reference's sheet, or its refusal.

use std::io::{Read, Write};

fn main() -> std::io::Result<()> {
    let is_aiger = std::env::args().nth(1).is_some_and(|option| option == "--aiger");
    let mut text = Vec::new();
    std::io::stdin().read_to_end(&mut text)?;
    let answer = if is_aiger { reference::aiger::answer_text(&text) } else { reference::answer_text(&text) };
    std::io::stdout().write_all(answer.as_bytes())
}
