//! Reads DIMACS text from standard input and prints the sheet.

use std::io::{Read, Write};

fn main() {
    let mut text = Vec::with_capacity(1 << 17);
    std::io::stdin().lock().read_to_end(&mut text).expect("standard input can be read");
    std::io::stdout().lock().write_all(&fast::answer(&text)).expect("standard output can be written");
}
