//! What the fuzzer calls for each input: runs the product's compiled code in this process and compares what it prints
//! with the reference. The product's `main`, `read` and `write` are renamed when it is linked (see ../fuzz).

use std::cell::RefCell;

extern "C" {
    fn program_main() -> i32;
}

struct Streams {
    input: Vec<u8>,
    at: usize,
    output: Vec<u8>,
}

thread_local! {
    static STREAMS: RefCell<Streams> = const { RefCell::new(Streams { input: Vec::new(), at: 0, output: Vec::new() }) };
}

/// Standard input of the program.
#[no_mangle]
unsafe extern "C" fn program_read(_file: i32, to: *mut u8, count: usize) -> isize {
    STREAMS.with_borrow_mut(|s| {
        let n = count.min(s.input.len() - s.at);
        std::slice::from_raw_parts_mut(to, n).copy_from_slice(&s.input[s.at..s.at + n]);
        s.at += n;
        n as isize
    })
}

/// Standard output of the program.
#[no_mangle]
unsafe extern "C" fn program_write(_file: i32, from: *const u8, count: usize) -> isize {
    STREAMS.with_borrow_mut(|s| s.output.extend_from_slice(std::slice::from_raw_parts(from, count)));
    count as isize
}

fn answer(text: &[u8]) -> Vec<u8> {
    STREAMS.set(Streams { input: text.to_vec(), at: 0, output: Vec::new() });
    unsafe { program_main() };
    STREAMS.with_borrow_mut(|s| std::mem::take(&mut s.output))
}

/// Whether the program is the one for AIGER.
fn is_aiger() -> bool {
    std::env::var("FUZZ_AIGER").is_ok()
}

/// An input is a text; one that starts with `L` stands for a list or a circuit instead, so that changed bytes are changed
/// literals and not only refusals.
fn text_of(input: &[u8]) -> Vec<u8> {
    match input {
        [b'L', nets, output, pins @ ..] if is_aiger() => circuit_text(*nets as usize % 24 + 1, *output, pins),
        [b'L', nets, entries @ ..] => list_text(*nets as i32 % 24 + 1, entries),
        _ => input.to_vec(),
    }
}

/// A literal or a clause's end for each byte.
fn list_text(nets: i32, entries: &[u8]) -> Vec<u8> {
    let mut body = String::new();
    let mut clauses = 0;
    for &byte in entries.iter().chain([&0]) {
        let entry = byte as i8 as i32 % (nets + 1);
        clauses += i32::from(entry == 0);
        body.push_str(&format!("{entry}{}", if entry == 0 { "\n" } else { " " }));
    }
    format!("p cnf {nets} {clauses}\n{body}").into_bytes()
}

/// An AND for each two bytes, on the nets from the first on; the others are inputs.
fn circuit_text(nets: usize, output: u8, pins: &[u8]) -> Vec<u8> {
    let literal = |byte: u8| byte as usize % (2 * nets + 2);
    let ands = nets.min(pins.len() / 2);
    let mut text = format!("aag {nets} {} 0 1 {ands}\n", nets - ands);
    (ands + 1..=nets).for_each(|v| text.push_str(&format!("{}\n", 2 * v)));
    text.push_str(&format!("{}\n", literal(output)));
    for (i, pair) in pins.chunks_exact(2).take(ands).enumerate() {
        text.push_str(&format!("{} {} {}\n", 2 * i + 2, literal(pair[0]), literal(pair[1])));
    }
    text.into_bytes()
}

fn expected(text: &[u8]) -> String {
    if is_aiger() {
        reference::aiger::answer_text(text)
    } else {
        reference::answer_text(text)
    }
}

/// Keeps the text in the folder that FUZZ_TEXTS names, for the proved program to be run on.
fn keep(text: &[u8]) {
    let Ok(folder) = std::env::var("FUZZ_TEXTS") else { return };
    let name = text.iter().fold(text.len() as u64, |sum, &b| sum.wrapping_mul(0x100_0000_01b3).wrapping_add(b as u64));
    let format = if is_aiger() { "aag" } else { "cnf" };
    std::fs::write(format!("{folder}/{name:016x}.{format}"), text).expect("a file for a text");
}

#[no_mangle]
extern "C" fn LLVMFuzzerTestOneInput(bytes: *const u8, count: usize) -> i32 {
    let input = if count == 0 { &[] } else { unsafe { std::slice::from_raw_parts(bytes, count) } };
    let text = text_of(input);
    keep(&text);
    let (found, expected) = (answer(&text), expected(&text));
    if found != expected.as_bytes() {
        eprintln!("FAULT: program and reference differ on the text \"{}\"", text.escape_ascii());
        eprintln!("program:\n{}reference:\n{expected}", String::from_utf8_lossy(&found));
        std::process::abort();
    }
    0
}
