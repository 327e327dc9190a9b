//! Measures the program for AIGER text on texts that are hard to read: circuits PROGRAM RUNS. M is 999,999,999 where it may be, so that no
//! table of nets could help in finding what is listed or set twice. Times are medians of processor time beyond an empty run; the
//! last column is the time beside that of inputs in order, in the same run.

mod beyond;
mod process;

use beyond::{arguments, beyond, once, Inputs};
use process::median;
use std::path::Path;

/// The bytes that a text may have.
const MOST: usize = 65_536;
const LARGEST: usize = 999_999_999;
/// Nets that agree in their low bits, and so in the remainder by any number of buckets that is a power of two up to this.
const STEP: usize = 65_536;

fn main() {
    let (program, runs) = arguments("circuits");
    let inputs = Inputs::new("circuits");
    let empty = inputs.write("empty", &circuit(0, &[], 1, &[]));
    let start = median(&mut (0..runs).map(|_| once(&program, &empty).milliseconds).collect::<Vec<_>>());
    println!("An empty circuit takes {start:.2} ms from the start of the process to its end.\n");
    println!("| text | bytes | answer | product, ms | beside the first |\n|---|--:|---|--:|--:|");
    let mut first = None;
    for (title, text) in texts() {
        assert!(text.len() <= MOST, "{title} has {} bytes", text.len());
        let (work, answer) = measure(&program, &inputs.write(title, &text), &empty, runs);
        let beside = work / *first.get_or_insert(work);
        println!("| {title} | {} | {answer} | {work:.2} | {beside:.1} |", text.len());
    }
}

/// The work beyond an empty run, and the second line that is printed.
fn measure(program: &Path, input: &Path, empty: &Path, runs: usize) -> (f64, String) {
    let work = beyond(program, input, empty, runs);
    let printed = once(program, input).printed;
    let lines: Vec<&str> = printed.lines().take(2).collect();
    let kind = if lines[0].starts_with("refusal") { "refusal " } else { "" };
    (work, format!("{kind}{}", lines[1]))
}

fn texts() -> Vec<(&'static str, String)> {
    let reversed = |nets: Vec<usize>| nets.into_iter().rev().collect::<Vec<_>>();
    let in_order = || (1..10_400).collect::<Vec<_>>();
    let same_low = || (1..=LARGEST / 2 / STEP).take(6_500).map(|k| k * STEP).collect::<Vec<_>>();
    let gates = |nets: Vec<usize>| nets.into_iter().map(|n| [2 * n, 1, 1]).collect::<Vec<_>>();
    vec![
        ("inputs in order", circuit(LARGEST, &in_order(), 0, &[])),
        ("inputs in reverse order", circuit(LARGEST, &reversed(in_order()), 0, &[])),
        ("inputs with the same low bits", circuit(LARGEST, &same_low(), 0, &[])),
        ("the same in reverse order", circuit(LARGEST, &reversed(same_low()), 0, &[])),
        ("ANDs in order", circuit(LARGEST, &[], 0, &gates((1..7_000).collect()))),
        ("ANDs with the same low bits", circuit(LARGEST, &[], 0, &gates(same_low().into_iter().take(4_600).collect()))),
        ("ANDs that set one net", circuit(LARGEST, &[], 0, &gates(vec![1; 10_900]))),
        (
            "1,022 ANDs in a chain",
            circuit(1_024, &[1, 2], 1, &(3..=1_024).map(|n| [2 * n, 2 * n - 2, 2 * n - 3]).collect::<Vec<_>>()),
        ),
    ]
}

/// The text of a circuit with so many nets, inputs, an output literal and AND lines.
fn circuit(nets: usize, inputs: &[usize], output: usize, ands: &[[usize; 3]]) -> String {
    let mut text = format!("aag {nets} {} 0 1 {}\n", inputs.len(), ands.len());
    text.extend(inputs.iter().map(|n| format!("{}\n", 2 * n)));
    text += &format!("{output}\n");
    text.extend(ands.iter().map(|[l, a, b]| format!("{l} {a} {b}\n")));
    text
}
