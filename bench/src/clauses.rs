//! Measures two clauses of 8,000 literals that are compared where they stand: clauses PROGRAM RUNS. The program compares them once for
//! each byte of its input, and the byte says in which order the second one has its literals. Times are medians of processor time
//! beyond an empty run; the last column is the time beside that of the same order, in the same run.

mod beyond;
mod process;

use beyond::{arguments, beyond, once, Inputs};

/// An order, its byte, how many comparisons a run makes, and whether the two are equal.
const ORDERS: [(&str, char, usize, bool); 4] = [
    ("the same order", 'o', 2_000, true),
    ("turned round", 't', 2_000, true),
    ("turned round but for one literal", 'b', 2_000, false),
    ("mixed up", 'm', 4, true),
];

fn main() {
    let (program, runs) = arguments("clauses");
    let inputs = Inputs::new("clauses");
    let empty = inputs.write("empty", "");
    println!("| second clause | ms | beside the first |\n|---|--:|--:|");
    let mut first = None;
    for (title, byte, times, equal) in ORDERS {
        let input = inputs.write(title, &byte.to_string().repeat(times));
        let signs = if equal { "=" } else { "/" }.repeat(times);
        assert!(once(&program, &input).printed.ends_with(&format!(" {signs}\n")), "{title}: a wrong answer");
        let each = beyond(&program, &input, &empty, runs) / times as f64;
        println!("| {title} | {each:.3} | {:.1} |", each / *first.get_or_insert(each));
    }
}
