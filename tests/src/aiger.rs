//! Circuits as ASCII AIGER text, written from the text of document 02's first wish and nothing else. A literal is AIGER's:
//! 0 and 1 are the constants false and true, 2v is net v and 2v + 1 its inverse.

use super::{refuse, test_list, unsigned, ClauseList, Refusal};
use std::collections::HashSet;

struct Circuit {
    nets: u64,
    output: u64,
    /// output and inputs of each AND line
    ands: Vec<[u64; 3]>,
}

/// The line that starts at a place, without its LF; none if the text ends before that.
fn line(text: &[u8], start: usize) -> Option<&[u8]> {
    let length = text[start..].iter().position(|&b| b == b'\n')?;
    Some(&text[start..start + length])
}

/// The numbers of a line, with one space between, if there are just so many.
fn numbers<const N: usize>(line: &[u8]) -> Option<[u64; N]> {
    let numbers: Option<Vec<u64>> = line.split(|&b| b == b' ').map(unsigned).collect();
    numbers?.try_into().ok()
}

/// Where a word of a line starts, the words being counted from 0.
fn word_start(line: &[u8], word: usize) -> usize {
    line.split(|&b| b == b' ').take(word).map(|w| w.len() + 1).sum()
}

/// The lines behind the header, in the order of the file.
struct Lines<'a> {
    text: &'a [u8],
    at: usize,
    most: u64,
}

impl Lines<'_> {
    /// The start of the next line, and its literals.
    fn next<const N: usize>(&mut self) -> Result<(usize, [u64; N]), Refusal> {
        let start = self.at;
        let Some(line) = line(self.text, start) else { return refuse(17, start) };
        let Some(literals) = numbers(line) else { return refuse(17, start) };
        if literals.iter().any(|&x| x > self.most) {
            return refuse(17, start);
        }
        self.at = start + line.len() + 1;
        Ok((start, literals))
    }
}

fn is_net(x: u64) -> bool {
    x > 1 && x % 2 == 0
}

fn circuit(text: &[u8]) -> Result<Circuit, Refusal> {
    if text.len() > 65_536 {
        return refuse(1, 0);
    }
    let Some(header) = line(text, 0) else { return refuse(15, 0) };
    let Some([nets, inputs, latches, outputs, ands]) = header.strip_prefix(b"aag ").and_then(numbers) else {
        return refuse(15, 0);
    };
    if nets < inputs + latches + ands {
        return refuse(15, 0);
    }
    if latches != 0 {
        return refuse(16, word_start(header, 3));
    }
    if outputs != 1 {
        return refuse(16, word_start(header, 4));
    }
    let mut lines = Lines { text, at: header.len() + 1, most: 2 * nets + 1 };
    let mut set = HashSet::new();
    for _ in 0..inputs {
        let (start, [x]) = lines.next()?;
        if !is_net(x) || !set.insert(x) {
            return refuse(17, start);
        }
    }
    let (_, [output]) = lines.next()?;
    let ands = (0..ands).map(|_| lines.next()).collect::<Result<Vec<(usize, [u64; 3])>, Refusal>>()?;
    for &(start, [x, ..]) in &ands {
        if !is_net(x) || !set.insert(x) {
            return refuse(18, start);
        }
    }
    Ok(Circuit { nets, output, ands: ands.into_iter().map(|(_, literals)| literals).collect() })
}

fn inverse(x: u64) -> u64 {
    x ^ 1
}

/// A literal of a net as an entry.
fn entry(x: u64) -> i64 {
    let net = (x / 2) as i64;
    if x % 2 == 0 {
        net
    } else {
        -net
    }
}

/// The clause without the constant false; none if it is left out.
fn made(literals: &[u64]) -> Option<Vec<i64>> {
    if literals.iter().any(|&x| x == 1 || literals.contains(&inverse(x))) {
        return None;
    }
    Some(literals.iter().filter(|&&x| x != 0).map(|&x| entry(x)).collect())
}

fn clauses(circuit: &Circuit) -> Vec<Vec<i64>> {
    let mut clauses = Vec::new();
    for &[l, a, b] in &circuit.ands {
        clauses.extend(made(&[inverse(l), a]));
        clauses.extend(made(&[inverse(l), b]));
        clauses.extend(made(&[l, inverse(a), inverse(b)]));
    }
    clauses.extend(made(&[circuit.output]));
    clauses
}

/// Reads a text into a row that has room for the given number of entries.
pub fn read(text: &[u8], room: usize) -> Result<ClauseList, Refusal> {
    let circuit = circuit(text)?;
    let clauses = clauses(&circuit);
    let row: Vec<i64> = clauses.iter().flat_map(|c| c.iter().copied().chain([0])).collect();
    if room < row.len() {
        return refuse(4, 0);
    }
    let list = ClauseList { nets: circuit.nets, clauses: clauses.len() as u64, row };
    test_list(&list)?;
    Ok(list)
}

/// What the program for AIGER prints for a text.
pub fn answer_text(text: &[u8]) -> String {
    super::answer(read(text, usize::MAX))
}
