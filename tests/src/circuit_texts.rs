//! The texts of circuits: padded, damaged, and made to be turned away.

use crate::circuits::{self, Circuit};
use crate::damage;
use crate::random::Random;

const HEADERS: [&[u8]; 34] = [
    b"",
    b"\n",
    b"aag",
    b"aag\n",
    b"aag ",
    b"aig 3 2 0 1 1\n",
    b"AAG 3 2 0 1 1\n",
    b"aag3 2 0 1 1\n",
    b" aag 3 2 0 1 1\n",
    b"\naag 3 2 0 1 1\n",
    b"c\naag 3 2 0 1 1\n",
    b"aag  3 2 0 1 1\n",
    b"aag 3 2  0 1 1\n",
    b"aag 3 2 0 1 1 \n",
    b"aag\t3 2 0 1 1\n",
    b"aag 3 2 0 1\t1\n",
    b"aag 3 2 0 1 1\r\n",
    b"aag 3 2 0 1\n",
    b"aag 3 2 0 1 1 0\n",
    b"aag 3 2 0 1 1 0 0 0 0\n",
    b"aag 3 2 0 1 1",
    b"aag 3 2 0 1 1\0\n",
    b"aag 03 2 0 1 1\n",
    b"aag 3 2 00 1 1\n",
    b"aag -3 2 0 1 1\n",
    b"aag 3 2 -0 1 1\n",
    b"aag +3 2 0 1 1\n",
    b"aag 1000000000 2 0 1 1\n",
    b"aag 4294967299 2 0 1 1\n",
    b"aag 3 2 0 1 4294967297\n",
    b"aag 999999999 999999999 999999999 1 999999999\n",
    b"aag 999999999 999999998 1 1 999999999\n",
    b"aag 999999999 999999999 0 1 0\n",
    b"p cnf 3 2\n",
];

const WORDS: [&[u8]; 24] = [
    b"0",
    b"1",
    b"2",
    b"3",
    b"00",
    b"02",
    b"-0",
    b"-2",
    b"+2",
    b"",
    b" ",
    b"2 2",
    b"2\r",
    b"2\t",
    b"\t2",
    b"2\0",
    b"2\x0b",
    b"x",
    b"2x",
    b"999999999",
    b"1000000000",
    b"2147483650",
    b"4294967298",
    b"18446744073709551618",
];

const BYTES: &[u8] = b"0123456789 \n\t\r-+agc\0\x0b\xa0";

/// A circuit's text with bytes behind it, up to about the longest text.
pub fn padded(circuit: &Circuit, r: &mut Random) -> Vec<u8> {
    let mut text = circuit.text();
    text.resize(text.len().max(damage::about_longest(r)), r.pick(b"\n c0\0"));
    text
}

/// A circuit's text with a few damages.
pub fn damaged(circuit: &Circuit, r: &mut Random) -> Vec<u8> {
    let counts = if r.once_in(5) { recounted(circuit.counts(), r) } else { circuit.counts() };
    let mut text = circuits::text_of(counts, &circuit.lines(), &circuit.rest);
    for _ in 0..r.below(3) {
        match r.below(9) {
            0 => text = damage::with_header(&text, &HEADERS, r),
            1 | 2 => text = damage::with_word(&text, &WORDS, r),
            3 => text = damage::with_line_ends(&text, r),
            4..=6 => text = with_lines(&text, r),
            _ => damage::damage_byte(&mut text, BYTES, r),
        }
    }
    text
}

/// One of the header's numbers changed.
fn recounted(mut counts: [u64; 5], r: &mut Random) -> [u64; 5] {
    let i = r.below(5);
    counts[i] = r.pick(&[counts[i] + 1, counts[i].saturating_sub(1), 0, 1, 2, 1_024, 1_025, 999_999_999]);
    counts
}

/// Two lines swapped; or one dropped, doubled, put in front, joined with the next, cut short, or with other blanks.
fn with_lines(text: &[u8], r: &mut Random) -> Vec<u8> {
    let mut lines: Vec<Vec<u8>> = text.split_inclusive(|&b| b == b'\n').map(|l| l.to_vec()).collect();
    if lines.is_empty() {
        return Vec::new();
    }
    let (i, j) = (r.below(lines.len()), r.below(lines.len()));
    let length = lines[i].len();
    match r.below(9) {
        0 => lines.swap(i, j),
        1 => drop(lines.remove(i)),
        2 => lines.insert(i, lines[i].clone()),
        3 => lines.insert(i, lines[j].clone()),
        4 => drop(lines[i].pop()),
        5 => lines.truncate(i),
        6 => lines[i].insert(0, b' '),
        7 => lines[i].insert(length - 1, b' '),
        _ => lines[i] = lines[i].iter().flat_map(|&b| vec![b; if b == b' ' { 2 } else { 1 }]).collect(),
    }
    lines.concat()
}

// Texts of which several refusals hold

/// The numbers of the refusals that such a text can have, in the order in which they are tested.
const ORDER: [u32; 6] = [1, 15, 16, 17, 18, 5];

pub const TITLE: &str = "refusals that hold at once, of which the first is given:";

/// Two of them that must have held at once.
pub const MUST: [&str; 15] = [
    "1, 15", "1, 16", "1, 17", "1, 18", "1, 5", "15, 16", "15, 17", "15, 18", "15, 5", "16, 17", "16, 18", "16, 5",
    "17, 18", "17, 5", "18, 5",
];

/// A text for which the refusals of these numbers hold, in the order of their tests.
pub struct TurnedAway {
    pub text: Vec<u8>,
    pub numbers: Vec<u32>,
}

impl TurnedAway {
    pub fn random(r: &mut Random) -> TurnedAway {
        let mut numbers = ORDER.to_vec();
        r.shuffle(&mut numbers);
        numbers.truncate(r.pick(&[1, 2, 2, 2, 3, 3]));
        numbers.sort_by_key(|n| ORDER.iter().position(|m| m == n));
        TurnedAway { text: turned_away(&numbers, r), numbers }
    }

    /// The numbers as a case.
    pub fn case(&self) -> String {
        self.numbers.iter().map(|n| n.to_string()).collect::<Vec<_>>().join(", ")
    }
}

fn turned_away(numbers: &[u32], r: &mut Random) -> Vec<u8> {
    let mut circuit = circuits::sound(r);
    if numbers.contains(&5) {
        circuit.nets = r.pick(&[1_025, 2_000, 999_999_998]);
    }
    let mut counts = circuit.counts();
    if numbers.contains(&16) {
        counts[0] += 1;
        (counts[2], counts[3]) = r.pick(&[(1, 1), (0, 0), (0, 2), (1, 0), (1, 2)]);
    }
    if numbers.contains(&18) {
        set_again(&mut circuit, r);
    }
    let mut lines = circuit.lines();
    if numbers.contains(&17) {
        break_line(&mut lines, &circuit, counts[0], r);
    }
    if numbers.contains(&15) {
        let i = r.pick(&[1, 4]);
        counts[i] = counts[0] + 1;
    }
    let mut text = circuits::text_of(counts, &lines, b"");
    if numbers.contains(&1) {
        text.resize(65_537, b'\n');
    }
    text
}

/// An AND's output becomes odd, 0, an input, or that of an AND before.
fn set_again(circuit: &mut Circuit, r: &mut Random) {
    let i = r.between(1, circuit.ands.len() - 1);
    let before = circuit.ands[r.below(i)][0];
    let input = circuit.inputs[r.below(circuit.inputs.len())];
    circuit.ands[i][0] = r.pick(&[circuit.ands[i][0] + 1, 0, 1, input, before]);
}

/// One line is left out at the end or malformed, has a literal that is too large, or an input that is none.
fn break_line(lines: &mut Vec<String>, circuit: &Circuit, nets: u64, r: &mut Random) {
    let inputs = circuit.inputs.len();
    let (line, input) = (r.below(lines.len()), r.below(inputs));
    match r.below(8) {
        0 => drop(lines.pop()),
        1 => lines[line].push(' '),
        2 => lines[line].insert(0, '0'),
        3 => lines[line] = lines[line].replacen(|c: char| c.is_ascii_digit(), "", 9),
        4 => lines[line] = (2 * nets + 2).to_string(),
        5 => lines[line] = lines[line].rsplit_once(' ').map_or("x".into(), |(l, _)| format!("{l} {}", 2 * nets + 2)),
        6 => lines[input] = r.pick(&["0", "1", "3"]).into(),
        _ => lines[input] = lines[(input + 1) % inputs].clone(),
    }
}
