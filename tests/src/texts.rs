//! The texts of lists: plain, dressed, padded, damaged, and made to be turned away.

use crate::damage;
use crate::lists::List;
use crate::random::Random;

/// The list's DIMACS text, plain.
pub fn plain(list: &List) -> Vec<u8> {
    let mut text = format!("p cnf {} {}\n", list.nets, list.clauses.len());
    for clause in &list.clauses {
        for l in clause {
            text.push_str(&format!("{l} "));
        }
        text.push_str("0\n");
    }
    text.into_bytes()
}

/// The same list with other blanks, line ends and comments.
pub fn dressed(list: &List, r: &mut Random) -> Vec<u8> {
    let mut text = Vec::new();
    if r.once_in(2) {
        text.extend_from_slice(b"c p cnf 9 9\n \t\r\n");
    }
    let gap: &[u8] = r.pick(&[b" " as &[u8], b" \t"]);
    let end: &[u8] = r.pick(&[b"\n" as &[u8], b"\r\n", b" \r \t\r\n"]);
    text.extend_from_slice(b"p");
    for word in ["cnf".to_string(), list.nets.to_string(), list.clauses.len().to_string()] {
        text.extend_from_slice(gap);
        text.extend_from_slice(word.as_bytes());
    }
    text.extend_from_slice(end);
    for l in list.clauses.iter().flat_map(|c| c.iter().copied().chain([0])) {
        text.extend_from_slice(l.to_string().as_bytes());
        text.extend_from_slice(match r.below(8) {
            0 => b"\n",
            1 => b"\r\n\t",
            2 => b"\nc 1 2 0 \xff\0\n",
            _ => gap,
        });
    }
    if r.once_in(3) {
        text.extend_from_slice(b"\nc the end");
    }
    text
}

/// The same list with blanks or a comment behind it, up to about the longest text.
pub fn padded(list: &List, r: &mut Random) -> Vec<u8> {
    let mut text = plain(list);
    let length = damage::about_longest(r);
    let byte = r.pick(b" \t\r\nc");
    if byte == b'c' && r.once_in(2) {
        let mut long = vec![b'c'; length.saturating_sub(text.len() + 1)];
        long.push(b'\n');
        long.extend(text);
        return long;
    }
    text.resize(text.len().max(length), byte);
    text
}

const HEADERS: [&[u8]; 20] = [
    b"",
    b" p cnf 3 1\n",
    b"p cnf 3\n",
    b"p cnf 3 1 0\n",
    b"p cnf 03 1\n",
    b"p cnf 3 -1\n",
    b"p cnf -3 1\n",
    b"P cnf 3 1\n",
    b"p CNF 3 1\n",
    b"pcnf 3 1\n",
    b"p cnf3 1\n",
    b"p\rcnf 3 1\n",
    b"p cnf 3\r1\n",
    b"p cnf 3 1\r\n",
    b"p\tcnf\t\t3 \t1 \n",
    b"p\n",
    b"p cnf 1234567890 1\n",
    b"p cnf 999999999 0\n",
    b"p cnf 3 1\0\n",
    b"cnf 3 1\n",
];

const WORDS: [&[u8]; 22] = [
    b"-0",
    b"00",
    b"01",
    b"-01",
    b"+1",
    b"-",
    b"--1",
    b"1-",
    b"1-2",
    b"1234567890",
    b"999999999",
    b"-999999999",
    b"-1234567890",
    b"2147483648",
    b"-2147483648",
    b"1.0",
    b"\0",
    b"1\0",
    b"%",
    b"c",
    b"\x0b1",
    b"1\xa0",
];

/// A text with a few damages.
pub fn damaged(mut text: Vec<u8>, r: &mut Random) -> Vec<u8> {
    for _ in 0..r.between(1, 3) {
        match r.below(8) {
            0 => text = damage::with_header(&text, &HEADERS, r),
            1 | 2 => text = damage::with_word(&text, &WORDS, r),
            3 => text = damage::with_line_ends(&text, r),
            _ => damage::damage_byte(&mut text, b"0123456789- \t\r\npcnf\0\x0b\xa0+x", r),
        }
    }
    text
}

/// Sizes and entries of which several are past their limits at once, so that the order of the tests shows.
pub fn turned_away(r: &mut Random) -> Vec<u8> {
    let nets = r.pick(&[0, 1, 9, 1_023, 1_024, 1_025, 999_999_999]);
    let zeros = r.pick(&[0, 1, 2, 40, 4_095, 4_096, 4_097]);
    let clauses = if r.once_in(2) { zeros } else { r.pick(&[0, 1, 4_096, 4_097, 999_999_999]) };
    let entries = r.pick(&[zeros, zeros + 1, zeros + 3, 16_383, 16_384, 16_385, 20_000]).max(zeros);
    let mut row: Vec<i64> = (0..entries).map(|i| if i < zeros { 0 } else { 1 }).collect();
    r.shuffle(&mut row);
    if r.once_in(2) {
        let behind = row.iter().rev().position(|&x| x == 0).unwrap_or(0);
        row.rotate_right(behind);
    }
    for _ in 0..r.below(3) {
        if let (Some(i), true) = (row.len().checked_sub(r.between(1, 3)), r.once_in(2)) {
            row[i] = r.pick(&[nets, -nets, nets + 1, -nets - 1]);
        }
    }
    let mut text = format!("p cnf {nets} {clauses}\n");
    for x in row {
        text.push_str(&x.to_string());
        text.push(if r.once_in(9) { '\n' } else { ' ' });
    }
    text.into_bytes()
}
