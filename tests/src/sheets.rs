//! Reads what the program prints.

use reference::{F, T};

/// The second line: the values of a sheet, or the number and place of a refusal.
pub fn values(printed: &str) -> &str {
    printed.lines().nth(1).unwrap_or("")
}

pub fn verdict(printed: &str) -> &str {
    values(printed).split(',').next().unwrap_or("")
}

/// The rounds used, and V.
pub fn rounds_and_nets(printed: &str) -> (u64, u64) {
    let mut numbers = values(printed).split(',').skip(1).map(|n| n.parse().unwrap_or(0));
    (numbers.next().unwrap_or(0), numbers.next().unwrap_or(0))
}

/// The number of a refusal, if the text was turned away.
pub fn refusal(printed: &str) -> Option<u32> {
    printed.strip_prefix("refusal,place\n")?.split(',').next()?.parse().ok()
}

/// The lead of each net; none on a contradiction.
pub fn leads(printed: &str) -> Option<Vec<i64>> {
    let mut lines = printed.lines().skip(2);
    if lines.next() != Some("net,lead") {
        return None;
    }
    lines.map(lead).collect()
}

fn lead(line: &str) -> Option<i64> {
    match line.split_once(',')?.1 {
        "T" => Some(T),
        "F" => Some(F),
        number => number.parse().ok(),
    }
}

/// The lead of a literal or a constant.
pub fn lead_of(leads: &[i64], x: i64) -> i64 {
    match x {
        T | F => x,
        _ => x.signum() * leads[x.unsigned_abs() as usize - 1],
    }
}

pub fn is_joined(leads: &[i64], x: i64, y: i64) -> bool {
    lead_of(leads, x) == lead_of(leads, y)
}
