//! What was compared, for the table at the end.

use crate::cases::Cases;
use crate::sheets;
use std::collections::BTreeMap;

#[derive(Default)]
pub struct Row {
    counts: BTreeMap<&'static str, usize>,
    pub faults: usize,
    pub seconds: f64,
}

impl Row {
    pub fn count(&mut self, column: &'static str) {
        *self.counts.entry(column).or_default() += 1;
    }

    fn add(&mut self, other: &Row) {
        for (column, count) in &other.counts {
            *self.counts.entry(column).or_default() += count;
        }
        self.faults += other.faults;
        self.seconds += other.seconds;
    }

    fn print(&self, kind: &str, columns: &[&str]) {
        print!("{kind:<16}");
        columns.iter().for_each(|c| print!("{:>10}", self.counts.get(c).unwrap_or(&0)));
        println!("{:>10}{:>10.1}", self.faults, self.seconds);
    }
}

#[derive(Default)]
pub struct Table {
    columns: &'static [&'static str],
    rows: BTreeMap<&'static str, Row>,
    verdicts: BTreeMap<String, usize>,
    rounds: BTreeMap<u64, usize>,
    /// lists of at least two nets that took V rounds, and V + 1
    longest: [usize; 2],
    refusals: BTreeMap<u32, usize>,
    /// by their titles
    cases: BTreeMap<&'static str, Cases>,
}

/// Rounds are counted by their number up to 9, then by the power of ten below.
fn bucket(rounds: u64) -> u64 {
    match rounds {
        0..=9 => rounds,
        10..=99 => 10,
        100..=999 => 100,
        _ => 1_000,
    }
}

impl Table {
    pub fn new(columns: &'static [&'static str]) -> Table {
        Table { columns, ..Table::default() }
    }

    pub fn row(&mut self, kind: &'static str) -> &mut Row {
        self.rows.entry(kind).or_default()
    }

    /// Counts an answer that both sides gave.
    pub fn count_answer(&mut self, printed: &str) {
        if let Some(number) = sheets::refusal(printed) {
            *self.refusals.entry(number).or_default() += 1;
            return;
        }
        *self.verdicts.entry(sheets::verdict(printed).to_string()).or_default() += 1;
        let (rounds, nets) = sheets::rounds_and_nets(printed);
        *self.rounds.entry(bucket(rounds)).or_default() += 1;
        if nets >= 2 && rounds >= nets {
            self.longest[(rounds - nets) as usize] += 1;
        }
    }

    pub fn count_case(&mut self, title: &'static str, case: String) {
        self.cases.entry(title).or_default().count(case);
    }

    /// How many of the cases that must come did not.
    pub fn missing_cases(&self, title: &str, must: &[&str]) -> usize {
        self.cases.get(title).unwrap_or(&Cases::default()).missing(title, must)
    }

    pub fn missing_refusals(&self, must: &[u32]) -> Vec<u32> {
        must.iter().copied().filter(|n| !self.refusals.contains_key(n)).collect()
    }

    pub fn faults(&self) -> usize {
        self.rows.values().map(|r| r.faults).sum()
    }

    pub fn print(&self) {
        print!("{:<16}", "kind");
        self.columns.iter().for_each(|c| print!("{c:>10}"));
        println!("{:>10}{:>10}", "faults", "seconds");
        let mut sum = Row::default();
        for (kind, row) in &self.rows {
            row.print(kind, self.columns);
            sum.add(row);
        }
        sum.print("all", self.columns);
        println!("verdicts {:?}", self.verdicts);
        println!("rounds {:?} (10, 100, 1000: from there on)", self.rounds);
        println!("V rounds {}, V + 1 rounds {} (V at least 2)", self.longest[0], self.longest[1]);
        println!("refusals {:?}", self.refusals);
        self.cases.iter().for_each(|(title, cases)| cases.print(title));
    }
}
