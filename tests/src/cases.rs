//! How many of each case there were.

use std::collections::BTreeMap;

#[derive(Default)]
pub struct Cases(BTreeMap<String, usize>);

impl Cases {
    pub fn count(&mut self, case: String) {
        *self.0.entry(case).or_default() += 1;
    }

    pub fn print(&self, title: &str) {
        println!("{title} {:#?}", self.0);
    }

    /// How many of the cases that must come did not; each is printed.
    pub fn missing(&self, title: &str, must: &[&str]) -> usize {
        let missing: Vec<_> = must.iter().filter(|case| !self.0.keys().any(|c| c.contains(**case))).collect();
        missing.iter().for_each(|case| println!("FAULT: {title}, {case}: never came"));
        missing.len()
    }
}
