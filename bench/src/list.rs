//! A clause list, its text, and document 01's limits.

use std::fmt::Write;

pub struct List {
    pub nets: usize,
    pub clauses: Vec<Vec<i32>>,
}

impl List {
    /// As the product's printing writes it.
    pub fn text(&self) -> String {
        let mut text = format!("p cnf {} {}\n", self.nets, self.clauses.len());
        for clause in &self.clauses {
            clause.iter().for_each(|entry| write!(text, "{entry} ").expect("a string takes it"));
            text.push_str("0\n");
        }
        text
    }

    pub fn entries(&self) -> usize {
        self.clauses.iter().map(|clause| clause.len() + 1).sum()
    }

    /// Within one part of every limit.
    pub fn fits(&self, part: usize) -> bool {
        let sizes = [(self.nets, 1_024), (self.clauses.len(), 4_096), (self.entries(), 16_384)];
        sizes.iter().all(|(size, limit)| size * part <= *limit) && self.text().len() * part <= 65_536
    }
}
