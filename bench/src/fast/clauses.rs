//! Clauses as sorted sets of codes (net w is 2w, its inverse 2w + 1), each once, ignored ones left out.

use super::keys::{mixed, Table};

pub struct Clauses {
    codes: Vec<u32>,
    ends: Vec<u32>,
}

impl Clauses {
    pub fn of(entries: &[i32]) -> Clauses {
        let mut clauses = Clauses { codes: Vec::with_capacity(entries.len()), ends: Vec::with_capacity(4_096) };
        let mut seen: Table<u32> = Table::default();
        let mut set = Vec::new();
        for &entry in entries {
            if entry == 0 {
                clauses.add(&mut set, &mut seen);
                set.clear();
            } else {
                set.push(2 * entry.unsigned_abs() + u32::from(entry < 0));
            }
        }
        clauses
    }

    fn add(&mut self, set: &mut Vec<u32>, seen: &mut Table<u32>) {
        set.sort_unstable();
        set.dedup();
        if set.windows(2).any(|pair| pair[0] ^ 1 == pair[1]) {
            return;
        }
        let mut key = set.iter().fold(set.len() as u64, |key, &code| mixed(key ^ u64::from(code)));
        while let Some(&i) = seen.get(&key) {
            if self.get(i as usize) == &set[..] {
                return;
            }
            key = key.wrapping_add(1);
        }
        seen.insert(key, self.ends.len() as u32);
        self.codes.extend_from_slice(set);
        self.ends.push(self.codes.len() as u32);
    }

    pub fn len(&self) -> usize {
        self.ends.len()
    }

    pub fn get(&self, i: usize) -> &[u32] {
        let start = if i == 0 { 0 } else { self.ends[i - 1] };
        &self.codes[start as usize..self.ends[i] as usize]
    }

    pub fn iter(&self) -> impl Iterator<Item = &[u32]> + Clone {
        (0..self.len()).map(|i| self.get(i))
    }
}
