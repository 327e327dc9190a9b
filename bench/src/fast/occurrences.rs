//! For each key the items it occurs in, in one row.

pub struct Occurrences {
    starts: Vec<u32>,
    items: Vec<u32>,
}

impl Occurrences {
    /// From pairs of key and item, in their order; keys are below the given number.
    pub fn of(keys: usize, pairs: impl Iterator<Item = (u32, u32)> + Clone) -> Occurrences {
        let mut starts = vec![0; keys + 1];
        pairs.clone().for_each(|(key, _)| starts[key as usize + 1] += 1);
        for key in 0..keys {
            starts[key + 1] += starts[key];
        }
        let mut next = starts.clone();
        let mut items = vec![0; starts[keys] as usize];
        for (key, item) in pairs {
            items[next[key as usize] as usize] = item;
            next[key as usize] += 1;
        }
        Occurrences { starts, items }
    }

    pub fn get(&self, key: u32) -> &[u32] {
        &self.items[self.starts[key as usize] as usize..self.starts[key as usize + 1] as usize]
    }
}
