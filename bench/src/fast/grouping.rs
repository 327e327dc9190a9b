//! A grouping with flat leads. The larger group keeps its own lead, so a net's lead changes rarely; constants keep theirs.
//! The lowest net of a group is looked for at the end.

pub struct Grouping {
    lead: Vec<u32>,
    next: Vec<u32>,
    last: Vec<u32>,
    size: Vec<u32>,
    changed: Vec<u32>,
    pub clash: bool,
}

impl Grouping {
    /// Net 0 with codes 0 and 1 stands for F and T.
    pub fn new(nets: usize) -> Grouping {
        let all = 0..=nets as u32;
        Grouping {
            lead: all.clone().map(|net| 2 * net).collect(),
            next: vec![0; nets + 1],
            last: all.collect(),
            size: vec![1; nets + 1],
            changed: Vec::new(),
            clash: false,
        }
    }

    pub fn lead(&self, code: u32) -> u32 {
        self.lead[code as usize / 2] ^ (code & 1)
    }

    pub fn join(&mut self, a: u32, b: u32) {
        let (a, b) = (self.lead(a), self.lead(b));
        if a == b {
            return;
        }
        if a ^ 1 == b {
            self.clash = true;
            return;
        }
        let a_keeps = a < 2 || b >= 2 && self.size[a as usize / 2] >= self.size[b as usize / 2];
        if a_keeps {
            self.take_over(a, b);
        } else {
            self.take_over(b, a);
        }
    }

    /// The group led by `gone` gets the lead `kept`.
    fn take_over(&mut self, kept: u32, gone: u32) {
        let (to, from) = (kept as usize / 2, gone as usize / 2);
        let turn = kept ^ gone;
        let mut net = from;
        loop {
            self.lead[net] ^= turn;
            self.changed.push(net as u32);
            if net == self.last[from] as usize {
                break;
            }
            net = self.next[net] as usize;
        }
        self.next[self.last[to] as usize] = from as u32;
        self.last[to] = self.last[from];
        self.size[to] += self.size[from];
    }

    /// The nets whose lead has changed since this was last asked, each once.
    pub fn take_changed(&mut self) -> Vec<u32> {
        let mut changed = std::mem::take(&mut self.changed);
        changed.sort_unstable();
        changed.dedup();
        changed
    }

    /// For each net the code of the lowest net of its group, or of a constant.
    pub fn lowest_leads(&self) -> Vec<u32> {
        let mut lowest = vec![u32::MAX; self.lead.len()];
        lowest[0] = 0;
        (1..self.lead.len())
            .map(|net| {
                let lead = self.lead[net];
                let low = &mut lowest[lead as usize / 2];
                if *low == u32::MAX {
                    *low = 2 * net as u32 ^ (lead & 1);
                }
                *low ^ (lead & 1)
            })
            .collect()
    }
}
