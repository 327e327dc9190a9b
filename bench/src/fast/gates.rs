//! The gates in the clauses as given.

use super::clauses::Clauses;
use super::ites::Ites;
use super::keys::{packed, Table};
use super::occurrences::Occurrences;

/// The ANDs whose long clause is this one.
pub struct Ands {
    pub clause: u32,
    pub outputs: Vec<u32>,
}

/// The sum of these nets.
pub struct Xor {
    pub nets: Vec<u32>,
    pub odd: bool,
}

pub struct Gates {
    pub ands: Vec<Ands>,
    pub and_count: usize,
    pub xors: Vec<Xor>,
    pub ites: Ites,
    /// Literals joined by rule 2.
    pub equals: Vec<(u32, u32)>,
}

impl Gates {
    pub fn of(clauses: &Clauses, nets: usize) -> Gates {
        let partners = Partners::of(clauses, nets);
        let ands = ands(clauses, &partners, nets);
        Gates {
            and_count: ands.iter().map(|a| a.outputs.len()).sum(),
            ands,
            xors: xors(clauses),
            ites: Ites::of(clauses),
            equals: partners.equals(clauses),
        }
    }
}

/// For each literal the other literals of its two-literal clauses.
struct Partners(Occurrences);

impl Partners {
    fn of(clauses: &Clauses, nets: usize) -> Partners {
        let pairs = clauses.iter().filter(|c| c.len() == 2).flat_map(|c| [(c[0], c[1]), (c[1], c[0])]);
        Partners(Occurrences::of(2 * nets + 2, pairs))
    }

    /// Rule 2: (x, y) and (not x, not y) join x to the inverse of y.
    fn equals(&self, clauses: &Clauses) -> Vec<(u32, u32)> {
        let both = |c: &&[u32]| c.len() == 2 && self.0.get(c[0] ^ 1).contains(&(c[1] ^ 1));
        clauses.iter().filter(both).map(|c| (c[0], c[1] ^ 1)).collect()
    }
}

/// Literal by literal, so that the partners of its inverse are marked once for all clauses with it.
fn ands(clauses: &Clauses, partners: &Partners, nets: usize) -> Vec<Ands> {
    let long = (0..clauses.len() as u32).filter(|&i| clauses.get(i as usize).len() >= 3);
    let within = Occurrences::of(2 * nets + 2, long.flat_map(|i| clauses.get(i as usize).iter().map(move |&l| (l, i))));
    let mut outputs: Vec<Vec<u32>> = vec![Vec::new(); clauses.len()];
    let mut mark = vec![0; 2 * nets + 2];
    for l in 2..2 * nets as u32 + 2 {
        let inputs = partners.0.get(l ^ 1);
        inputs.iter().for_each(|&r| mark[r as usize] = l);
        for &i in within.get(l) {
            let clause = clauses.get(i as usize);
            if clause.len() <= inputs.len() + 1 && clause.iter().all(|&k| k == l || mark[k as usize ^ 1] == l) {
                outputs[i as usize].push(l);
            }
        }
    }
    let found = (0..).zip(outputs).filter(|(_, outputs)| !outputs.is_empty());
    found.map(|(clause, outputs)| Ands { clause, outputs }).collect()
}

/// Clauses are different sets, so it is enough to count those of each parity over the same nets.
fn xors(clauses: &Clauses) -> Vec<Xor> {
    let mut counts: Table<[u32; 2]> = Table::default();
    let mut found = Vec::new();
    for clause in clauses.iter().filter(|c| (3..=5).contains(&c.len())) {
        let nets = clause.iter().map(|code| code / 2);
        let key = nets.clone().fold(0, |key, net| key << 12 | u64::from(net));
        let odd_signs = clause.iter().sum::<u32>() % 2;
        let count = &mut counts.entry(key).or_default()[odd_signs as usize];
        *count += 1;
        if *count == 1 << (clause.len() - 1) {
            found.push(Xor { nets: nets.collect(), odd: odd_signs == 0 });
        }
    }
    found
}

/// Three-literal clauses, to be asked for.
pub struct Triples(Table<()>);

impl Triples {
    pub fn of(clauses: &Clauses) -> Triples {
        let triples = clauses.iter().filter(|c| c.len() == 3);
        Triples(triples.map(|c| (packed(c), ())).collect())
    }

    /// Inverting literals keeps the order of their nets, so a sorted clause stays sorted.
    pub fn has(&self, clause: [u32; 3]) -> bool {
        self.0.contains_key(&packed(&clause))
    }
}
