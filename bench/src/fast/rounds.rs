//! The closing rounds. A round draws conclusions from the leads before it, and only from clauses and gates with a net whose
//! lead changed in the last round; the others drew theirs earlier.

use super::clauses::Clauses;
use super::gates::{Ands, Gates, Xor};
use super::grouping::Grouping;
use super::ites::Matching;
use super::keys::{mixed, Table};
use super::occurrences::Occurrences;

pub struct Closing {
    pub rounds: usize,
    /// None after a contradiction.
    pub leads: Option<Vec<u32>>,
}

type Joins = Vec<(u32, u32)>;
const TRUE: u32 = 1;

pub fn close(clauses: &Clauses, gates: &Gates, nets: usize) -> Closing {
    let mut grouping = Grouping::new(nets);
    let mut rules = Rules::new(clauses, gates, nets);
    let mut joins = rules.first_round(&grouping);
    let mut rounds = 0;
    loop {
        joins.iter().for_each(|&(a, b)| grouping.join(a, b));
        if grouping.clash {
            return Closing { rounds: rounds + 1, leads: None };
        }
        let changed = grouping.take_changed();
        if changed.is_empty() {
            return Closing { rounds, leads: Some(grouping.lowest_leads()) };
        }
        rounds += 1;
        joins = rules.next_round(&changed, &grouping);
    }
}

struct Rules<'a> {
    units: Units<'a>,
    ands: AndMatching<'a>,
    xors: XorMatching<'a>,
    ites: Matching<'a>,
    equals: &'a [(u32, u32)],
    and_of: Occurrences,
    xor_of: Occurrences,
    ite_of: Occurrences,
}

/// For each net the items that it occurs in.
fn by_net<'a, A: 'a, N>(nets: usize, items: &'a [A], nets_of: impl Fn(&'a A) -> N + Copy + 'a) -> Occurrences
where
    N: Iterator<Item = u32> + Clone,
{
    let pairs = (0..).zip(items).flat_map(move |(i, item)| nets_of(item).map(move |net| (net, i)));
    Occurrences::of(nets + 1, pairs)
}

impl<'a> Rules<'a> {
    fn new(clauses: &'a Clauses, gates: &'a Gates, nets: usize) -> Rules<'a> {
        Rules {
            units: Units::new(clauses, nets),
            ands: AndMatching::new(clauses, &gates.ands, nets),
            xors: XorMatching { xors: &gates.xors, table: Table::default() },
            ites: Matching::new(&gates.ites, nets),
            equals: &gates.equals,
            and_of: by_net(nets, &gates.ands, |a| clauses.get(a.clause as usize).iter().map(|code| code / 2)),
            xor_of: by_net(nets, &gates.xors, |x| x.nets.iter().copied()),
            ite_of: by_net(nets, &gates.ites.groups, |g| g.nets()),
        }
    }

    fn first_round(&mut self, grouping: &Grouping) -> Joins {
        let mut joins = self.equals.to_vec();
        self.units.first(&mut joins);
        (0..self.ands.gates.len()).for_each(|i| self.ands.visit(i, grouping, &mut joins));
        (0..self.xors.xors.len()).for_each(|i| self.xors.visit(i, grouping, &mut joins));
        (0..self.ites.len()).for_each(|i| self.ites.visit(i, grouping, &mut joins));
        joins
    }

    fn next_round(&mut self, changed: &[u32], grouping: &Grouping) -> Joins {
        let mut joins = Vec::new();
        self.units.visit(changed, grouping, &mut joins);
        touched(&self.and_of, changed).into_iter().for_each(|i| self.ands.visit(i, grouping, &mut joins));
        touched(&self.xor_of, changed).into_iter().for_each(|i| self.xors.visit(i, grouping, &mut joins));
        touched(&self.ite_of, changed).into_iter().for_each(|i| self.ites.visit(i, grouping, &mut joins));
        joins
    }
}

fn touched(items_of: &Occurrences, changed: &[u32]) -> Vec<usize> {
    let mut items: Vec<usize> = changed.iter().flat_map(|&net| items_of.get(net)).map(|&i| i as usize).collect();
    items.sort_unstable();
    items.dedup();
    items
}

/// Rule 1 by counting: for each clause how many literals are not F yet, and these added up bit by bit, so that a single
/// one is known without a search.
struct Units<'a> {
    clauses: &'a Clauses,
    open: Vec<u32>,
    open_codes: Vec<u32>,
    clauses_of: Occurrences,
}

impl<'a> Units<'a> {
    fn new(clauses: &'a Clauses, nets: usize) -> Units<'a> {
        let all = (0..clauses.len() as u32).flat_map(|i| clauses.get(i as usize).iter().map(move |&code| (code, i)));
        Units {
            clauses,
            open: clauses.iter().map(|c| c.len() as u32).collect(),
            open_codes: clauses.iter().map(|c| c.iter().fold(0, |sum, code| sum ^ code)).collect(),
            clauses_of: Occurrences::of(2 * nets + 2, all),
        }
    }

    fn first(&self, joins: &mut Joins) {
        for clause in self.clauses.iter() {
            match clause {
                [] => joins.push((0, TRUE)),
                [unit] => joins.push((*unit, TRUE)),
                _ => {}
            }
        }
    }

    fn visit(&mut self, changed: &[u32], grouping: &Grouping, joins: &mut Joins) {
        let mut short = Vec::new();
        for &net in changed {
            let lead = grouping.lead(2 * net);
            if lead >= 2 {
                continue;
            }
            let false_code = 2 * net + lead;
            for &i in self.clauses_of.get(false_code) {
                self.open[i as usize] -= 1;
                self.open_codes[i as usize] ^= false_code;
                if self.open[i as usize] <= 1 {
                    short.push(i as usize);
                }
            }
        }
        // With no literal left the sum is 0, which is F: joining it to T is the contradiction.
        joins.extend(short.iter().map(|&i| (self.open_codes[i], TRUE)));
    }
}

/// Rules 3 and 4. The ANDs of one clause differ from each other by one input only, so the clause is gone through once for
/// all of them. Sets of inputs are compared by a 64-bit sum.
struct AndMatching<'a> {
    clauses: &'a Clauses,
    gates: &'a [Ands],
    table: Table<u32>,
    counts: Vec<u32>,
}

/// The different leads of the inverses of a clause's literals, T aside.
#[derive(Clone, Copy, Default)]
struct Inputs {
    different: u32,
    codes: u32,
    sum: u64,
    inverse_pairs: u32,
}

impl<'a> AndMatching<'a> {
    fn new(clauses: &'a Clauses, gates: &'a [Ands], nets: usize) -> AndMatching<'a> {
        AndMatching { clauses, gates, table: Table::default(), counts: vec![0; 2 * nets + 2] }
    }

    fn visit(&mut self, i: usize, grouping: &Grouping, joins: &mut Joins) {
        let ands = &self.gates[i];
        let clause = self.clauses.get(ands.clause as usize);
        let inputs = self.count(clause, grouping);
        for &output in &ands.outputs {
            let own = grouping.lead(output ^ 1);
            let rest = self.without(inputs, own);
            self.conclude(output, rest, joins);
        }
        clause.iter().for_each(|&code| self.counts[grouping.lead(code ^ 1) as usize] = 0);
    }

    fn count(&mut self, clause: &[u32], grouping: &Grouping) -> Inputs {
        let mut inputs = Inputs::default();
        for &code in clause {
            let lead = grouping.lead(code ^ 1);
            let count = &mut self.counts[lead as usize];
            *count += 1;
            if *count == 1 && lead != TRUE {
                inputs.different += 1;
                inputs.codes ^= lead;
                inputs.sum = inputs.sum.wrapping_add(mixed(u64::from(lead)));
                inputs.inverse_pairs += u32::from(lead >= 2 && self.counts[lead as usize ^ 1] > 0);
            }
        }
        inputs
    }

    /// The inputs of one gate: all but the literal that is its output.
    fn without(&self, mut inputs: Inputs, own: u32) -> Inputs {
        if own != TRUE && self.counts[own as usize] == 1 {
            inputs.different -= 1;
            inputs.codes ^= own;
            inputs.sum = inputs.sum.wrapping_sub(mixed(u64::from(own)));
            inputs.inverse_pairs -= u32::from(own >= 2 && self.counts[own as usize ^ 1] > 0);
        }
        inputs
    }

    fn conclude(&mut self, output: u32, inputs: Inputs, joins: &mut Joins) {
        match inputs.different {
            _ if inputs.inverse_pairs > 0 => joins.push((output, 0)),
            0 => joins.push((output, TRUE)),
            1 => joins.push((output, inputs.codes)),
            _ => {
                let first = *self.table.entry(inputs.sum).or_insert(output);
                if first != output {
                    joins.push((first, output));
                }
            }
        }
    }
}

/// Rules 5 and 6. A constraint without k says that k's lead, turned by the sum, is the sum of the nets that remain.
struct XorMatching<'a> {
    xors: &'a [Xor],
    table: Table<u32>,
}

impl XorMatching<'_> {
    fn visit(&mut self, i: usize, grouping: &Grouping, joins: &mut Joins) {
        let xor = &self.xors[i];
        let mut leads = [0; 5];
        let leads = &mut leads[..xor.nets.len()];
        let mut turn = u32::from(xor.odd);
        for (place, &net) in leads.iter_mut().zip(&xor.nets) {
            let lead = grouping.lead(2 * net);
            turn ^= lead & 1;
            *place = lead & !1;
        }
        leads.sort_unstable();
        for k in 0..leads.len() {
            if k == 0 || leads[k] != leads[k - 1] {
                self.conclude(leads, k, turn, joins);
            }
        }
    }

    /// `leads` are sorted plain codes, 0 for a constant.
    fn conclude(&mut self, leads: &[u32], k: usize, turn: u32, joins: &mut Joins) {
        let mut rest = [0; 5];
        let mut count = 0;
        for &lead in leads[..k].iter().chain(&leads[k + 1..]).filter(|&&lead| lead != 0) {
            if count > 0 && rest[count - 1] == lead {
                count -= 1;
            } else {
                rest[count] = lead;
                count += 1;
            }
        }
        let value = leads[k] ^ turn;
        match rest[..count] {
            [] => joins.push((value, 0)),
            [one] => joins.push((value, one)),
            _ => {
                let key = rest[..count].iter().fold(0, |key, &code| key << 12 | u64::from(code));
                let first = *self.table.entry(key).or_insert(value);
                joins.push((first, value));
            }
        }
    }
}
