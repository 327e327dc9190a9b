//! Random clause lists of many kinds.

use crate::random::Random;

pub type Clauses = Vec<Vec<i64>>;

#[derive(Clone, Default)]
pub struct List {
    pub nets: usize,
    pub clauses: Clauses,
}

impl List {
    fn over(nets: usize) -> List {
        List { nets, clauses: Clauses::new() }
    }

    /// A net that stands in no clause yet.
    pub fn fresh(&mut self) -> i64 {
        self.nets += 1;
        self.nets as i64
    }
}

pub struct Kind {
    pub name: &'static str,
    pub make: fn(&mut Random) -> List,
}

pub const KINDS: [Kind; 15] = [
    Kind { name: "clauses", make: random_clauses },
    Kind { name: "gates", make: random_gates },
    Kind { name: "contradictory", make: contradictory },
    Kind { name: "near gates", make: near_gates },
    Kind { name: "xors", make: random_xors },
    Kind { name: "multiplexers", make: multiplexers },
    Kind { name: "doubled pins", make: doubled_pins },
    Kind { name: "inverse pins", make: inverse_pins },
    Kind { name: "ands", make: ands },
    Kind { name: "aliases", make: aliases },
    Kind { name: "chains", make: chains },
    Kind { name: "longest", make: |r| longest(r.between(4, 40), r) },
    Kind { name: "miters", make: small_miter },
    Kind { name: "units", make: units },
    Kind { name: "wide", make: wide },
];

/// A random list of a kind, its clauses out of order, some repeated, some missing.
pub fn random_list(kind: &Kind, r: &mut Random) -> List {
    let mut list = (kind.make)(r);
    disturb(&mut list, r);
    list
}

fn disturb(list: &mut List, r: &mut Random) {
    if r.once_in(2) {
        r.shuffle(&mut list.clauses);
    }
    if r.once_in(4) && !list.clauses.is_empty() {
        let i = r.below(list.clauses.len());
        list.clauses.remove(i);
    }
    repeat_clauses(&mut list.clauses, r);
}

/// Up to two clauses once more, their literals out of order, some with a literal repeated or its inverse added.
pub fn repeat_clauses(clauses: &mut Clauses, r: &mut Random) {
    for _ in 0..r.below(3) {
        if !clauses.is_empty() {
            let mut again = clauses[r.below(clauses.len())].clone();
            r.shuffle(&mut again);
            if let (true, Some(&l)) = (r.once_in(2), again.first()) {
                again.push(if r.once_in(4) { -l } else { l });
            }
            clauses.push(again);
        }
    }
}

// Gates as clauses

pub fn and_clauses(l: i64, inputs: &[i64]) -> Clauses {
    let mut clauses: Clauses = inputs.iter().map(|&i| vec![-l, i]).collect();
    clauses.push(std::iter::once(l).chain(inputs.iter().map(|i| -i)).collect());
    clauses
}

/// All clauses over the literals that say that their sum is odd.
pub fn xor_clauses(literals: &[i64]) -> Clauses {
    (0u32..1 << literals.len())
        .filter(|signs| signs.count_ones() % 2 == 0)
        .map(|signs| literals.iter().enumerate().map(|(i, &l)| if signs >> i & 1 == 1 { -l } else { l }).collect())
        .collect()
}

/// The XOR of the inputs as an output.
pub fn xor_gate(l: i64, inputs: &[i64]) -> Clauses {
    xor_clauses(&[&[-l], inputs].concat())
}

pub fn ite_clauses(l: i64, c: i64, t: i64, e: i64) -> Clauses {
    vec![vec![-c, -l, t], vec![-c, l, -t], vec![c, -l, e], vec![c, l, -e]]
}

pub fn equal_clauses(a: i64, b: i64) -> Clauses {
    vec![vec![a, -b], vec![-a, b]]
}

// Pins

fn literal(nets: usize, r: &mut Random) -> i64 {
    let v = r.between(1, nets) as i64;
    signed(v, r)
}

pub fn signed(v: i64, r: &mut Random) -> i64 {
    if r.once_in(2) {
        v
    } else {
        -v
    }
}

/// Different nets with random signs.
pub fn pins(nets: usize, count: usize, r: &mut Random) -> Vec<i64> {
    let mut all: Vec<i64> = (1..=nets as i64).collect();
    r.shuffle(&mut all);
    all.truncate(count);
    all.into_iter().map(|v| signed(v, r)).collect()
}

/// The image of a literal, entry v - 1 being that of net v.
pub fn image(names: &[i64], x: i64) -> i64 {
    x.signum() * names[x.unsigned_abs() as usize - 1]
}

// The kinds

fn random_clauses(r: &mut Random) -> List {
    let mut list = List::over(r.between(0, 7));
    for _ in 0..r.between(0, 24) {
        let length = if list.nets == 0 || r.once_in(40) { 0 } else { r.between(1, 4) };
        list.clauses.push((0..length).map(|_| literal(list.nets, r)).collect());
    }
    list
}

/// A gate on some of the nets, of which there are at least four.
pub fn random_gate(nets: usize, r: &mut Random) -> Clauses {
    let count = r.between(3, 5.min(nets));
    let p = pins(nets, count.max(4), r);
    match r.below(3) {
        0 => and_clauses(p[0], &p[1..count]),
        1 => xor_clauses(&p[..count]),
        _ => ite_clauses(p[0], p[1], p[2], p[3]),
    }
}

fn random_gates(r: &mut Random) -> List {
    let mut list = List::over(r.between(4, 9));
    for _ in 0..r.between(1, 6) {
        list.clauses.extend(random_gate(list.nets, r));
    }
    for _ in 0..r.below(4) {
        list.clauses.push((0..r.between(1, 2)).map(|_| literal(list.nets, r)).collect());
    }
    list
}

/// Gates that exclude each other: both sums of an XOR, a multiplexer with its data pins inverted, opposite units.
fn contradictory(r: &mut Random) -> List {
    let mut list = random_gates(r);
    let p = pins(list.nets, 4, r);
    list.clauses.extend(match r.below(4) {
        0 => [xor_clauses(&p[..3]), xor_clauses(&[-p[0], p[1], p[2]])].concat(),
        1 => [ite_clauses(p[0], p[1], p[2], p[3]), ite_clauses(p[0], p[1], -p[2], -p[3])].concat(),
        2 => [and_clauses(p[0], &p[1..3]), and_clauses(-p[0], &p[1..3])].concat(),
        _ => vec![vec![p[0]], vec![-p[0], p[1]], vec![-p[1], -p[0], p[2]], vec![-p[2], -p[1]]],
    });
    list
}

/// Gates of which one clause has lost a literal, won one, changed a sign or become one that is ignored.
fn near_gates(r: &mut Random) -> List {
    let mut list = random_gates(r);
    for _ in 0..r.between(1, 3) {
        let i = r.below(list.clauses.len());
        let extra = literal(list.nets, r);
        let clause = &mut list.clauses[i];
        let at = r.below(clause.len().max(1));
        match r.below(4) {
            0 => clause.push(extra),
            1 if !clause.is_empty() => drop(clause.remove(at)),
            2 if !clause.is_empty() => clause[at] = -clause[at],
            3 if !clause.is_empty() => clause.push(-clause[at]),
            _ => {}
        }
    }
    list
}

fn random_xors(r: &mut Random) -> List {
    let mut list = List::over(r.between(5, 9));
    for _ in 0..r.between(1, 5) {
        let count = r.between(3, 5);
        list.clauses.extend(xor_clauses(&pins(list.nets, count, r)));
    }
    for _ in 0..r.below(3) {
        let p = pins(list.nets, 2, r);
        list.clauses.extend(equal_clauses(p[0], p[1]));
    }
    if r.once_in(3) {
        list.clauses.push(vec![literal(list.nets, r)]);
    }
    list
}

/// Multiplexers that share selects, outputs and data nets; data pins may fall on one net.
fn multiplexers(r: &mut Random) -> List {
    let mut list = List::over(r.between(4, 8));
    let selects = pins(list.nets, r.between(1, 2), r);
    let outputs = pins(list.nets, r.between(1, 3), r);
    for _ in 0..r.between(1, 6) {
        let (l, c) = (r.pick(&outputs), r.pick(&selects));
        let (t, e) = (literal(list.nets, r), literal(list.nets, r));
        list.clauses.extend(ite_clauses(l, c, t, e));
    }
    if r.once_in(3) {
        list.clauses.push(vec![r.pick(&selects)]);
    }
    if r.once_in(3) {
        let p = pins(list.nets, 2, r);
        list.clauses.extend(equal_clauses(p[0], p[1]));
    }
    list
}

/// Multiplexers with t and e one literal, and what is near: t and e inverses, e on the net of c or of l, one half only.
fn doubled_pins(r: &mut Random) -> List {
    let mut list = List::over(r.between(3, 6));
    for _ in 0..r.between(1, 6) {
        let p = pins(list.nets, 3, r);
        let (l, c, t) = (p[0], p[1], p[2]);
        list.clauses.extend(match r.below(7) {
            0..=2 => ite_clauses(l, c, t, t),
            3 => ite_clauses(l, c, t, -t),
            4 => ite_clauses(l, c, t, signed(c, r)),
            5 => ite_clauses(l, c, t, signed(l, r)),
            _ => ite_clauses(l, c, t, t)[..2].to_vec(),
        });
    }
    if r.once_in(3) {
        list.clauses.push(vec![literal(list.nets, r)]);
    }
    if r.once_in(3) {
        let p = pins(list.nets, 2, r);
        list.clauses.extend(equal_clauses(p[0], p[1]));
    }
    list
}

/// An XOR of l, c and t whose halves by c are each a side of some multiplexer, and a multiplexer on c whose data pins are joined to t
/// and its inverse: the two halves make no multiplexer, so that nothing joins the outputs, unless a data pin of the first one is
/// joined to t a round later.
fn inverse_pins(r: &mut Random) -> List {
    let mut list = List::over(8);
    let p = pins(list.nets, 8, r);
    let (l, c, t) = (p[0], p[1], p[2]);
    list.clauses.extend(ite_clauses(l, c, t, p[3]));
    list.clauses.extend(ite_clauses(l, c, p[4], -t));
    list.clauses.extend(ite_clauses(p[5], c, p[6], p[7]));
    list.clauses.extend([equal_clauses(p[6], t), equal_clauses(p[7], -t)].concat());
    if r.once_in(2) {
        let u = list.fresh();
        list.clauses.push(vec![u]);
        list.clauses.extend(and_clauses(p[4], &[t, u]));
    }
    if r.once_in(3) {
        list.clauses.push(vec![literal(list.nets, r)]);
    }
    list
}

/// ANDs over one small set of inputs, some of them true, some equal.
fn ands(r: &mut Random) -> List {
    let inputs = r.between(3, 6);
    let mut list = List::over(inputs);
    for _ in 0..r.between(2, 5) {
        let l = list.fresh();
        let count = r.between(2, inputs.min(4));
        list.clauses.extend(and_clauses(signed(l, r), &pins(inputs, count, r)));
    }
    for _ in 0..r.below(3) {
        list.clauses.push(vec![literal(inputs, r)]);
    }
    for _ in 0..r.below(3) {
        let p = pins(inputs, 2, r);
        list.clauses.extend(equal_clauses(p[0], p[1]));
    }
    list
}

/// A new net that is joined to x, in this round or in a later one; t is a net that is true.
fn alias(list: &mut List, x: i64, t: i64, r: &mut Random) -> i64 {
    let a = list.fresh();
    let a = signed(a, r);
    let other = list.fresh();
    list.clauses.extend(match r.below(4) {
        0 => equal_clauses(a, x),
        1 => and_clauses(a, &[x, t]),
        2 => ite_clauses(a, t, x, other),
        _ => xor_clauses(&[a, x, t]),
    });
    a
}

/// Gates written twice, the second time over nets that are joined to the first ones only after some rounds.
fn aliases(r: &mut Random) -> List {
    let mut list = List::over(5);
    let t = signed(1, r);
    list.clauses.push(vec![t]);
    let mut names: Vec<Vec<i64>> = (2..=5).map(|v| vec![v]).collect();
    for _ in 0..r.between(1, 5) {
        let (base, at) = (r.below(4), r.below(8));
        let from = names[base][at % names[base].len()];
        let name = alias(&mut list, from, t, r);
        names[base].push(name);
    }
    for _ in 0..r.between(1, 2) {
        let kind = r.below(3);
        let mut bases = [0, 1, 2, 3];
        r.shuffle(&mut bases);
        let signs: Vec<i64> = (0..4).map(|_| signed(1, r)).collect();
        for _ in 0..2 {
            let output = list.fresh();
            let mut p: Vec<i64> = (0..3).map(|i| signs[i] * r.pick(&names[bases[i]])).collect();
            if kind < 2 && r.once_in(2) {
                p.push(t);
            }
            list.clauses.extend(match kind {
                0 => and_clauses(output, &p),
                1 => xor_clauses(&[&[output], &p[..]].concat()),
                _ => ite_clauses(output, p[0], p[1], p[2]),
            });
        }
    }
    list
}

fn chains(r: &mut Random) -> List {
    let nets = r.between(1, 30);
    let mut list = List { nets, clauses: vec![vec![literal(nets, r)]] };
    for v in 1..nets as i64 {
        let next = if r.once_in(6) { -v - 1 } else { v + 1 };
        list.clauses.push(vec![-v, next]);
        if r.once_in(3) {
            list.clauses.push(vec![v, -next]);
        }
    }
    list
}

/// A contradiction in round V + 1: each round joins one net or group, and the last one joins nets a and b, which were
/// joined in the first round, to F.
pub fn longest(nets: usize, r: &mut Random) -> List {
    let p = pins(nets, nets, r);
    let (a, b, c) = (p[0], p[1], p[2]);
    let mut clauses = [equal_clauses(a, b), and_clauses(c, &[a, -b]), vec![vec![a, b, c], vec![c, p[3]]]].concat();
    clauses.extend(p[3..].windows(2).map(|pair| vec![-pair[0], pair[1]]));
    clauses.push(vec![-p[nets - 1], -a]);
    List { nets, clauses }
}

fn small_miter(r: &mut Random) -> List {
    let inputs = r.between(3, 5);
    let gates = r.between(1, 8);
    miter(inputs, gates, r)
}

/// Two copies of one circuit on common inputs, equal or differing in one gate.
pub fn miter(inputs: usize, gates: usize, r: &mut Random) -> List {
    let mut list = List::over(inputs);
    let differing = if r.once_in(2) { r.below(gates) } else { gates };
    let mut copies: [Vec<i64>; 2] = [(1..=inputs as i64).collect(), (1..=inputs as i64).collect()];
    for g in 0..gates {
        let kind = r.below(3);
        let sources: Vec<(usize, i64)> = (0..3).map(|_| (r.below(copies[0].len()), signed(1, r))).collect();
        for (copy, nets) in copies.iter_mut().enumerate() {
            let mut p: Vec<i64> = sources.iter().map(|&(i, sign)| sign * nets[i]).collect();
            if copy == 1 && g == differing {
                p[0] = -p[0];
            }
            let output = list.fresh();
            list.clauses.extend(match kind {
                0 => and_clauses(output, &p[..2]),
                1 => xor_clauses(&[output, p[0], p[1]]),
                _ => ite_clauses(output, p[0], p[1], p[2]),
            });
            nets.push(output);
        }
    }
    let differ = list.fresh();
    list.clauses.extend(xor_clauses(&[-differ, copies[0][inputs + gates - 1], copies[1][inputs + gates - 1]]));
    if r.once_in(2) {
        list.clauses.push(vec![differ]);
    }
    list
}

fn units(r: &mut Random) -> List {
    let mut list = random_gates(r);
    for _ in 0..r.between(1, 4) {
        list.clauses.push(vec![literal(list.nets, r)]);
    }
    list
}

/// ANDs of many inputs.
fn wide(r: &mut Random) -> List {
    let mut list = List::over(r.between(8, 40));
    for _ in 0..r.between(1, 4) {
        let count = r.between(3, list.nets.min(20));
        let p = pins(list.nets, count, r);
        list.clauses.extend(and_clauses(p[0], &p[1..]));
    }
    for _ in 0..r.below(6) {
        let p = pins(list.nets, 2, r);
        list.clauses.extend(equal_clauses(p[0], p[1]));
    }
    list
}
