//! A design and its copy are found equal, by running: random designs without loops, each beside a copy of it, and with a
//! comparison of outputs.

use crate::lists::{self, and_clauses, equal_clauses, ite_clauses, signed, xor_gate, Clauses, List};
use crate::random::Random;
use crate::sheets;

/// A gate by its inputs.
#[derive(Clone)]
enum Gate {
    And(Vec<i64>),
    Xor(Vec<i64>),
    Ite([i64; 3]),
}

impl Gate {
    fn inputs(&self) -> &[i64] {
        match self {
            Gate::And(inputs) | Gate::Xor(inputs) => inputs,
            Gate::Ite(inputs) => inputs,
        }
    }

    /// The gate with other inputs.
    fn on(&self, image: impl Fn(i64) -> i64) -> Gate {
        match self {
            Gate::And(inputs) => Gate::And(inputs.iter().map(|&x| image(x)).collect()),
            Gate::Xor(inputs) => Gate::Xor(inputs.iter().map(|&x| image(x)).collect()),
            Gate::Ite(inputs) => Gate::Ite(inputs.map(image)),
        }
    }

    fn clauses(&self, output: i64) -> Clauses {
        match self {
            Gate::And(inputs) => and_clauses(output, inputs),
            Gate::Xor(inputs) => xor_gate(output, inputs),
            Gate::Ite([c, t, e]) => ite_clauses(output, *c, *t, *e),
        }
    }
}

/// A literal of a net of the design, its copy, and the net's level.
#[derive(Clone, Copy)]
struct Net {
    literal: i64,
    copy: i64,
    level: usize,
}

/// A design and its copy in one list, and a comparison of outputs.
pub struct Copied {
    list: List,
    nets: Vec<Net>,
    /// clauses that say that some output differs from its copy
    miter: Clauses,
    form: &'static str,
    /// how many rounds may pass until the comparison is a contradiction
    pub bound: usize,
}

impl Copied {
    pub fn random(r: &mut Random) -> Copied {
        let mut design = Design::default();
        (0..r.between(2, 6)).for_each(|_| design.add_input(r));
        (0..r.between(1, 24)).for_each(|_| design.add_gate(r));
        let Design { list, nets, .. } = design;
        let mut copied = Copied { list, nets, miter: vec![], form: "", bound: 0 };
        copied.compare_outputs(r);
        copied.rename(r);
        copied
    }

    /// The design and its copy.
    pub fn beside(&self, r: &mut Random) -> List {
        out_of_order(self.list.nets, self.list.clauses.clone(), r)
    }

    /// The same with the comparison.
    pub fn compared(&self, r: &mut Random) -> List {
        out_of_order(self.list.nets, [&self.list.clauses[..], &self.miter[..]].concat(), r)
    }

    pub fn depth(&self) -> usize {
        self.nets.iter().map(|n| n.level).max().unwrap_or(0)
    }

    /// One to three outputs, which may be wired inputs, are compared with their copies.
    fn compare_outputs(&mut self, r: &mut Random) {
        let mut outputs: Vec<Net> = self.nets.iter().copied().filter(|n| n.copy != n.literal).collect();
        if r.once_in(2) {
            r.shuffle(&mut outputs);
        }
        let outputs = outputs.split_off(outputs.len().saturating_sub(r.between(1, 3)));
        if r.once_in(5) {
            (self.form, self.bound) = ("the inverse of its copy", outputs[0].level);
            self.miter = equal_clauses(outputs[0].literal, -outputs[0].copy);
            return;
        }
        let mut parts: Vec<Part> = vec![];
        for output in outputs {
            self.differ(output, &mut parts, r);
        }
        self.form = if parts.len() == 1 { "an XOR or AND" } else { "a clause of several" };
        while parts.len() > 1 && r.once_in(2) {
            self.form = "ORs";
            let left = parts.split_off(r.between(2, parts.len()));
            let part = self.or_of(&parts, r);
            parts = left;
            parts.push(part);
        }
        self.bound = deepest(&parts) + usize::from(parts.len() > 1);
        self.miter.push(parts.iter().map(|p| p.literal).collect());
    }

    /// What says that an output differs from its copy: an XOR; an AND of the output and the inverse of its copy, or that and
    /// the other way round; or an AND that says that neither both are true nor both false.
    fn differ(&mut self, Net { literal, copy, level }: Net, parts: &mut Vec<Part>, r: &mut Random) {
        let sign = signed(1, r);
        let (o, copy) = (sign * literal, sign * copy);
        match r.below(4) {
            0 => {
                let x = self.fresh(r);
                self.miter.extend(xor_gate(x, &[o, copy]));
                parts.push(Part { literal: x, depth: level + 1 });
            }
            1 => parts.push(Part { literal: self.and_of(o, -copy, r), depth: level + 1 }),
            2 => {
                for (a, b) in [(o, -copy), (-o, copy)] {
                    parts.push(Part { literal: self.and_of(a, b, r), depth: level + 1 });
                }
            }
            _ => {
                let [both, neither] = [(o, copy), (-o, -copy)].map(|(a, b)| {
                    let x = self.fresh(r);
                    self.miter.extend(and_clauses(x, &[a, b]));
                    x
                });
                parts.push(Part { literal: self.and_of(-both, -neither, r), depth: level + 2 });
            }
        }
    }

    /// An AND of two literals, sometimes with a third input.
    fn and_of(&mut self, a: i64, b: i64, r: &mut Random) -> i64 {
        let (x, other) = (self.fresh(r), r.pick(&self.nets).literal);
        let mut inputs = vec![a, b];
        if r.once_in(3) && other.abs() != a.abs() && other.abs() != b.abs() {
            inputs.push(other);
        }
        self.miter.extend(and_clauses(x, &inputs));
        x
    }

    /// An OR of some parts, or only the clause of it that matters.
    fn or_of(&mut self, parts: &[Part], r: &mut Random) -> Part {
        let x = self.fresh(r);
        let inverses: Vec<i64> = parts.iter().map(|p| -p.literal).collect();
        let mut clauses = and_clauses(-x, &inverses);
        if r.once_in(3) {
            clauses = clauses.split_off(parts.len());
        }
        self.miter.extend(clauses);
        Part { literal: x, depth: deepest(parts) + 1 }
    }

    fn fresh(&mut self, r: &mut Random) -> i64 {
        signed(self.list.fresh(), r)
    }

    /// All nets get other names, some inverted.
    fn rename(&mut self, r: &mut Random) {
        let names = lists::pins(self.list.nets, self.list.nets, r);
        let renamed = |x: &mut i64| *x = lists::image(&names, *x);
        self.list.clauses.iter_mut().chain(&mut self.miter).flatten().for_each(renamed);
        self.nets.iter_mut().flat_map(|n| [&mut n.literal, &mut n.copy]).for_each(renamed);
    }
}

/// A literal that is joined to F after so many rounds.
struct Part {
    literal: i64,
    depth: usize,
}

fn deepest(parts: &[Part]) -> usize {
    parts.iter().map(|p| p.depth).max().unwrap_or(0)
}

/// A design that is being made beside its copy; the nets are plain literals.
#[derive(Default)]
struct Design {
    list: List,
    nets: Vec<Net>,
    gates: Vec<(i64, Gate)>,
}

impl Design {
    fn net_of(&self, x: i64) -> Net {
        *self.nets.iter().find(|n| n.literal == x.abs()).expect("a net of the design")
    }

    fn copy_of(&self, x: i64) -> i64 {
        x.signum() * self.net_of(x).copy
    }

    /// An input, shared or wired to its copy.
    fn add_input(&mut self, r: &mut Random) {
        let literal = self.list.fresh();
        let (copy, level) = if r.once_in(3) { (signed(self.list.fresh(), r), 1) } else { (literal, 0) };
        if level > 0 {
            self.list.clauses.extend(equal_clauses(literal, copy));
        }
        self.nets.push(Net { literal, copy, level });
    }

    /// A gate with its copy; sometimes one that repeats another, whose copy may then be the copy of both.
    fn add_gate(&mut self, r: &mut Random) {
        let output = signed(self.list.fresh(), r);
        let again = (r.once_in(5) && !self.gates.is_empty()).then(|| self.gates[r.below(self.gates.len())].clone());
        let gate = again.as_ref().map_or_else(|| self.random_gate(r), |(_, gate)| gate.clone());
        self.list.clauses.extend(gate.clauses(output));
        let copy = match again {
            Some((other, _)) if !r.once_in(3) => self.copy_of(other),
            _ => {
                let copy = signed(self.list.fresh(), r);
                let clauses = gate.on(|x| self.copy_of(x)).clauses(copy);
                self.list.clauses.extend(clauses);
                copy
            }
        };
        let level = 1 + gate.inputs().iter().map(|&x| self.net_of(x).level).max().unwrap_or(0);
        self.nets.push(Net { literal: output.abs(), copy: output.signum() * copy, level });
        self.gates.push((output, gate));
    }

    fn random_gate(&self, r: &mut Random) -> Gate {
        let mut pins = self.pins(r);
        match r.below(3) {
            0 if pins.len() >= 2 => {
                pins.truncate(r.between(2, 4));
                Gate::Xor(pins)
            }
            1 if pins.len() >= 3 => {
                let like_t = self.twin(pins[1]).filter(|_| r.once_in(2)).unwrap_or(pins[1]);
                Gate::Ite([pins[0], pins[1], if r.once_in(2) { like_t } else { pins[2] }])
            }
            _ => {
                pins.truncate(if r.once_in(6) { r.below(2) } else { r.between(2, 4) });
                if r.once_in(3) && !pins.is_empty() {
                    pins.push(self.twin(pins[0]).unwrap_or(pins[0]));
                }
                Gate::And(pins)
            }
        }
    }

    /// Up to four literals whose copies are of different nets.
    fn pins(&self, r: &mut Random) -> Vec<i64> {
        let mut pins: Vec<i64> = vec![];
        for _ in 0..4 {
            let near = if r.once_in(2) { self.nets.len().min(4) } else { self.nets.len() };
            let net = self.nets[self.nets.len() - 1 - r.below(near)];
            if pins.iter().all(|&p| self.copy_of(p).abs() != net.copy.abs()) {
                pins.push(signed(net.literal, r));
            }
        }
        pins
    }

    /// A literal of another net with the same copy.
    fn twin(&self, x: i64) -> Option<i64> {
        let copy = self.copy_of(x);
        let net = self.nets.iter().find(|n| n.literal != x.abs() && n.copy.abs() == copy.abs())?;
        Some(net.literal * (copy * net.copy).signum())
    }
}

fn out_of_order(nets: usize, mut clauses: Clauses, r: &mut Random) -> List {
    clauses.iter_mut().for_each(|c| r.shuffle(c));
    lists::repeat_clauses(&mut clauses, r);
    r.shuffle(&mut clauses);
    List { nets, clauses }
}

// What the theorem says

pub const TITLE: &str = "designs beside their copies";

/// Cases that must come.
pub const MUST: [&str; 2] = ["at the bound", "sooner"];

/// That the comparison is a contradiction within the bound: which case it is, or what is wrong.
pub fn check_compared(sheet: &str, copied: &Copied) -> Result<String, String> {
    let (bound, rounds) = (copied.bound, sheets::rounds_and_nets(sheet).0 as usize);
    if sheets::verdict(sheet) != "contradiction" || rounds > bound {
        return Err(format!("not a contradiction within {bound} rounds:\n{sheet}"));
    }
    Ok(format!("{}: {}", copied.form, MUST[usize::from(rounds < bound)]))
}

/// That each net of a level up to that one has the lead of its copy, or what is wrong.
pub fn check_beside(sheet: &str, copied: &Copied, level: usize) -> Result<(), String> {
    let Some(leads) = sheets::leads(sheet) else { return Err(format!("no leads:\n{sheet}")) };
    let mut nets = copied.nets.iter().filter(|n| n.level <= level);
    match nets.find(|n| !sheets::is_joined(&leads, n.literal, n.copy)) {
        None => Ok(()),
        Some(n) => Err(format!("{} of level {} and its copy {} are apart:\n{sheet}", n.literal, n.level, n.copy)),
    }
}
