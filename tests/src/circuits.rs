//! Random circuits of many kinds. A literal is AIGER's: 0 and 1 are the constants, 2v is net v and 2v + 1 its inverse.

use crate::random::Random;

#[derive(Clone, Default)]
pub struct Circuit {
    pub nets: u64,
    pub inputs: Vec<u64>,
    pub output: u64,
    /// output and inputs of each AND line
    pub ands: Vec<[u64; 3]>,
    /// what follows the AND lines
    pub rest: Vec<u8>,
}

pub struct Kind {
    pub name: &'static str,
    pub make: fn(&mut Random) -> Circuit,
}

pub const KINDS: [Kind; 10] = [
    Kind { name: "acyclic", make: |r| acyclic(r.below(5), r.below(8), plain_pins, r) },
    Kind { name: "few inputs", make: |r| acyclic(r.between(1, 2), r.between(3, 10), plain_pins, r) },
    Kind { name: "constants", make: |r| acyclic(r.below(4), r.below(8), constant_pins, r) },
    Kind { name: "like pins", make: |r| acyclic(r.between(1, 3), r.between(1, 8), like_pins, r) },
    Kind { name: "loops", make: |r| looped(r.below(4), r.between(1, 8), r) },
    Kind { name: "all true", make: |r| chain(r.between(1, 12), r) },
    Kind { name: "gaps", make: gaps },
    Kind { name: "small miters", make: |r| miter(r.between(1, 3), r.between(1, 3), r) },
    Kind { name: "miters", make: |r| miter(r.between(1, 6), r.between(1, 24), r) },
    Kind { name: "more gates", make: |r| acyclic(r.between(1, 9), r.between(10, 80), constant_pins, r) },
];

/// Circuits at the limits or past them. No text has as many clauses or entries as a list may have: V is at least the
/// number of AND lines, and up to 1,024.
pub const LARGE: [Kind; 10] = [
    Kind { name: "most nets", make: most_nets },
    Kind { name: "most clauses", make: |r| three_nets(r.pick(&[1_024, 1_024, 1_023, 1_025]), r) },
    Kind { name: "past all limits", make: |r| three_nets(r.between(1_300, 2_400), r) },
    Kind { name: "longest chains", make: |r| chain(r.pick(&[300, 500, 700, 1_024]), r) },
    Kind { name: "large miters", make: |r| miter(r.between(8, 20), r.between(400, 480), r) },
    Kind { name: "nine digits", make: nine_digits },
    Kind { name: "many inputs", make: |r| doubled(many_inputs(r), r) },
    Kind { name: "many ands", make: |r| doubled(many_ands(r), r) },
    Kind { name: "same low bits", make: |r| doubled(same_low_bits(r), r) },
    Kind { name: "shortest lines", make: shortest_lines },
];

/// A random circuit of a kind; some with other numbers for their nets, or with something behind the AND lines.
pub fn random_circuit(kind: &Kind, r: &mut Random) -> Circuit {
    let mut circuit = (kind.make)(r);
    if r.once_in(3) {
        renumber(&mut circuit, r);
    }
    if r.once_in(2) {
        circuit.rest = rest(r);
    }
    circuit
}

/// Two inputs or more, two ANDs or more, and nothing to turn it away.
pub fn sound(r: &mut Random) -> Circuit {
    let mut circuit = acyclic(r.between(2, 4), r.between(2, 6), constant_pins, r);
    if r.once_in(2) {
        renumber(&mut circuit, r);
    }
    circuit
}

impl Circuit {
    fn over(inputs: usize) -> Circuit {
        let nets = inputs as u64;
        Circuit { nets, inputs: (1..=nets).map(|v| 2 * v).collect(), ..Circuit::default() }
    }

    /// An AND on a net of its own; its literal.
    fn and(&mut self, a: u64, b: u64) -> u64 {
        self.nets += 1;
        self.ands.push([2 * self.nets, a, b]);
        2 * self.nets
    }

    /// An XOR of three ANDs; its literal.
    fn xor(&mut self, a: u64, b: u64) -> u64 {
        let (both, neither) = (self.and(a, b), self.and(a ^ 1, b ^ 1));
        self.and(both ^ 1, neither ^ 1)
    }

    /// M, I, L, O and A.
    pub fn counts(&self) -> [u64; 5] {
        [self.nets, self.inputs.len() as u64, 0, 1, self.ands.len() as u64]
    }

    /// The lines behind the header, without their LF.
    pub fn lines(&self) -> Vec<String> {
        let inputs = self.inputs.iter().chain([&self.output]).map(|x| x.to_string());
        inputs.chain(self.ands.iter().map(|[l, a, b]| format!("{l} {a} {b}"))).collect()
    }

    pub fn text(&self) -> Vec<u8> {
        text_of(self.counts(), &self.lines(), &self.rest)
    }
}

/// The text with such a header, lines, and bytes behind them.
pub fn text_of([m, i, l, o, a]: [u64; 5], lines: &[String], rest: &[u8]) -> Vec<u8> {
    let mut text = format!("aag {m} {i} {l} {o} {a}\n");
    lines.iter().for_each(|line| text.extend([line, "\n"]));
    [text.as_bytes(), rest].concat()
}

// Inputs of ANDs

/// How the two inputs of an AND are drawn, from nets up to a number.
type Pins = fn(u64, &mut Random) -> (u64, u64);

/// A literal of a net up to a number, or a constant if there is none.
fn literal(nets: u64, r: &mut Random) -> u64 {
    if nets == 0 {
        return r.below(2) as u64;
    }
    2 + r.below(2 * nets as usize) as u64
}

fn plain_pins(nets: u64, r: &mut Random) -> (u64, u64) {
    (literal(nets, r), literal(nets, r))
}

fn constant_pins(nets: u64, r: &mut Random) -> (u64, u64) {
    let mut pin = || if r.once_in(3) { r.below(2) as u64 } else { literal(nets, r) };
    (pin(), pin())
}

/// Often one literal twice, or with its inverse.
fn like_pins(nets: u64, r: &mut Random) -> (u64, u64) {
    let (a, b) = plain_pins(nets, r);
    (a, r.pick(&[a, a ^ 1, b, b]))
}

// Circuits

fn acyclic(inputs: usize, gates: usize, pins: Pins, r: &mut Random) -> Circuit {
    let mut circuit = Circuit::over(inputs);
    for _ in 0..gates {
        let (a, b) = pins(circuit.nets, r);
        circuit.and(a, b);
    }
    circuit.output = pins(circuit.nets, r).0;
    circuit
}

/// The inputs of an AND may be its output, and those of ANDs behind it.
fn looped(inputs: usize, gates: usize, r: &mut Random) -> Circuit {
    let mut circuit = Circuit::over(inputs);
    let nets = (inputs + gates) as u64;
    for _ in 0..gates {
        let (a, b) = r.pick(&[plain_pins, constant_pins, like_pins])(nets, r);
        let l = circuit.and(a, b);
        if r.once_in(3) {
            circuit.ands.last_mut().expect("an AND")[1] = l ^ r.below(2) as u64;
        }
    }
    circuit.output = literal(nets, r);
    circuit
}

/// Each AND has the one before it as an input, and mostly an input of its own; the last is the output, so that all are true,
/// one after another.
fn chain(nets: usize, r: &mut Random) -> Circuit {
    let inputs = nets / 2 + 1;
    let mut circuit = Circuit::over(inputs);
    let mut last = 2;
    for v in 2..=(nets - inputs) as u64 + 1 {
        let other = if r.once_in(nets) { r.pick(&[1, 2, last]) } else { 2 * v };
        last = if r.once_in(2) { circuit.and(last, other) } else { circuit.and(other, last) };
    }
    circuit.output = last ^ u64::from(r.once_in(9));
    circuit
}

fn gaps(r: &mut Random) -> Circuit {
    let mut circuit = if r.once_in(2) { looped(2, 4, r) } else { acyclic(3, 5, constant_pins, r) };
    circuit.nets += r.between(1, 4) as u64;
    for pin in circuit.ands.iter_mut().flat_map(|and| &mut and[1..]) {
        if r.once_in(5) {
            *pin = literal(circuit.nets, r);
        }
    }
    renumber(&mut circuit, r);
    circuit
}

/// Two copies of a circuit, and an output that says that one AND differs from its copy; in some they can.
fn miter(inputs: usize, gates: usize, r: &mut Random) -> Circuit {
    let mut circuit = acyclic(inputs, gates, plain_pins, r);
    let first = inputs as u64;
    let copy = |x: u64| if x / 2 > first { x + 2 * gates as u64 } else { x };
    let last = 2 * circuit.nets;
    for [_, a, b] in circuit.ands.clone() {
        let (a, b) = if r.once_in(2) { (a, b) } else { (b, a) };
        circuit.and(copy(a), copy(b));
    }
    if r.once_in(3) {
        let changed = r.between(gates, 2 * gates - 1);
        circuit.ands[changed][1] ^= 1;
    }
    circuit.output = circuit.xor(last, copy(last));
    if r.once_in(2) {
        r.shuffle(&mut circuit.ands);
    }
    circuit
}

/// Other numbers for the nets, up to the same M, and the lines out of order; not where M is too large to list all.
fn renumber(circuit: &mut Circuit, r: &mut Random) {
    if circuit.nets > 70_000 {
        return;
    }
    let mut numbers: Vec<u64> = (1..=circuit.nets).collect();
    r.shuffle(&mut numbers);
    let renamed = |x: u64| if x < 2 { x } else { 2 * numbers[x as usize / 2 - 1] + x % 2 };
    circuit.inputs.iter_mut().chain(circuit.ands.iter_mut().flatten()).for_each(|x| *x = renamed(*x));
    circuit.output = renamed(circuit.output);
    r.shuffle(&mut circuit.inputs);
    r.shuffle(&mut circuit.ands);
}

/// A symbol table, a comment, or any bytes.
fn rest(r: &mut Random) -> Vec<u8> {
    let mut rest = Vec::new();
    for _ in 0..r.below(4) {
        rest.extend_from_slice(r.pick(&[
            b"i0 first input\n" as &[u8],
            b"o0 x\n",
            b"c\nany text \xff\0\r\n",
            b"6 2 4\n",
            b"\n",
            b"2",
            b"aag 0 0 0 1 0\n0\n",
        ]));
    }
    rest
}

// Large circuits

fn most_nets(r: &mut Random) -> Circuit {
    let nets = r.pick(&[1_023, 1_024, 1_024, 1_025]);
    let inputs = r.pick(&[1, 4, 16, 600, nets - 1, nets]);
    let pins = r.pick(&[plain_pins as Pins, constant_pins, like_pins]);
    acyclic(inputs, nets - inputs, pins, r)
}

/// ANDs of three different nets, each with all its clauses; no inputs.
fn three_nets(nets: usize, r: &mut Random) -> Circuit {
    let mut circuit = Circuit::default();
    for v in 0..nets {
        let other = |by: usize| 2 * ((v + by) % nets) as u64 + 2;
        let (a, b) = (other(r.between(1, 5)), other(r.between(6, 9)));
        circuit.and(a ^ r.below(2) as u64, b ^ r.below(2) as u64);
    }
    circuit.output = literal(circuit.nets, r);
    circuit
}

/// M so large that 2M + 1 has nine digits or more, or nearly.
fn nine_digits(r: &mut Random) -> Circuit {
    let nets = r.pick(&[499_999_998, 499_999_999, 500_000_000, 999_999_999, 123_456_789, 32_767]);
    let top = (2 * nets + 1).min(999_999_999);
    let mut pins = || r.pick(&[0, 1, 2, top, top - 1, top / 2]);
    let ands = vec![[top / 4 * 2, pins(), pins()], [top / 8 * 2, pins(), pins()]];
    let output = pins();
    Circuit { nets, inputs: vec![2, top / 2 / 2 * 2 - 2], output, ands, rest: Vec::new() }
}

/// Nets from 1 on, in some circuits out of order.
fn numbers(count: usize, r: &mut Random) -> Vec<u64> {
    let mut nets: Vec<u64> = (1..=count as u64).map(|v| 2 * v).collect();
    if r.once_in(2) {
        r.shuffle(&mut nets);
    }
    nets
}

fn many_inputs(r: &mut Random) -> Circuit {
    let count = r.between(5_000, 10_500);
    Circuit { nets: count as u64 + 3, inputs: numbers(count, r), output: 3, ..Circuit::default() }
}

fn many_ands(r: &mut Random) -> Circuit {
    let count = r.between(3_000, 4_900);
    let ands = numbers(count, r).into_iter().map(|l| [l, r.below(9) as u64, 2 + r.below(99) as u64]).collect();
    Circuit { nets: count as u64 + 50, output: 2, ands, ..Circuit::default() }
}

/// Nets whose numbers differ only in their high bits.
fn same_low_bits(r: &mut Random) -> Circuit {
    let count = r.between(1_500, 4_000);
    let shift = 29 - (count as u64).ilog2() as u64 - 2;
    let low = r.below(1 << shift) as u64;
    let nets: Vec<u64> = (1..=count as u64).map(|v| 2 * ((v << shift) + low)).collect();
    let (inputs, outputs) = nets.split_at(r.below(count));
    let inputs = inputs.to_vec();
    let ands = outputs.iter().map(|&l| [l, 1, 2]).collect();
    Circuit { nets: 499_999_999, inputs, output: 2, ands, rest: Vec::new() }
}

/// As many lines as a text can have; all but the first few break a rule.
fn shortest_lines(r: &mut Random) -> Circuit {
    let ands = vec![[r.pick(&[2, 0]), 0, 0]; 10_900];
    Circuit { nets: 99_999, output: 1, ands, ..Circuit::default() }
}

/// In half of the circuits an input or an output once more than it may be there.
fn doubled(mut circuit: Circuit, r: &mut Random) -> Circuit {
    if r.once_in(2) {
        return circuit;
    }
    let (inputs, ands) = (circuit.inputs.len(), circuit.ands.len());
    let (from, to) = (r.below(inputs + ands), r.below(inputs + ands));
    let net = if from < inputs { circuit.inputs[from] } else { circuit.ands[from - inputs][0] };
    if to < inputs {
        circuit.inputs[to] = net;
    } else {
        circuit.ands[to - inputs][0] = net;
    }
    circuit
}
