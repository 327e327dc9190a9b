//! Circuits of ANDs, XORs and multiplexers; as clauses and as BLIF.

use std::fmt::Write;

/// A net, or with a minus its inverse. Inputs are nets 1 to `inputs`, the gates' outputs come behind in order.
pub type Literal = i32;

#[derive(Clone)]
pub enum Gate {
    And(Vec<Literal>),
    Xor(Vec<Literal>),
    /// Select, then, else.
    Mux([Literal; 3]),
}

#[derive(Clone)]
pub struct Circuit {
    pub inputs: usize,
    pub gates: Vec<Gate>,
    pub outputs: Vec<Literal>,
}

impl Circuit {
    pub fn new(inputs: usize) -> Circuit {
        Circuit { inputs, gates: Vec::new(), outputs: Vec::new() }
    }

    pub fn nets(&self) -> usize {
        self.inputs + self.gates.len()
    }

    pub fn gate(&mut self, gate: Gate) -> Literal {
        self.gates.push(gate);
        self.nets() as Literal
    }

    pub fn and(&mut self, a: Literal, b: Literal) -> Literal {
        self.gate(Gate::And(vec![a, b]))
    }

    pub fn or(&mut self, a: Literal, b: Literal) -> Literal {
        -self.and(-a, -b)
    }

    pub fn xor(&mut self, a: Literal, b: Literal) -> Literal {
        self.gate(Gate::Xor(vec![a, b]))
    }

    pub fn mux(&mut self, select: Literal, then: Literal, other: Literal) -> Literal {
        self.gate(Gate::Mux([select, then, other]))
    }

    /// The same circuit with its gates' outputs `by` nets further on.
    fn moved(&self, by: usize) -> Circuit {
        let moved = |l: &Literal| if l.unsigned_abs() as usize > self.inputs { l + l.signum() * by as i32 } else { *l };
        let gate = |gate: &Gate| match gate {
            Gate::And(inputs) => Gate::And(inputs.iter().map(moved).collect()),
            Gate::Xor(inputs) => Gate::Xor(inputs.iter().map(moved).collect()),
            Gate::Mux(inputs) => Gate::Mux([0, 1, 2].map(|i| moved(&inputs[i]))),
        };
        let outputs = self.outputs.iter().map(moved).collect();
        Circuit { inputs: self.inputs, gates: self.gates.iter().map(gate).collect(), outputs }
    }
}

impl Gate {
    /// The clauses that say that the output is this gate's value.
    pub fn clauses(&self, output: Literal) -> Vec<Vec<Literal>> {
        match self {
            Gate::And(inputs) => {
                let long = inputs.iter().map(|r| -r).chain([output]).collect();
                inputs.iter().map(|&r| vec![-output, r]).chain([long]).collect()
            }
            Gate::Xor(inputs) => odd_sign_clauses(&[inputs.as_slice(), &[output]].concat()),
            Gate::Mux([c, t, e]) => {
                vec![vec![-c, -output, *t], vec![-c, output, -t], vec![*c, -output, *e], vec![*c, output, -e]]
            }
        }
    }

    fn inputs(&self) -> &[Literal] {
        match self {
            Gate::And(inputs) | Gate::Xor(inputs) => inputs,
            Gate::Mux(inputs) => inputs,
        }
    }

    /// Rows of BLIF's table for which the output is 1, inverted inputs taken into account.
    fn rows(&self) -> Vec<String> {
        let inputs = self.inputs();
        let bit = |i: usize, value: bool| if value == (inputs[i] > 0) { '1' } else { '0' };
        match self {
            Gate::And(_) => vec![(0..inputs.len()).map(|i| bit(i, true)).collect()],
            Gate::Xor(_) => (0..1_u32 << inputs.len())
                .filter(|row| row.count_ones() % 2 == 1)
                .map(|row| (0..inputs.len()).map(|i| bit(i, row >> i & 1 == 1)).collect())
                .collect(),
            Gate::Mux(_) => {
                vec![format!("{}{}-", bit(0, true), bit(1, true)), format!("{}-{}", bit(0, false), bit(2, true))]
            }
        }
    }
}

/// All clauses over these literals with an odd number of them inverted: their sum is even.
fn odd_sign_clauses(literals: &[Literal]) -> Vec<Vec<Literal>> {
    let inverted = |row: u32| (0..).zip(literals).map(|(i, l)| if row >> i & 1 == 1 { -l } else { *l }).collect();
    (0..1_u32 << literals.len()).filter(|row| row.count_ones() % 2 == 1).map(inverted).collect()
}

/// Two circuits over the same inputs; the second one's gates stand behind the first one's.
pub struct Pair {
    pub one: Circuit,
    pub two: Circuit,
}

impl Pair {
    pub fn new(one: Circuit, two: &Circuit) -> Pair {
        assert_eq!((one.inputs, one.outputs.len()), (two.inputs, two.outputs.len()), "the same inputs and outputs");
        let two = two.moved(one.gates.len());
        Pair { one, two }
    }

    pub fn nets(&self) -> usize {
        self.one.nets() + self.two.gates.len()
    }

    fn gates(&self) -> impl Iterator<Item = (Literal, &Gate)> {
        (self.one.inputs as Literal + 1..).zip(self.one.gates.iter().chain(&self.two.gates))
    }

    /// Both designs in one clause list.
    pub fn clauses(&self) -> Vec<Vec<Literal>> {
        self.gates().flat_map(|(output, gate)| gate.clauses(output)).collect()
    }

    pub fn outputs(&self) -> impl Iterator<Item = (Literal, Literal)> + '_ {
        self.one.outputs.iter().copied().zip(self.two.outputs.iter().copied())
    }

    /// Nets and clauses of both designs, and that some output differs.
    pub fn miter(&self) -> (usize, Vec<Vec<Literal>>) {
        let mut clauses = self.clauses();
        let mut nets = self.nets();
        let mut some = Vec::new();
        for (a, b) in self.outputs() {
            nets += 1;
            clauses.extend(Gate::Xor(vec![a, b]).clauses(nets as Literal));
            some.push(nets as Literal);
        }
        clauses.push(some);
        (nets, clauses)
    }

    pub fn blif_one(&self) -> String {
        let gates: Vec<_> = self.gates().take(self.one.gates.len()).collect();
        blif(self.one.inputs, &gates, &self.one.outputs)
    }

    pub fn blif_two(&self) -> String {
        let gates: Vec<_> = self.gates().skip(self.one.gates.len()).collect();
        blif(self.one.inputs, &gates, &self.two.outputs)
    }

    pub fn blif_both(&self) -> String {
        let gates: Vec<_> = self.gates().collect();
        blif(self.one.inputs, &gates, &[self.one.outputs.as_slice(), &self.two.outputs].concat())
    }
}

fn blif(inputs: usize, gates: &[(Literal, &Gate)], outputs: &[Literal]) -> String {
    let mut text = String::from(".model design\n.inputs");
    (1..=inputs).for_each(|net| write!(text, " n{net}").expect("a string takes it"));
    text.push_str("\n.outputs");
    (0..outputs.len()).for_each(|i| write!(text, " o{i}").expect("a string takes it"));
    text.push('\n');
    for (output, gate) in gates {
        text.push_str(".names");
        gate.inputs().iter().for_each(|l| write!(text, " n{}", l.abs()).expect("a string takes it"));
        writeln!(text, " n{output}").expect("a string takes it");
        gate.rows().iter().for_each(|row| writeln!(text, "{row} 1").expect("a string takes it"));
    }
    for (i, l) in outputs.iter().enumerate() {
        writeln!(text, ".names n{} o{i}\n{} 1", l.abs(), u8::from(*l > 0)).expect("a string takes it");
    }
    text + ".end\n"
}
