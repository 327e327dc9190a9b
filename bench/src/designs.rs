//! The comparisons: for each family two circuits of a given size with the same meaning.

use crate::circuit::{Circuit, Gate, Literal};
use crate::random::Random;

pub struct Family {
    pub name: &'static str,
    pub pair: fn(usize) -> (Circuit, Circuit),
    /// Its first design is also compared with what abc makes of it.
    pub optimised: bool,
}

pub const FAMILIES: [Family; 8] = [
    Family {
        name: "adder, inputs swapped",
        pair: |n| (adder(n, false, and_or_carry), adder(n, true, and_or_carry)),
        optimised: true,
    },
    Family {
        name: "adder, another carry",
        pair: |n| (adder(n, false, and_or_carry), adder(n, false, mux_carry)),
        optimised: false,
    },
    Family { name: "multiplier, rewritten", pair: |n| with_rewritten(multiplier(n, false)), optimised: true },
    Family {
        name: "multiplier, operands swapped",
        pair: |n| (multiplier(n, false), multiplier(n, true)),
        optimised: false,
    },
    Family { name: "parity, tree and chain", pair: |n| (parity_tree(n), parity_chain(n)), optimised: true },
    Family { name: "multiplexer tree, selects inverted", pair: |n| with_rewritten(mux_tree(n)), optimised: true },
    Family { name: "random, shallow", pair: |n| with_rewritten(random_circuit(n, false)), optimised: true },
    Family { name: "random, deep", pair: |n| with_rewritten(random_circuit(n, true)), optimised: true },
];

type Carry = fn(&mut Circuit, Literal, Literal, Literal, Literal) -> Literal;

/// (a and b) or (half and c), half being the sum of a and b.
fn and_or_carry(circuit: &mut Circuit, a: Literal, b: Literal, c: Literal, half: Literal) -> Literal {
    let both = circuit.and(a, b);
    let passed = circuit.and(half, c);
    circuit.or(both, passed)
}

fn mux_carry(circuit: &mut Circuit, a: Literal, _: Literal, c: Literal, half: Literal) -> Literal {
    circuit.mux(half, c, a)
}

fn full_adder(circuit: &mut Circuit, a: Literal, b: Literal, c: Literal, carry: Carry) -> (Literal, Literal) {
    let half = circuit.xor(a, b);
    let sum = circuit.xor(half, c);
    (sum, carry(circuit, a, b, c, half))
}

/// Two numbers of n bits and a carry in.
fn adder(n: usize, swapped: bool, carry: Carry) -> Circuit {
    let mut circuit = Circuit::new(2 * n + 1);
    let mut c = 2 * n as Literal + 1;
    for bit in 1..=n as Literal {
        let (a, b) = if swapped { (bit + n as Literal, bit) } else { (bit, bit + n as Literal) };
        let (sum, next) = full_adder(&mut circuit, a, b, c, carry);
        circuit.outputs.push(sum);
        c = next;
    }
    circuit.outputs.push(c);
    circuit
}

/// An array multiplier of n by n bits: row by row, each added to the sum so far by a ripple adder.
fn multiplier(n: usize, swapped: bool) -> Circuit {
    let mut circuit = Circuit::new(2 * n);
    let n = n as Literal;
    let product = |circuit: &mut Circuit, i: Literal, j: Literal| {
        let (a, b) = if swapped { (j + 1, n + i + 1) } else { (i + 1, n + j + 1) };
        circuit.and(a, b)
    };
    let mut sum: Vec<Literal> = (0..n).map(|j| product(&mut circuit, 0, j)).collect();
    for i in 1..n {
        circuit.outputs.push(sum.remove(0));
        let mut carry = None;
        for j in 0..n {
            let term = product(&mut circuit, i, j);
            let (bit, next) = add_term(&mut circuit, sum.get(j as usize).copied(), term, carry);
            carry = next;
            if (j as usize) < sum.len() {
                sum[j as usize] = bit;
            } else {
                sum.push(bit);
            }
        }
        sum.extend(carry);
    }
    circuit.outputs.extend(sum);
    circuit
}

/// One column of the array, where some of the three bits may be missing: the sum bit and the carry.
fn add_term(
    circuit: &mut Circuit,
    sum: Option<Literal>,
    term: Literal,
    carry: Option<Literal>,
) -> (Literal, Option<Literal>) {
    match (sum, carry) {
        (None, None) => (term, None),
        (Some(other), None) | (None, Some(other)) => (circuit.xor(other, term), Some(circuit.and(other, term))),
        (Some(sum), Some(carry)) => {
            let (bit, next) = full_adder(circuit, sum, term, carry, and_or_carry);
            (bit, Some(next))
        }
    }
}

/// Joins neighbours level by level; a last one without a neighbour goes up alone.
fn tree(
    circuit: &mut Circuit,
    inputs: Vec<Literal>,
    mut join: impl FnMut(&mut Circuit, usize, Literal, Literal) -> Literal,
) -> Literal {
    let mut level = inputs;
    for depth in 0.. {
        if level.len() == 1 {
            break;
        }
        let neighbours = level.chunks(2);
        level = neighbours.map(|n| if n.len() == 2 { join(circuit, depth, n[0], n[1]) } else { n[0] }).collect();
    }
    level[0]
}

fn parity_tree(n: usize) -> Circuit {
    let mut circuit = Circuit::new(n);
    let output = tree(&mut circuit, (1..=n as Literal).collect(), |circuit, _, a, b| circuit.xor(a, b));
    circuit.outputs.push(output);
    circuit
}

fn parity_chain(n: usize) -> Circuit {
    let mut circuit = Circuit::new(n);
    let output = (2..=n as Literal).fold(1, |sum, input| circuit.xor(sum, input));
    circuit.outputs.push(output);
    circuit
}

/// Nets 1 to n are the data, the selects come behind, one for each level.
fn mux_tree(n: usize) -> Circuit {
    let selects = n.next_power_of_two().trailing_zeros() as usize;
    let mut circuit = Circuit::new(n + selects);
    let data = (1..=n as Literal).collect();
    let output = tree(&mut circuit, data, |circuit, depth, a, b| circuit.mux((n + depth + 1) as Literal, a, b));
    circuit.outputs.push(output);
    circuit
}

/// A circuit of n gates over any earlier nets or, if deep, each over the one before it and any two; the nets that no gate
/// uses are outputs.
fn random_circuit(n: usize, deep: bool) -> Circuit {
    let mut random = Random(n as u64);
    let mut circuit = Circuit::new(n / 8 + 4);
    let mut used = vec![false; circuit.nets() + n + 1];
    for _ in 0..n {
        let gate = random_gate(&mut random, circuit.nets(), deep);
        inputs_of(&gate).iter().for_each(|l| used[l.unsigned_abs() as usize] = true);
        circuit.gate(gate);
    }
    let free = (circuit.inputs + 1..=circuit.nets()).filter(|&net| !used[net]);
    circuit.outputs = free.map(|net| net as Literal).collect();
    circuit
}

fn random_gate(random: &mut Random, nets: usize, deep: bool) -> Gate {
    let mut inputs = if deep { vec![nets as Literal * random.sign()] } else { Vec::new() };
    while inputs.len() < 3 {
        let net = random.below(nets) as Literal + 1;
        if inputs.iter().all(|l| l.abs() != net) {
            inputs.push(net * random.sign());
        }
    }
    match random.below(4) {
        0 => Gate::And(inputs[..2].to_vec()),
        1 => Gate::And(inputs),
        2 => Gate::Xor(inputs[..2].to_vec()),
        _ => Gate::Mux([inputs[1], inputs[0], inputs[2]]),
    }
}

fn inputs_of(gate: &Gate) -> Vec<Literal> {
    match gate {
        Gate::And(inputs) | Gate::Xor(inputs) => inputs.clone(),
        Gate::Mux(inputs) => inputs.to_vec(),
    }
}

fn with_rewritten(circuit: Circuit) -> (Circuit, Circuit) {
    let mut other = circuit.clone();
    other.gates.iter_mut().for_each(rewrite);
    (circuit, other)
}

/// The same gate written in another way.
fn rewrite(gate: &mut Gate) {
    match gate {
        Gate::And(inputs) => inputs.reverse(),
        Gate::Xor(inputs) => inputs.iter_mut().for_each(|l| *l = -*l),
        Gate::Mux([c, t, e]) => *gate = Gate::Mux([-*c, *e, *t]),
    }
}

/// The same circuit with one input of the gate in its middle inverted.
pub fn spoilt(circuit: &Circuit) -> Circuit {
    let mut other = circuit.clone();
    let middle = other.gates.len() / 2;
    match &mut other.gates[middle] {
        Gate::And(inputs) | Gate::Xor(inputs) => inputs[0] = -inputs[0],
        Gate::Mux(inputs) => inputs[1] = -inputs[1],
    }
    other
}
