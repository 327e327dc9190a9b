//! Binary AIGER files, as abc writes them, to circuits.

use crate::circuit::{Circuit, Literal};

/// The circuit without outputs, and these, None where one is a constant; None if it is no such file or has latches.
pub fn read(bytes: &[u8]) -> Option<(Circuit, Vec<Option<Literal>>)> {
    let mut lines = bytes.splitn(2, |&b| b == b'\n');
    let header = std::str::from_utf8(lines.next()?).ok()?;
    let sizes: Vec<usize> = header.strip_prefix("aig ")?.split(' ').map_while(|n| n.parse().ok()).collect();
    let [_, inputs, 0, outputs, ands] = sizes[..] else { return None };
    let mut rest = lines.next()?;
    let mut circuit = Circuit::new(inputs);
    let mut literals = Vec::new();
    for _ in 0..outputs {
        let end = rest.iter().position(|&b| b == b'\n')?;
        let code: usize = std::str::from_utf8(&rest[..end]).ok()?.parse().ok()?;
        literals.push(literal(code));
        rest = &rest[end + 1..];
    }
    let mut bytes = rest.iter().copied();
    for i in 0..ands {
        let output = 2 * (inputs + i + 1);
        let first = output - delta(&mut bytes)?;
        let second = first - delta(&mut bytes)?;
        circuit.and(literal(first)?, literal(second)?);
    }
    Some((circuit, literals))
}

fn literal(code: usize) -> Option<Literal> {
    let net = (code / 2) as Literal;
    (net > 0).then_some(if code % 2 == 0 { net } else { -net })
}

/// Seven bits a byte, the lowest first; the last byte has no high bit.
fn delta(bytes: &mut impl Iterator<Item = u8>) -> Option<usize> {
    let mut value = 0;
    for place in 0..5 {
        let byte = bytes.next()?;
        value |= usize::from(byte & 127) << (7 * place);
        if byte < 128 {
            return Some(value);
        }
    }
    None
}
