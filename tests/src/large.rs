//! Lists at the limits and lists with as many gates, inputs or rounds as the limits allow.

use crate::lists::{
    and_clauses, equal_clauses, ite_clauses, longest, miter, pins, signed, xor_clauses, Clauses, Kind, List,
};
use crate::random::Random;

pub const LARGE: [Kind; 7] = [
    Kind { name: "limits", make: limits },
    Kind { name: "circuits", make: circuits },
    Kind { name: "ladders", make: ladders },
    Kind { name: "cliques", make: cliques },
    Kind { name: "many xors", make: many_xors },
    Kind { name: "halves", make: halves },
    Kind { name: "chains of gates", make: gate_chains },
];

/// Made once in a run.
pub const MOST_ITES: Kind = Kind { name: "most ites", make: most_ites };

/// Nets, clauses, entries and magnitudes at a limit, one below it or one past it.
fn limits(r: &mut Random) -> List {
    let step = r.below(3);
    match r.below(5) {
        0 => List { nets: 1_023 + step, clauses: vec![vec![1_023], vec![-1_022]] },
        1 => List { nets: 3, clauses: vec![vec![1, 2, -3]; 4_095 + step] },
        2 => List { nets: 1, clauses: vec![vec![1; 16_382 + step]] },
        3 => List { nets: 9, clauses: vec![vec![signed(8 + step as i64, r), 1]] },
        _ => full(step, r),
    }
}

/// As many entries as a list may have, or one less or more, in clauses of three literals.
fn full(step: usize, r: &mut Random) -> List {
    let mut clauses: Vec<Vec<i64>> =
        (0..4_095).map(|_| (0..3).map(|_| signed(r.between(1, 99) as i64, r)).collect()).collect();
    clauses.push(vec![1; 2 + step]);
    List { nets: 99, clauses }
}

/// Two copies of a circuit of hundreds of gates.
fn circuits(r: &mut Random) -> List {
    let inputs = r.between(5, 40);
    let gates = r.between(50, 450);
    miter(inputs, gates, r)
}

/// One net after the other becomes known: nearly as many rounds as nets.
fn ladders(r: &mut Random) -> List {
    let nets = r.between(100, 1_024);
    if r.once_in(4) {
        return longest(nets, r);
    }
    let mut order: Vec<i64> = (1..=nets as i64).map(|v| signed(v, r)).collect();
    if r.once_in(2) {
        r.shuffle(&mut order);
    }
    let mut clauses = vec![vec![order[0]]];
    let kind = r.below(3);
    for i in 1..nets {
        let (a, b) = (order[i - 1], order[i]);
        match (kind, i) {
            (0, _) | (_, 1) => clauses.push(vec![-a, b]),
            (1, _) => clauses.push(vec![-a, -order[i - 2], b]),
            _ => clauses.extend(xor_clauses(&[a, b, order[i - 2]])),
        }
    }
    if r.once_in(3) {
        clauses.push(order.iter().map(|l| -l).collect());
    }
    List { nets, clauses }
}

/// No two of some literals hold: each clause over them has an AND for each of its literals.
fn cliques(r: &mut Random) -> List {
    let size = r.between(20, 85);
    let literals = pins(100, size, r);
    let mut clauses = Vec::new();
    for (i, a) in literals.iter().enumerate() {
        clauses.extend(literals[i + 1..].iter().map(|b| vec![-a, -b]));
    }
    for _ in 0..r.between(1, 60) {
        let mut members = literals.clone();
        r.shuffle(&mut members);
        members.truncate(r.between(3, size.min(30)));
        clauses.push(members);
    }
    clauses.extend((0..r.below(2)).map(|_| vec![literals[0]]));
    List { nets: 100, clauses }
}

/// Some hundred XORs of three to five nets.
fn many_xors(r: &mut Random) -> List {
    let nets = r.between(30, 600);
    let most = r.between(200, 3_500);
    let mut clauses = Vec::new();
    while clauses.len() < most {
        let count = r.between(3, 5);
        clauses.extend(xor_clauses(&pins(nets, count, r)));
    }
    clauses.extend((0..r.below(9)).map(|_| pins(nets, 1, r)));
    List { nets, clauses }
}

/// Multiplexers on one output and one of two selects, which some lists join: any two halves across are a gate if their literals are
/// not inverses.
fn halves(r: &mut Random) -> List {
    let nets = r.between(20, 700);
    let p = pins(nets, nets, r);
    let mut clauses = Vec::new();
    for _ in 0..r.between(5, 500) {
        let (l, c) = (p[0], p[r.between(1, 2)]);
        let (t, e) = (signed(r.pick(&p[2..]), r), signed(r.pick(&p[2..]), r));
        clauses.extend(ite_clauses(l, c, t, e));
    }
    clauses.extend(and_clauses(p[3], &p[4..9]));
    if r.once_in(3) {
        clauses.extend(equal_clauses(p[1], p[2]));
    }
    clauses.extend((0..r.below(3)).map(|_| pins(nets, 1, r)));
    List { nets, clauses }
}

/// Two chains in which each pair of nets that is joined makes the next pair of gates alike. In the first, of ANDs, the lowest net comes
/// last, so that all nets of the group get another lead in each round; in the second, of ANDs or multiplexers, it comes first. Other
/// ANDs take the last nets of that one, or two that are joined 255 rounds apart. Further gates take a net of the first chain, so that
/// they change in each round.
fn gate_chains(r: &mut Random) -> List {
    let (falling, rising) = (r.between(230, 300) as i64, r.between(260, 300) as i64);
    let (late, changing) = (r.between(3, 60) as i64, r.between(20, 90) as i64);
    let first = falling + 1;
    let last = first + rising;
    let (a, b, c, s) = (last + 1, last + 2, last + 3, last + 4);
    let apart = s + late + 1;
    let behind = apart + last - 254 - first;
    let mut clauses: Clauses = (1..falling).flat_map(|i| and_clauses(i, &[i + 1, a])).collect();
    let multiplexers = r.once_in(2);
    for i in first..last {
        clauses.extend(if multiplexers { ite_clauses(i + 1, i, b, s) } else { and_clauses(i + 1, &[i, b]) });
    }
    clauses.extend((0..late).flat_map(|i| and_clauses(s + 1 + i, &[last - i, c])));
    clauses.extend((first..=last - 255).zip(apart..).flat_map(|(i, l)| and_clauses(l, &[i, i + 255])));
    for (l, x) in (0..changing).map(|i| (behind + 2 * i, behind + 2 * i + 1)) {
        clauses.extend(match r.below(3) {
            0 => and_clauses(l, &[falling, x]),
            1 => xor_clauses(&[l, falling, x]),
            _ => ite_clauses(l, falling, x, s),
        });
    }
    for (x, y) in [(falling - 1, falling), (first, first + 1)] {
        clauses.extend(equal_clauses(x, y));
    }
    r.shuffle(&mut clauses);
    List { nets: (behind + 2 * changing - 1) as usize, clauses }
}

/// Over two million multiplexers: in the XORs of two nets with each of 1,022 others, either is the select and the other the output.
fn most_ites(_: &mut Random) -> List {
    let clauses = (3..=1_024).flat_map(|d| xor_clauses(&[1, 2, d])).collect();
    List { nets: 1_024, clauses }
}
