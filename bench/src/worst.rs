//! Lists within the limits that are as hard as was found, for one thing each. They are no pairs of designs.

use crate::list::List;
use crate::random::Random;

pub fn lists() -> Vec<(&'static str, List)> {
    vec![
        ("ITEs of one select and output, rounds elsewhere", largest(|n| shared_ites(n, false))),
        ("ITEs of one select and output, joined one by one", largest(|n| shared_ites(n, true))),
        ("ITEs of one select and two outputs, a group that doubles", largest(|n| two_outputs(5, n))),
        ("XORs that share two nets", largest(shared_xors)),
        ("XORs, each with one half of an ITE more", largest(xors_with_halves)),
        ("ANDs over 26 nets", largest(ands_over_few)),
        ("80 exclusive nets, wide clauses", largest(|n| exclusive_nets(80, 10, 2, n))),
        ("75 exclusive nets, wide clauses, nets false one by one", largest(|n| exclusive_nets(75, 11, 42, n))),
        ("wide clauses of outputs, a lead that falls", largest(|n| outputs_with_group(42, 12, 620, false, n))),
        (
            "wide clauses of outputs, equal signatures modulo 4,096",
            largest(|n| outputs_with_group(15, 24, 440, true, n)),
        ),
        ("wide clauses of outputs, groups that double", largest(|n| outputs_with_pairs(12, 160, n))),
        ("wide clauses of outputs and two inverse nets", largest(|n| outputs_with_inverses(14, 160, n))),
        ("four wide ANDs, inputs true one by one", largest(wide_ands)),
        ("wide ANDs with equal signatures", largest(|n| equal_signatures(300, n))),
        ("chain of units", largest(unit_chain)),
        ("chain of ANDs whose lead falls", largest(falling_leads)),
        ("multiplexers on one select", largest(one_select)),
        ("two multiplexer chains with one enable", largest(enabled_chains)),
        ("one net in every clause", largest(one_net)),
        ("one wide clause in many orders", largest(one_wide)),
        ("wide clauses in one bucket of the index", largest(one_bucket)),
    ]
}

/// The largest size whose list is within the limits.
fn largest(list: impl Fn(usize) -> List) -> List {
    let fits = |n: usize| list(n).fits(1);
    let size = crate::largest(fits);
    list(size)
}

/// The first net is true, and each makes the next one true.
fn chain(nets: impl Iterator<Item = i32>) -> Vec<Vec<i32>> {
    let nets: Vec<i32> = nets.collect();
    let steps = nets.windows(2).map(|pair| vec![-pair[0], pair[1]]);
    nets.first().map(|first| vec![*first]).into_iter().chain(steps).collect()
}

fn equal(a: i32, b: i32) -> [Vec<i32>; 2] {
    [vec![a, -b], vec![-a, b]]
}

/// o = a and b.
fn and(o: i32, a: i32, b: i32) -> [Vec<i32>; 3] {
    [vec![-o, a], vec![-o, b], vec![o, -a, -b]]
}

/// l = t where c is true.
fn half(c: i32, l: i32, t: i32) -> [Vec<i32>; 2] {
    [vec![-c, -l, t], vec![-c, l, -t]]
}

/// l = c ? t : e.
fn mux(c: i32, l: i32, t: i32, e: i32) -> Vec<Vec<i32>> {
    [half(c, l, t), half(-c, l, e)].concat()
}

/// Net 2 = net 1 ? x : y for any x of n nets and any y of n others. A chain of units runs through these nets, first those of one side,
/// or through half as many others.
fn shared_ites(n: usize, through: bool) -> List {
    let n = n as i32;
    let data = 3..2 * n + 3;
    let others = data.end..data.end + n;
    let mut clauses: Vec<_> = data.clone().flat_map(|x| half(if x < n + 3 { 1 } else { -1 }, 2, x)).collect();
    let nets = if through { data.end } else { others.end } as usize - 1;
    clauses.extend(chain(if through { data } else { others }));
    List { nets, clauses }
}

/// Two outputs with one select, which is the member of a group that doubles. Both are any x of n nets where it is true; where it is false
/// one is any y of n others, and the other is the inverse of any y. So each x and each y is in ITEs of both outputs, which no two ITEs join.
fn two_outputs(times: u32, n: usize) -> List {
    let group = doubling_group(times);
    let select = group.nets as i32;
    let (one, two, n) = (select + 1, select + 2, n as i32);
    let (when_true, when_false) = (two + 1..=two + n, two + n + 1..=two + 2 * n);
    let nets = *when_false.end() as usize;
    let mut clauses = group.clauses;
    clauses.extend(when_true.flat_map(|x| [half(select, one, x), half(select, two, x)].concat()));
    clauses.extend(when_false.flat_map(|y| [half(-select, one, y), half(-select, two, -y)].concat()));
    List { nets, clauses }
}

/// The last net is joined with groups of 2, 4, 8 and so on of the others, one round after another. Each of them is larger than the group
/// it has by then, and its nets are lower: so its lead changes each time, be it that of the larger group or the lowest net.
fn doubling_group(times: u32) -> List {
    let member = (2 << times) - 1;
    let mut clauses = Vec::new();
    let (mut end, mut joined) = (member, None);
    for size in (1..=times).map(|i| 1 << i) {
        let first = end - size;
        clauses.extend((first..end - 1).flat_map(|a| equal(a, a + 1)));
        match joined {
            None => clauses.extend(equal(member, first)),
            Some(other) => clauses.extend(and(first, member, other)),
        }
        (end, joined) = (first, Some(first));
    }
    List { nets: member as usize, clauses }
}

/// The XORs of nets 1 and 2 with each of n nets: whichever of the two is the select and whichever the output, any two of the
/// n nets make an ITE.
fn shared_xors(n: usize) -> List {
    let signed = |x: i32| [vec![1, 2, x], vec![1, -2, -x], vec![-1, 2, -x], vec![-1, -2, x]];
    List { nets: n + 2, clauses: (3..n as i32 + 3).flat_map(signed).collect() }
}

/// n XORs of three nets that follow each other, and where the first of these is true the other two are equal: so each of the two is an
/// ITE with the other for both data.
fn xors_with_halves(n: usize) -> List {
    let even = |a: i32, b: i32, c: i32| [vec![-a, b, c], vec![a, -b, c], vec![a, b, -c], vec![-a, -b, -c]];
    let clauses = (1..=n as i32).flat_map(|a| even(a, a + 1, a + 2).into_iter().chain(half(a, a + 1, a + 2)));
    List { nets: n + 2, clauses: clauses.collect() }
}

/// None of the first nets is true together with one of the first `outputs`.
fn exclusive(outputs: i32, nets: i32) -> Vec<Vec<i32>> {
    (1..=outputs).flat_map(|a| (a + 1..=nets).map(move |b| vec![-a, -b])).collect()
}

/// At most one of 26 nets is true; each of n clauses of twelve of them makes twelve ANDs.
fn ands_over_few(n: usize) -> List {
    let nets = 26;
    let mut random = Random(1);
    let mut clauses = exclusive(nets, nets);
    for _ in 0..n {
        clauses.push(drawn(12, 1..=nets, &mut random));
    }
    List { nets: nets as usize, clauses }
}

/// At most one of the nets is true, and the first ones become false one after another. Each of n clauses has all nets but three of the
/// last ones; no two clauses lack the same two, so that no two ANDs have the same inputs.
fn exclusive_nets(nets: i32, side: i32, rounds: i32, n: usize) -> List {
    let mut clauses = exclusive(nets, nets);
    clauses.extend(chain((1..=rounds).map(|a| -a)));
    let first = nets - 3 * side + 1;
    for i in 0..n as i32 {
        let (a, b) = (i / side % side, i % side);
        let left_out = [first + a, first + side + b, first + 2 * side + (a + b) % side];
        clauses.push((1..=nets).filter(|x| !left_out.contains(x)).collect());
    }
    List { nets: nets as usize, clauses }
}

/// Each of n clauses has the first nets, which are outputs of ANDs, one net of a group that gets another lead in each round, and half
/// of the `free` nets between them. The halves may be such that the product's signatures are equal modulo its number of buckets.
fn outputs_with_group(outputs: i32, free: i32, rounds: usize, equal: bool, n: usize) -> List {
    let before = outputs + free;
    let group = falling_leads(rounds - 1);
    let member = before + group.nets as i32 - 1;
    let behind = |x: &i32| x.signum() * (x.abs() + before);
    let mut clauses = exclusive(outputs, before);
    clauses.extend((1..=outputs).map(|a| vec![-a, -member]));
    clauses.extend(group.clauses.iter().map(|clause| clause.iter().map(behind).collect()));
    let halves = (0..1_u32 << free)
        .filter(|half| half.count_ones() == free as u32 / 2)
        .map(|half| (0..free).filter(|i| half >> i & 1 == 1).map(|i| outputs + 1 + i).collect::<Vec<i32>>())
        .filter(|half| !equal || half.iter().map(|x| product_hash(*x)).sum::<u64>() % 4_096 == 0);
    clauses.extend(halves.take(n).map(|half| (1..=outputs).chain([member]).chain(half).collect()));
    List { nets: before as usize + group.nets, clauses }
}

/// n clauses of all nets, in each of which another one is missing. The first nets are outputs of ANDs in every clause, and come last.
fn wide_outputs(outputs: i32, nets: i32, n: usize) -> Vec<Vec<i32>> {
    let mut clauses = exclusive(outputs, nets);
    let order = || (outputs + 1..=nets).chain(1..=outputs);
    clauses.extend((1..=n as i32).map(|i| order().filter(|x| *x != outputs + i).collect()));
    clauses
}

/// Clauses of outputs and of nets that are joined in pairs, then the pairs in pairs and so on, two groups in each round: so a lead changes
/// in each, be it that of the larger group or the lowest net.
fn outputs_with_pairs(outputs: i32, joined: i32, n: usize) -> List {
    let nets = outputs + joined;
    let sizes = (0..).map(|i| 1 << i).take_while(|size| *size < joined);
    let two_groups =
        sizes.flat_map(|size| (outputs + 1..=nets - size).step_by(2 * size as usize).map(move |a| (a, a + size)));
    let rounds = nets + 1..nets + joined;
    let mut clauses = wide_outputs(outputs, nets, n);
    clauses.extend(chain(rounds.clone()));
    clauses.extend(two_groups.zip(rounds.clone()).flat_map(|((a, b), round)| and(a, b, round)));
    List { nets: rounds.end as usize - 1, clauses }
}

/// Clauses of outputs, of nets that become false one after another, and of two that are inverse. By these all outputs are false from the
/// second round on; rule 3 says so again for each of them in each round, and rule 4 meets as many sets that are equal.
fn outputs_with_inverses(outputs: i32, falling: i32, n: usize) -> List {
    let nets = outputs + falling + 2;
    let mut clauses = wide_outputs(outputs, nets, n);
    clauses.extend(chain((outputs + 1..nets - 1).map(|x| -x)));
    clauses.extend(equal(nets - 1, -nets));
    List { nets: nets as usize, clauses }
}

/// What a net that is its own lead adds to a signature in the product.
fn product_hash(net: i32) -> u64 {
    let prime = 4_294_967_291;
    let x = 2 * net as u64 * 2_654_435_761 % prime;
    let square = x * x % prime;
    square * square % 4_503_599_627_370_449
}

/// In each line two times four nets whose hashes have the same sum in the product. They were found by a search.
const EQUAL_SUMS: [[[i32; 4]; 2]; 6] = [
    [[401, 572, 90, 645], [66, 99, 291, 429]],
    [[98, 754, 790, 921], [20, 749, 4, 562]],
    [[306, 860, 197, 204], [915, 931, 499, 788]],
    [[721, 919, 625, 998], [17, 135, 169, 456]],
    [[247, 433, 438, 700], [15, 532, 457, 662]],
    [[596, 636, 367, 688], [376, 476, 78, 1010]],
];

/// n ANDs with one output. Their inputs are the inverses of common nets, which become false one after another, and of four nets out of
/// each line of `EQUAL_SUMS`: no two have the same set, and in each round all have the same signature.
fn equal_signatures(common: usize, n: usize) -> List {
    let sum = |four: &[i32; 4]| four.iter().map(|x| product_hash(*x)).sum::<u64>();
    assert!(EQUAL_SUMS.iter().all(|[a, b]| sum(a) == sum(b)));
    let special = EQUAL_SUMS.as_flattened().as_flattened();
    let mut others = (1..).filter(|x| !special.contains(x));
    let falling: Vec<i32> = others.by_ref().take(common).collect();
    let output = others.next().expect("there are nets left");
    let mut clauses = chain(falling.iter().map(|x| -x));
    clauses.extend(falling.iter().chain(special).map(|x| vec![-output, -x]));
    let fours = |i: usize| EQUAL_SUMS.iter().enumerate().flat_map(move |(line, two)| two[i >> line & 1]);
    clauses.extend((0..n).map(|i| falling.iter().copied().chain(fours(i)).chain([output]).collect()));
    let nets = clauses.iter().flatten().map(|x| x.unsigned_abs() as usize).max();
    List { nets: nets.expect("there are clauses"), clauses }
}

/// Four ANDs of the same n nets, which become true one after another.
fn wide_ands(n: usize) -> List {
    let inputs = 1..=n as i32;
    let mut clauses = chain(inputs.clone());
    for output in n as i32 + 1..=n as i32 + 4 {
        clauses.extend(inputs.clone().map(|r| vec![-output, r]));
        clauses.push(inputs.clone().map(|r| -r).chain([output]).collect());
    }
    List { nets: n + 4, clauses }
}

fn unit_chain(n: usize) -> List {
    List { nets: n, clauses: chain(1..=n as i32) }
}

/// Each of n nets is the AND of the next one and another net, and the last two are equal: in each round the lowest net of the
/// group is a new one, so that all its nets get another lead.
fn falling_leads(n: usize) -> List {
    let (last, other) = (n as i32 + 2, n as i32 + 3);
    let mut clauses: Vec<_> = (1..last).flat_map(|o| and(o, o + 1, other)).collect();
    clauses.extend(equal(last, last - 1));
    List { nets: n + 3, clauses }
}

/// Each of n multiplexers on net 1 takes the one before it, and its like in the other half of them.
fn one_select(n: usize) -> List {
    let half = n as i32 / 2;
    let first = 4;
    let stage = |start: i32, i: i32| if i == 0 { mux(1, start, 2, 3) } else { mux(1, start + i, start + i - 1, 2) };
    let clauses =
        [first, first + half].into_iter().flat_map(|start| (0..half).flat_map(move |i| stage(start, i))).collect();
    List { nets: 3 + 2 * half as usize, clauses }
}

/// Where net 1 is true each of n nets is taken, else the multiplexer before it is kept, the first one keeping net 2; this twice with the same
/// n nets, so that the two chains are joined from their start on.
fn enabled_chains(n: usize) -> List {
    let n = n as i32;
    let stage = |start: i32, i: i32| mux(1, start + i, 2 + i, if i == 1 { 2 } else { start + i - 1 });
    let clauses = [2 + n, 2 + 2 * n].into_iter().flat_map(|start| (1..=n).flat_map(move |i| stage(start, i)));
    List { nets: 2 + 3 * n as usize, clauses: clauses.collect() }
}

fn one_net(n: usize) -> List {
    let mut random = Random(2);
    let nets = 1_024;
    let mut other = || (2 + random.below(nets - 1) as i32) * random.sign();
    List { nets, clauses: (0..n).map(|_| vec![1, other(), other()]).collect() }
}

/// One clause of 999 nets n times, its literals mixed up in each.
fn one_wide(n: usize) -> List {
    let mut random = Random(3);
    let nets = 999;
    List { nets, clauses: (0..n).map(|_| drawn(nets, 1..=nets as i32, &mut random)).collect() }
}

/// n clauses over all of 999 nets, in each of which two of the first 2n are inverse, one as far from the first of these as the other
/// from the last: so the product's index has all clauses in one bucket. The other nets come first, mixed up, and the two come last.
fn one_bucket(n: usize) -> List {
    let mut random = Random(4);
    let (nets, ends) = (999, 2 * n as i32);
    let clause = |k: i32| {
        let two = [k, ends + 1 - k];
        let plain = (1..=ends).filter(|x| !two.contains(x));
        let others = drawn(nets as usize, ends + 1..=nets, &mut random);
        others.into_iter().chain(plain).chain(two.map(|x| -x)).collect()
    };
    List { nets: nets as usize, clauses: (1..=n as i32).map(clause).collect() }
}

/// Some of the nets, in any order.
fn drawn(count: usize, nets: impl Iterator<Item = i32>, random: &mut Random) -> Vec<i32> {
    let mut rest: Vec<i32> = nets.collect();
    (0..count.min(rest.len())).map(|_| rest.swap_remove(random.below(rest.len()))).collect()
}
