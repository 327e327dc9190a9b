//! Demand 3 by running: a list and a changed one have the same sheet but for names.

use crate::lists::{self, signed, List};
use crate::random::Random;
use crate::{program, sheets, texts};
use std::collections::HashMap;

/// Where each net goes: entry v - 1 is the image of net v.
struct Renaming(Vec<i64>);

impl Renaming {
    /// Nets are renumbered, their states swapped, both or neither.
    fn random(nets: usize, r: &mut Random) -> Renaming {
        let mut images: Vec<i64> = (1..=nets as i64).collect();
        if r.once_in(2) {
            r.shuffle(&mut images);
        }
        if r.once_in(2) {
            images.iter_mut().for_each(|x| *x = signed(*x, r));
        }
        Renaming(images)
    }

    fn image(&self, x: i64) -> i64 {
        lists::image(&self.0, x)
    }
}

/// The list under a renaming, with a random mixture of the other changes.
fn changed(list: &List, renaming: &Renaming, r: &mut Random) -> List {
    let image = |c: &Vec<i64>| c.iter().map(|&l| renaming.image(l)).collect();
    let mut clauses: Vec<Vec<i64>> = list.clauses.iter().map(image).collect();
    for _ in 0..r.below(4) {
        if !clauses.is_empty() {
            clauses.push(clauses[r.below(clauses.len())].clone());
        }
    }
    for _ in 0..r.below(4) {
        if list.nets > 0 {
            clauses.push(ignored(list.nets, r));
        }
    }
    if r.once_in(2) {
        repeat_literals(&mut clauses, r);
    }
    if r.once_in(2) {
        clauses.iter_mut().for_each(|c| r.shuffle(c));
    }
    if r.once_in(2) {
        r.shuffle(&mut clauses);
    }
    List { nets: list.nets, clauses }
}

/// A clause that holds a net and its inverse.
fn ignored(nets: usize, r: &mut Random) -> Vec<i64> {
    let mut clause: Vec<i64> = (0..r.between(1, 3)).map(|_| signed(r.between(1, nets) as i64, r)).collect();
    clause.push(-clause[0]);
    clause
}

fn repeat_literals(clauses: &mut [Vec<i64>], r: &mut Random) {
    for clause in clauses.iter_mut().filter(|c| !c.is_empty()) {
        if r.once_in(5) {
            clause.push(r.pick(clause));
        }
    }
}

/// The leads that the changed list must have: of each group's images the lowest net leads.
fn renamed_leads(leads: &[i64], renaming: &Renaming) -> Vec<i64> {
    let mut before = vec![0; leads.len()];
    for (v, &image) in renaming.0.iter().enumerate() {
        before[image.unsigned_abs() as usize - 1] = image.signum() * leads[v];
    }
    let mut leaders: HashMap<i64, i64> = HashMap::new();
    let mut after = Vec::new();
    for (i, &lead) in before.iter().enumerate() {
        if lead == reference::T || lead == reference::F {
            after.push(lead);
            continue;
        }
        let net = i as i64 + 1;
        let leader = *leaders.entry(lead.abs()).or_insert(lead.signum() * net);
        after.push(lead.signum() * leader);
    }
    after
}

/// Whether the program's answers to a list and to a changed one were compared: not if one is refused. Else what is wrong.
pub fn check(program: &str, list: &List, r: &mut Random) -> Result<bool, String> {
    let a = program::answer(program, &texts::plain(list));
    if sheets::refusal(&a).is_some() {
        return Ok(false);
    }
    let renaming = Renaming::random(list.nets, r);
    let other = texts::plain(&changed(list, &renaming, r));
    let b = program::answer(program, &other);
    if sheets::refusal(&b).is_some() {
        return Ok(false);
    }
    let expected = sheets::leads(&a).map(|leads| renamed_leads(&leads, &renaming));
    let same = sheets::values(&a) == sheets::values(&b) && expected == sheets::leads(&b);
    if same {
        return Ok(true);
    }
    Err(format!("its sheet:\n{a}the changed list:\n{}its sheet:\n{b}", String::from_utf8_lossy(&other)))
}
