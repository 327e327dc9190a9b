//! More clauses never part two nets, by running: of a list and a larger one, under one round limit, the sheet of the
//! larger joins all that the other joins, or says contradiction; and it says so, in no later round, if the other does.

use crate::lists::{self, Clauses, List};
use crate::random::Random;
use crate::{sheets, texts};
use reference::{F, T};
use std::cmp::Ordering;

pub const TITLE: &str = "with clauses added";

/// How the answers to a list and to one with clauses added compare, if neither is refused, or what is wrong.
pub fn check(sheet_of: &dyn Fn(&List) -> String, list: &List, r: &mut Random) -> Result<Option<String>, String> {
    let a = sheet_of(list);
    if sheets::refusal(&a).is_some() {
        return Ok(None);
    }
    let larger = with_more(list, &sheets::leads(&a).unwrap_or_default(), r);
    let b = sheet_of(&larger);
    if sheets::refusal(&b).is_some() {
        return Ok(None);
    }
    if is_kept(&a, &b) {
        return Ok(Some(case(&a, &b)));
    }
    let text = String::from_utf8_lossy(&texts::plain(&larger)).into_owned();
    Err(format!("its sheet:\n{a}the larger list:\n{text}its sheet:\n{b}"))
}

/// The list, as it stands or as sets, with clauses added and some repeated, in any order.
fn with_more(list: &List, leads: &[i64], r: &mut Random) -> List {
    let mut clauses = if r.once_in(2) { list.clauses.clone() } else { as_sets(&list.clauses) };
    for _ in 0..r.between(1, 3) {
        clauses.extend(match r.below(4) {
            0 if list.nets >= 4 => lists::random_gate(list.nets, r),
            1 if !leads.is_empty() => said_of(leads, 1, r),
            2 if !leads.is_empty() => said_of(leads, 3, r),
            _ => vec![lists::pins(list.nets, r.between(1, 3), r)],
        });
    }
    lists::repeat_clauses(&mut clauses, r);
    r.shuffle(&mut clauses);
    List { nets: list.nets, clauses }
}

/// Each literal of a clause once, each clause once, and none that is ignored.
fn as_sets(clauses: &Clauses) -> Clauses {
    let mut sets = clauses.clone();
    for set in &mut sets {
        set.sort_unstable();
        set.dedup();
    }
    sets.retain(|set| !set.iter().any(|l| set.contains(&-l)));
    sets.sort_unstable();
    sets.dedup();
    sets
}

/// What the list's own sheet says of one net in `every`, as clauses: with them the larger list can settle sooner.
fn said_of(leads: &[i64], every: usize, r: &mut Random) -> Clauses {
    let mut clauses = vec![];
    for (net, &lead) in (1..).zip(leads).filter(|_| r.once_in(every)) {
        clauses.extend(match lead {
            T => vec![vec![net]],
            F => vec![vec![-net]],
            _ if lead == net => vec![],
            _ => lists::equal_clauses(net, lead),
        });
    }
    clauses
}

/// Whether sheet b joins all that sheet a joins, a contradiction joining everything and staying one in no later round.
fn is_kept(a: &str, b: &str) -> bool {
    if is_contradiction(a) {
        return is_contradiction(b) && rounds(b) <= rounds(a);
    }
    let (Some(before), Some(after)) = (sheets::leads(a), sheets::leads(b)) else { return is_contradiction(b) };
    before.len() == after.len() && before.iter().zip(&after).all(|(&x, &lead)| sheets::lead_of(&after, x) == lead)
}

fn is_contradiction(sheet: &str) -> bool {
    sheets::verdict(sheet) == "contradiction"
}

fn rounds(sheet: &str) -> u64 {
    sheets::rounds_and_nets(sheet).0
}

fn case(a: &str, b: &str) -> String {
    let many = match rounds(b).cmp(&rounds(a)) {
        Ordering::Less => "fewer",
        Ordering::Equal => "as many",
        Ordering::Greater => "more",
    };
    format!("{}, then {} in {many} rounds", sheets::verdict(a), sheets::verdict(b))
}
