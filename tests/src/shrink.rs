//! Makes a failing list or text smaller as long as it still fails.

use crate::lists::List;
use std::time::{Duration, Instant};

/// Tries are bounded, in number and in time, since each may run the program and the reference.
struct Tries {
    left: usize,
    end: Instant,
}

impl Tries {
    fn new() -> Tries {
        Tries { left: 1_500, end: Instant::now() + Duration::from_secs(60) }
    }

    /// Whether one more may be made; it counts.
    fn next(&mut self) -> bool {
        let more = self.left > 0 && Instant::now() < self.end;
        self.left = self.left.saturating_sub(1);
        more
    }
}

/// Drops stretches of items, long ones first, as long as what is left fails.
fn fewer<A: Clone>(items: &[A], tries: &mut Tries, fails: &mut dyn FnMut(&[A]) -> bool) -> Vec<A> {
    let mut small = items.to_vec();
    let mut stretch = small.len();
    while stretch > 0 {
        let mut at = 0;
        while at < small.len() && tries.next() {
            let end = small.len().min(at + stretch);
            let rest = [&small[..at], &small[end..]].concat();
            if fails(&rest) {
                small = rest;
            } else {
                at = end;
            }
        }
        stretch /= 2;
    }
    small
}

/// A list with fewer clauses, literals and nets.
pub fn list(failing: &List, fails: &dyn Fn(&List) -> bool) -> List {
    let mut tries = Tries::new();
    let nets = failing.nets;
    let mut clauses = fewer(&failing.clauses, &mut tries, &mut |c| fails(&List { nets, clauses: c.to_vec() }));
    for i in 0..clauses.len() {
        let others = clauses.clone();
        clauses[i] = fewer(&clauses[i], &mut tries, &mut |literals| {
            let mut clauses = others.clone();
            clauses[i] = literals.to_vec();
            fails(&List { nets, clauses })
        });
    }
    let small = List { nets, clauses };
    let numbered = renumbered(&small);
    if fails(&numbered) {
        numbered
    } else {
        small
    }
}

/// The same list over the nets that stand in it, in their order.
fn renumbered(list: &List) -> List {
    let mut nets: Vec<i64> = list.clauses.concat().iter().map(|l| l.abs()).collect();
    nets.sort_unstable();
    nets.dedup();
    let number = |l: &i64| l.signum() * (nets.binary_search(&l.abs()).unwrap_or(0) as i64 + 1);
    let clauses = list.clauses.iter().map(|c| c.iter().map(number).collect()).collect();
    List { nets: nets.len(), clauses }
}

/// Fewer bytes of a text, or lines of a file.
pub fn items<A: Clone>(failing: &[A], fails: &dyn Fn(&[A]) -> bool) -> Vec<A> {
    fewer(failing, &mut Tries::new(), &mut |items| fails(items))
}
