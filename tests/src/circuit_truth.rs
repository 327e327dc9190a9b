//! Truth by running, of circuits: all assignments of a small one are tried on its AND lines and its output.

use crate::circuits::Circuit;
use crate::lists::List;
use crate::{program, truth};
use reference::{ClauseList, F, T};

/// An AIGER literal as a net, its inverse or a constant.
fn literal(x: u64) -> i64 {
    match (x, x % 2) {
        (0, _) => F,
        (1, _) => T,
        (_, 0) => x as i64 / 2,
        _ => -(x as i64 / 2),
    }
}

/// Whether an assignment obeys every AND line and makes the output true.
fn obeys(assignment: u32, circuit: &Circuit) -> bool {
    let value = |x: u64| truth::value(assignment, literal(x));
    circuit.ands.iter().all(|&[l, a, b]| value(l) == (value(a) && value(b))) && value(circuit.output)
}

fn list_of(read: &ClauseList) -> List {
    let mut clauses: Vec<Vec<i64>> = read.row.split(|&x| x == 0).map(|c| c.to_vec()).collect();
    clauses.pop();
    List { nets: read.nets as usize, clauses }
}

/// An assignment satisfies the clauses exactly if it obeys the lines; and the program's sheet is true of those that do.
/// Whether that was tried: not if the circuit is refused. Else what is wrong.
pub fn check(program: &str, circuit: &Circuit) -> Result<bool, String> {
    let text = circuit.text();
    let Ok(read) = reference::aiger::read(&text, usize::MAX) else { return Ok(false) };
    let list = list_of(&read);
    let differs = |a: &u32| truth::satisfies(*a, &list) != obeys(*a, circuit);
    if let Some(a) = (0u32..1 << list.nets).find(differs) {
        let (states, clauses) = (truth::states(a, list.nets), &list.clauses);
        return Err(format!("clauses {clauses:?}: not satisfied as the lines are obeyed by {states:?}\n"));
    }
    truth::check_sheet(&program::answer(program, &text), list.nets, &|a| obeys(a, circuit))
}
