//! Truth by running: all assignments of a small list are tried.

use crate::lists::List;
use crate::{program, sheets, texts};
use reference::{F, T};

pub const MOST_NETS: usize = 12;

/// The value that an assignment gives a literal or a constant.
pub fn value(assignment: u32, x: i64) -> bool {
    match x {
        T => true,
        F => false,
        _ => (assignment >> (x.unsigned_abs() - 1) & 1 == 1) == (x > 0),
    }
}

pub fn satisfies(assignment: u32, list: &List) -> bool {
    list.clauses.iter().all(|c| c.iter().any(|&l| value(assignment, l)))
}

/// Every satisfying assignment gives each net its lead's value; with a contradiction there is none. Whether that was
/// tried: not if the list is refused. Else what is wrong.
pub fn check(program: &str, list: &List) -> Result<bool, String> {
    let sheet = program::answer(program, &texts::plain(list));
    check_sheet(&sheet, list.nets, &|assignment| satisfies(assignment, list))
}

/// The same of a sheet and any assignments that are to be looked at.
pub fn check_sheet(sheet: &str, nets: usize, is_one: &dyn Fn(u32) -> bool) -> Result<bool, String> {
    if sheets::refusal(sheet).is_some() {
        return Ok(false);
    }
    let leads = sheets::leads(sheet);
    let holds = |assignment: u32| match &leads {
        Some(leads) => (1..=nets).all(|v| value(assignment, v as i64) == value(assignment, leads[v - 1])),
        None => false,
    };
    match (0u32..1 << nets).find(|&a| is_one(a) && !holds(a)) {
        None => Ok(true),
        Some(a) => Err(format!("its sheet:\n{sheet}an assignment that satisfies the list: {:?}\n", states(a, nets))),
    }
}

/// The literals that an assignment makes true.
pub fn states(assignment: u32, nets: usize) -> Vec<i64> {
    (1..=nets as i64).map(|v| if value(assignment, v) { v } else { -v }).collect()
}

/// Whether some satisfying assignment gives the two literals different values.
pub fn can_differ(list: &List, x: i64, y: i64) -> bool {
    (0u32..1 << list.nets).any(|a| satisfies(a, list) && value(a, x) != value(a, y))
}
