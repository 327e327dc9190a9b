//! Has a SAT solver confirm the programs' sheets, of AIGER where a file is named .aag, else of DIMACS:
//! confirm PROGRAM AIGER-PROGRAM SOLVER FILE...
//! A solver is called with a file and ends with status 10 (satisfiable) or 20 (unsatisfiable).

mod format;
mod program;
#[allow(dead_code)]
mod sheets;

use reference::{ClauseList, F, T};
use std::process::{Command, Stdio};

/// The list's clauses and more of them over further nets, as a text for the solver.
fn query(list: &ClauseList, nets: u64, more: &[Vec<i64>]) -> String {
    let mut text = format!("p cnf {nets} {}\n", list.clauses + more.len() as u64);
    for l in list.row.iter().chain(more.iter().flatten()) {
        text.push_str(&format!("{l}{}", if *l == 0 { "\n" } else { " " }));
    }
    text
}

/// The list, and: some net differs from its lead.
fn some_differ(list: &ClauseList, leads: &[i64]) -> String {
    let mut nets = list.nets;
    let mut more = Vec::new();
    let mut some = Vec::new();
    for (v, &lead) in (1..).zip(leads).filter(|(v, &lead)| *v != lead) {
        if lead == T || lead == F {
            some.push(if lead == T { -v } else { v });
            continue;
        }
        nets += 1;
        let differ = nets as i64;
        more.push(vec![-differ, v, lead, 0]);
        more.push(vec![-differ, -v, -lead, 0]);
        some.push(differ);
    }
    some.push(0);
    more.push(some);
    query(list, nets, &more)
}

fn is_unsatisfiable(solver: &str, text: &str) -> bool {
    let file = std::env::temp_dir().join(format!("query-{}.cnf", std::process::id()));
    std::fs::write(&file, text).expect("a file for the solver");
    let status = Command::new(solver).arg(&file).stdout(Stdio::null()).stderr(Stdio::null()).status();
    let code = status.unwrap_or_else(|e| panic!("cannot run {solver}: {e}")).code();
    std::fs::remove_file(&file).expect("the solver's file");
    assert!(code == Some(10) || code == Some(20), "{solver} ended with {code:?}");
    code == Some(20)
}

struct Programs<'a> {
    dimacs: &'a str,
    aiger: &'a str,
    solver: &'a str,
}

impl Programs<'_> {
    fn answer(&self, file: &str, text: &[u8]) -> String {
        program::answer(if format::is_aiger(file) { self.aiger } else { self.dimacs }, text)
    }

    /// What was confirmed, or what is wrong.
    fn confirm(&self, file: &str, text: &[u8]) -> Result<String, String> {
        let format = format::of(file);
        let (sheet, expected) = (self.answer(file, text), (format.answer_text)(text));
        if sheet != expected {
            return Err(format!("program:\n{sheet}reference:\n{expected}"));
        }
        let Ok(list) = (format.read)(text, usize::MAX) else {
            return Ok(format!("turned away: {}", sheets::values(&sheet)));
        };
        if format::is_aiger(file) {
            let dimacs = program::answer(self.dimacs, query(&list, list.nets, &[]).as_bytes());
            if dimacs != sheet {
                return Err(format!("program:\n{sheet}the same list as DIMACS:\n{dimacs}"));
            }
        }
        self.confirm_sheet(&list, &sheet)
    }

    fn confirm_sheet(&self, list: &ClauseList, sheet: &str) -> Result<String, String> {
        let Some(leads) = sheets::leads(sheet) else {
            let none = is_unsatisfiable(self.solver, &query(list, list.nets, &[]));
            return if none { Ok("contradiction confirmed".into()) } else { Err("the list is satisfiable".into()) };
        };
        let joined = (1..).zip(&leads).filter(|(v, &lead)| *v != lead).count();
        if joined > 0 && !is_unsatisfiable(self.solver, &some_differ(list, &leads)) {
            return Err(format!("a joining does not follow from the list:\n{sheet}"));
        }
        Ok(format!("{joined} joinings confirmed"))
    }
}

fn main() {
    let args: Vec<String> = std::env::args().collect();
    assert!(args.len() > 4, "usage: confirm PROGRAM AIGER-PROGRAM SOLVER FILE...");
    let programs = Programs { dimacs: &args[1], aiger: &args[2], solver: &args[3] };
    let mut faults = 0;
    for file in &args[4..] {
        let text = std::fs::read(file).unwrap_or_else(|e| panic!("cannot read {file}: {e}"));
        let name = file.rsplit('/').next().unwrap_or(file);
        match programs.confirm(file, &text) {
            Ok(what) => println!("{name:<32}{:<36}{what}", sheets::values(&programs.answer(file, &text))),
            Err(what) => {
                faults += 1;
                println!("FAULT ({name}): {what}");
            }
        }
    }
    println!("{} lists from real tools, {faults} faults", args.len() - 4);
    std::process::exit(if faults == 0 { 0 } else { 1 });
}
