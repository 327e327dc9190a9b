//! What is measured: the product, the reference, the independent implementation, SAT solvers and abc.

use crate::process::{run, Ran};
use std::path::Path;
use std::process::Command;

#[derive(Clone, Copy, PartialEq)]
pub enum Kind {
    /// Prints a sheet for the list on standard input.
    Sheet,
    /// Decides the list that says that outputs differ.
    Solver,
    /// abc's script, with ONE, TWO and BOTH for the designs.
    Abc,
}

pub struct Tool {
    pub name: String,
    pub kind: Kind,
    pub program: String,
    arguments: Vec<&'static str>,
    pub limit: u64,
    /// Processor time of a run with nothing to do.
    pub start: f64,
}

/// Processor seconds after which a solver or abc is given up.
const LIMIT: u64 = 20;

impl Tool {
    /// From NAME=LIMIT=PROGRAM, the limit in processor seconds.
    pub fn sheet(text: &str) -> Option<Tool> {
        let [name, limit, program] = text.splitn(3, '=').collect::<Vec<_>>()[..] else { return None };
        let limit = limit.parse().ok()?;
        Some(Tool {
            name: name.into(),
            kind: Kind::Sheet,
            program: program.into(),
            arguments: vec![],
            limit,
            start: 0.0,
        })
    }

    fn other(name: &str, kind: Kind, program: &str, arguments: Vec<&'static str>) -> Tool {
        Tool { name: name.into(), kind, program: program.into(), arguments, limit: LIMIT, start: 0.0 }
    }

    /// Those that can be run here; the rest is named as skipped.
    pub fn others() -> Vec<Tool> {
        let all = [
            Tool::other("cadical", Kind::Solver, "cadical", vec!["-q", "-n"]),
            Tool::other("minisat", Kind::Solver, "minisat", vec!["-verb=0"]),
            Tool::other("abc cec", Kind::Abc, "berkeley-abc", vec!["-q", "cec ONE TWO"]),
            Tool::other("abc fraig", Kind::Abc, "berkeley-abc", vec!["-q", "read_blif BOTH; strash; fraig"]),
        ];
        let (here, missing): (Vec<_>, Vec<_>) = all
            .into_iter()
            .partition(|tool| Command::new("which").arg(&tool.program).output().is_ok_and(|o| o.status.success()));
        missing.iter().for_each(|tool| println!("SKIPPED: {} ({} is not here)\n", tool.name, tool.program));
        here
    }

    /// Runs it on the list of that name; None if the list is no comparison and the tool needs one.
    pub fn run(&self, folder: &Path, name: &str) -> Option<Ran> {
        let path = |end: &str| folder.join(format!("{name}.{end}")).to_str().expect("a path of text").to_owned();
        let mut command = Command::new(&self.program);
        if self.kind != Kind::Sheet && !folder.join(format!("{name}.miter.cnf")).exists() {
            return None;
        }
        for argument in &self.arguments {
            let filled = argument.replace("ONE", &path("1.blif")).replace("TWO", &path("2.blif"));
            command.arg(filled.replace("BOTH", &path("both.blif")));
        }
        if self.kind == Kind::Solver {
            command.arg(path("miter.cnf"));
        }
        Some(run(&mut command, Path::new(&path("cnf")), self.limit).unwrap_or_else(|e| panic!("{}: {e}", self.program)))
    }

    /// Whether the designs are equal by this tool; None if it does not say.
    pub fn says_equal(&self, ran: &Ran) -> Option<bool> {
        match (self.kind, ran.status) {
            (Kind::Solver, Some(20)) => Some(true),
            (Kind::Solver, Some(10)) => Some(false),
            (Kind::Abc, Some(_)) if ran.printed.contains("NOT EQUIVALENT") => Some(false),
            (Kind::Abc, Some(_)) if ran.printed.contains("are equivalent") => Some(true),
            _ => None,
        }
    }
}
