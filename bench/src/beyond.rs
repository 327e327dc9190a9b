//! What a program takes beyond an empty run.

use crate::process::{median, run, Ran};
use std::path::{Path, PathBuf};
use std::process::Command;

/// The program and the number of runs: NAME PROGRAM RUNS.
pub fn arguments(name: &str) -> (PathBuf, usize) {
    let arguments: Vec<String> = std::env::args().skip(1).collect();
    let [program, runs] = &arguments[..] else { panic!("{name} PROGRAM RUNS") };
    (program.into(), runs.parse().expect("a number of runs"))
}

/// A folder for what the program reads, removed in the end.
pub struct Inputs(PathBuf);

impl Inputs {
    pub fn new(name: &str) -> Inputs {
        let folder = std::env::temp_dir().join(format!("{name}.{}", std::process::id()));
        std::fs::create_dir(&folder).expect("a folder for the inputs");
        Inputs(folder)
    }

    pub fn write(&self, title: &str, text: &str) -> PathBuf {
        let path = self.0.join(title.replace(' ', "-"));
        std::fs::write(&path, text).expect("the folder can be written");
        path
    }
}

impl Drop for Inputs {
    fn drop(&mut self) {
        std::fs::remove_dir_all(&self.0).expect("the folder can be removed");
    }
}

/// One run of a program, which must end by itself.
pub fn once(program: &Path, input: &Path) -> Ran {
    let ran = run(&mut Command::new(program), input, 100).expect("the program can be run");
    assert_eq!(ran.status, Some(0), "the program was ended");
    ran
}

/// The median of the processor time beyond an empty run, the two taking turns.
pub fn beyond(program: &Path, input: &Path, empty: &Path, runs: usize) -> f64 {
    let work = |_| once(program, input).milliseconds - once(program, empty).milliseconds;
    median(&mut (0..runs).map(work).collect::<Vec<_>>())
}
