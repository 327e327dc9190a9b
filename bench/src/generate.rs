//! Writes the lists to measure: generate FOLDER. For a comparison NAME: NAME.cnf is both designs, NAME.miter.cnf the same
//! and that some output differs, NAME.outputs the pairs of outputs, and NAME.1.blif, NAME.2.blif, NAME.both.blif the
//! designs. `lists` has a line for each: NAME, title, family, and which part of the limits it fills (0: no comparison).

mod aiger;
mod circuit;
mod designs;
mod list;
mod random;
mod worst;

use circuit::{Circuit, Pair};
use designs::{spoilt, Family, FAMILIES};
use list::List;
use std::path::{Path, PathBuf};
use std::process::Command;

fn main() {
    let folder = std::env::args().nth(1).expect("generate FOLDER");
    let mut writer = Writer { folder: PathBuf::from(folder), index: String::new(), count: 0 };
    for family in &FAMILIES {
        for part in [8, 4, 2, 1] {
            let size = largest(|n| list_of(&pair_of(family, n)).fits(part));
            writer.comparison(family.name, &format!("size {size}"), part, &pair_of(family, size));
        }
        let size = largest(|n| list_of(&pair_of(family, n)).fits(1));
        let (one, two) = (family.pair)(size);
        let two = spoilt(&two);
        writer.comparison(family.name, &format!("size {size}, one gate differs"), 0, &Pair::new(one, &two));
        if family.optimised {
            writer.optimised(family);
        }
    }
    worst::lists().iter().for_each(|(title, list)| writer.worst(title, list));
    std::fs::write(writer.folder.join("lists"), &writer.index).expect("the index can be written");
}

fn pair_of(family: &Family, size: usize) -> Pair {
    let (one, two) = (family.pair)(size);
    Pair::new(one, &two)
}

fn list_of(pair: &Pair) -> List {
    List { nets: pair.nets(), clauses: pair.clauses() }
}

/// The largest size from 2 on that fits, if sizes up to some fit and none above.
fn largest(fits: impl Fn(usize) -> bool) -> usize {
    let (mut low, mut high) = (2, 4);
    while fits(high) {
        (low, high) = (high, 2 * high);
    }
    while high - low > 1 {
        let middle = (low + high) / 2;
        (low, high) = if fits(middle) { (middle, high) } else { (low, middle) };
    }
    low
}

struct Writer {
    folder: PathBuf,
    index: String,
    count: usize,
}

impl Writer {
    fn write(&self, name: &str, text: &str) {
        std::fs::write(self.folder.join(name), text).expect("the folder can be written");
    }

    fn new_name(&mut self, title: &str, family: &str, part: usize) -> String {
        self.count += 1;
        let name = format!("{:03}", self.count);
        self.index += &format!("{name}\t{title}\t{family}\t{part}\n");
        name
    }

    fn comparison(&mut self, family: &str, size: &str, part: usize, pair: &Pair) {
        let name = self.new_name(&format!("{family}, {size}"), family, part);
        let (nets, clauses) = pair.miter();
        let outputs: String = pair.outputs().map(|(a, b)| format!("{a} {b}\n")).collect();
        self.write(&format!("{name}.cnf"), &list_of(pair).text());
        self.write(&format!("{name}.miter.cnf"), &List { nets, clauses }.text());
        self.write(&format!("{name}.outputs"), &outputs);
        self.write(&format!("{name}.1.blif"), &pair.blif_one());
        self.write(&format!("{name}.2.blif"), &pair.blif_two());
        self.write(&format!("{name}.both.blif"), &pair.blif_both());
    }

    fn worst(&mut self, title: &str, list: &List) {
        let name = self.new_name(title, "", 0);
        self.write(&format!("{name}.cnf"), &list.text());
    }

    /// The first design as ANDs of two inputs, against what abc makes of it.
    fn optimised(&mut self, family: &Family) {
        let made = |n: usize| optimise(&self.folder, &(family.pair)(n).0);
        if made(2).is_none() {
            println!("SKIPPED: {}, optimised by abc: berkeley-abc is missing or gives no circuit", family.name);
            return;
        }
        let size = largest(|n| made(n).is_some_and(|pair| list_of(&pair).fits(1)));
        let Some(pair) = made(size) else { return };
        self.comparison(family.name, &format!("size {size}, as ANDs and optimised by abc"), 0, &pair);
    }
}

fn optimise(folder: &Path, circuit: &Circuit) -> Option<Pair> {
    let path = |name: &str| folder.join(name).to_str().expect("a path of text").to_owned();
    let (from, one, two) = (path("from.blif"), path("plain.aig"), path("optimised.aig"));
    std::fs::write(&from, Pair::new(circuit.clone(), circuit).blif_one()).ok()?;
    let steps = "balance; rewrite; refactor; balance; rewrite; rewrite -z; balance; refactor -z; rewrite -z; balance";
    let script = format!("read_blif {from}; strash; write_aiger {one}; {steps}; write_aiger {two}");
    Command::new("berkeley-abc").args(["-q", &script]).output().ok().filter(|o| o.status.success())?;
    let read = |path: &str| aiger::read(&std::fs::read(path).ok()?);
    let ((mut one, some), (mut two, others)) = (read(&one)?, read(&two)?);
    // Outputs that abc found constant are left out.
    let both = some.into_iter().zip(others).filter_map(|(a, b)| a.zip(b));
    (one.outputs, two.outputs) = both.unzip();
    (!one.outputs.is_empty()).then(|| Pair::new(one, &two))
}
