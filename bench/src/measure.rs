//! Measures what `generate` wrote and prints the table: measure FOLDER CHART RUNS NAME=LIMIT=PROGRAM.. The first program is the
//! product, the others must print the same sheets. Exit status 1 if something differs.

mod chart;
mod process;
mod tools;

use process::{median, Ran};
use std::path::{Path, PathBuf};
use tools::{Kind, Tool};

/// A tool is not repeated on a list once it has taken this many milliseconds there.
const ENOUGH: f64 = 1_500.0;

/// A tool that has taken less than this is run up to `QUICK_RUNS` times as often.
const QUICK: f64 = 600.0;
const QUICK_RUNS: usize = 10;

/// The name of the list with nothing to do.
const EMPTY: &str = "empty";

/// The name of the program beside which the chart shows the product.
const INDEPENDENT: &str = "independent";

/// Work of fewer milliseconds cannot be told from the start's own spread, and counts as so many.
const LEAST: f64 = 0.05;

pub struct Entry {
    pub name: String,
    pub title: String,
    pub family: String,
    pub part: usize,
}

/// What one tool did on one list.
struct Measured {
    /// Median of its processor time beyond its start.
    work: f64,
    ran: Ran,
}

/// What the chart shows of a list: the product's work, and that as a multiple of the independent implementation's.
pub struct Point {
    pub entry: Entry,
    pub work: f64,
    pub ratio: f64,
}

fn main() {
    let arguments: Vec<String> = std::env::args().skip(1).collect();
    let [folder, chart, runs, programs @ ..] = &arguments[..] else {
        panic!("measure FOLDER CHART RUNS NAME=LIMIT=PROGRAM..")
    };
    let folder = PathBuf::from(folder);
    let runs = runs.parse().expect("a number of runs");
    let named = |text: &String| Tool::sheet(text).expect("NAME=LIMIT=PROGRAM");
    let mut tools: Vec<Tool> = programs.iter().map(named).collect();
    tools.extend(Tool::others());
    measure_starts(&folder, &mut tools, 3 * runs);
    print_starts(&tools);
    print_head(&tools);
    let mut points = Vec::new();
    let mut faults = Vec::new();
    for entry in entries(&folder) {
        let all = measure(&folder, &entry, &tools, runs);
        print_row(&folder, &entry, &tools, &all);
        faults.extend(disagreements(&folder, &entry, &tools, &all));
        let beside = tools.iter().zip(&all).find(|(tool, _)| tool.name == INDEPENDENT);
        if let (Some(product), Some((_, Some(other)))) = (&all[0], beside) {
            points.push(Point { entry, work: product.work, ratio: quotient(product.work, other.work) });
        }
    }
    std::fs::write(chart, chart::svg(&points)).expect("the chart can be written");
    faults.iter().for_each(|fault| println!("\nDIFFERS: {fault}"));
    println!(
        "\n{}",
        if faults.is_empty() { "All sheets are the same, and no tool contradicts one." } else { "Something differs." }
    );
    std::process::exit(i32::from(!faults.is_empty()));
}

fn entries(folder: &Path) -> Vec<Entry> {
    let index = std::fs::read_to_string(folder.join("lists")).expect("generate wrote the folder");
    let entry = |line: &str| {
        let [name, title, family, part] = line.split('\t').collect::<Vec<_>>()[..] else { panic!("four columns") };
        Entry { name: name.into(), title: title.into(), family: family.into(), part: part.parse().expect("a number") }
    };
    index.lines().map(entry).collect()
}

/// The empty run: a list without clauses, two designs of one gate each.
fn measure_starts(folder: &Path, tools: &mut [Tool], runs: usize) {
    let gate = ".model design\n.inputs a b\n.outputs o\n.names a b o\n11 1\n.end\n";
    let texts = [
        ("cnf", "p cnf 0 0\n"),
        ("miter.cnf", "p cnf 1 2\n1 0\n-1 0\n"),
        ("1.blif", gate),
        ("2.blif", gate),
        ("both.blif", gate),
    ];
    for (end, text) in texts {
        std::fs::write(folder.join(format!("{EMPTY}.{end}")), text).expect("the folder can be written");
    }
    for tool in tools {
        let mut times: Vec<f64> =
            (0..runs).filter_map(|_| tool.run(folder, EMPTY)).map(|ran| ran.milliseconds).collect();
        tool.start = median(&mut times);
    }
}

/// All tools take turns, each with an empty run before, so that a busy moment of the machine meets all of them.
fn measure(folder: &Path, entry: &Entry, tools: &[Tool], runs: usize) -> Vec<Option<Measured>> {
    let mut taken: Vec<Turns> = tools.iter().map(|_| Turns::default()).collect();
    for turn in 0..QUICK_RUNS * runs {
        for (tool, turns) in tools.iter().zip(&mut taken) {
            let spent: f64 = turns.times.iter().sum();
            if spent < if turn < runs { ENOUGH } else { QUICK } {
                turns.take(folder, entry, tool);
            }
        }
    }
    taken.into_iter().map(Turns::measured).collect()
}

/// What a tool took for a list, turn by turn.
#[derive(Default)]
struct Turns {
    starts: Vec<f64>,
    times: Vec<f64>,
    last: Option<Ran>,
}

impl Turns {
    fn take(&mut self, folder: &Path, entry: &Entry, tool: &Tool) {
        if let Some(ran) = tool.run(folder, &entry.name) {
            self.starts.extend(tool.run(folder, EMPTY).map(|empty| empty.milliseconds));
            self.times.push(ran.milliseconds);
            self.last = Some(ran);
        }
    }

    fn measured(mut self) -> Option<Measured> {
        let ran = self.last?;
        Some(Measured { work: median(&mut self.times) - median(&mut self.starts), ran })
    }
}

fn print_starts(tools: &[Tool]) {
    println!("Process start (an empty run), milliseconds of processor time; it is measured again beside every list and taken off:\n");
    tools.iter().for_each(|tool| println!("- {}: {:.2}", tool.name, tool.start));
}

fn print_head(tools: &[Tool]) {
    let names: Vec<&str> = tools[1..].iter().map(|t| t.name.as_str()).collect();
    println!(
        "\n| list | nets | clauses | rounds | verdict | outputs joined | {}, ms | {} |",
        tools[0].name,
        names.join(" | ")
    );
    println!("|---|--:|--:|--:|---|--:|--:|{}", "--:|".repeat(names.len()));
}

fn print_row(folder: &Path, entry: &Entry, tools: &[Tool], all: &[Option<Measured>]) {
    let product = all[0].as_ref().expect("the product runs on every list");
    let values: Vec<&str> = product.ran.printed.lines().nth(1).unwrap_or_default().split(',').collect();
    let [verdict, rounds, nets, ..] = values[..] else { panic!("{}: no sheet: {}", entry.title, product.ran.printed) };
    let text = std::fs::read_to_string(folder.join(format!("{}.cnf", entry.name))).expect("the list");
    let clauses = text.lines().count() - 1;
    let joined = joined_outputs(folder, entry, &product.ran.printed);
    let joined = joined.map_or("-".into(), |(joined, all)| format!("{joined} of {all}"));
    print!(
        "| {} | {nets} | {clauses} | {rounds} | {verdict} | {joined} | {} |",
        entry.title,
        milliseconds(product.work)
    );
    for (tool, measured) in tools.iter().zip(all).skip(1) {
        print!(" {} |", measured.as_ref().map_or("-".into(), |m| ratio(tool, m, product.work)));
    }
    println!();
}

pub fn milliseconds(work: f64) -> String {
    if work < 10.0 {
        format!("{work:.2}")
    } else {
        format!("{work:.0}")
    }
}

fn quotient(work: f64, other: f64) -> f64 {
    work.max(LEAST) / other.max(LEAST)
}

/// How many times the product's work; a run that was ended says so.
fn ratio(tool: &Tool, measured: &Measured, product: f64) -> String {
    let ratio = quotient(measured.work, product);
    let digits = match ratio {
        _ if ratio < 0.01 => 5,
        _ if ratio < 0.1 => 3,
        _ if ratio < 10.0 => 2,
        _ => 0,
    };
    let over = if measured.ran.status.is_none() { "over " } else { "" };
    let equal = match tool.says_equal(&measured.ran) {
        Some(true) => " =",
        Some(false) => " ≠",
        None => "",
    };
    format!("{over}{ratio:.digits$}{equal}")
}

/// How many pairs of outputs have one lead on the sheet, and of how many; None where there is no pair.
fn joined_outputs(folder: &Path, entry: &Entry, sheet: &str) -> Option<(usize, usize)> {
    let outputs = std::fs::read_to_string(folder.join(format!("{}.outputs", entry.name))).ok()?;
    let leads: Vec<&str> =
        sheet.lines().skip(3).filter_map(|line| line.split_once(',')).map(|(_, lead)| lead).collect();
    let pairs: Vec<(String, String)> = outputs
        .lines()
        .filter_map(|line| line.split_once(' '))
        .map(|(a, b)| (lead_of(&leads, a), lead_of(&leads, b)))
        .collect();
    Some((pairs.iter().filter(|(a, b)| a == b).count(), pairs.len()))
}

fn lead_of(leads: &[&str], literal: &str) -> String {
    let net: usize = literal.trim_start_matches('-').parse().expect("a literal");
    let lead = leads[net - 1];
    match (literal.starts_with('-'), lead) {
        (false, _) => lead.to_owned(),
        (true, "T") => "F".to_owned(),
        (true, "F") => "T".to_owned(),
        (true, _) => lead.strip_prefix('-').map_or_else(|| format!("-{lead}"), str::to_owned),
    }
}

/// Other sheets than the product's, and tools that find a difference where the sheet joins all outputs.
fn disagreements(folder: &Path, entry: &Entry, tools: &[Tool], all: &[Option<Measured>]) -> Vec<String> {
    let sheet = &all[0].as_ref().expect("the product runs on every list").ran.printed;
    let equal = joined_outputs(folder, entry, sheet).is_some_and(|(joined, all)| joined == all);
    let disagrees = |(tool, measured): &(&Tool, &Option<Measured>)| {
        let Some(Measured { ran, .. }) = measured else { return false };
        let other_sheet = tool.kind == Kind::Sheet && ran.status.is_some() && ran.printed != *sheet;
        other_sheet || equal && tool.says_equal(ran) == Some(false)
    };
    tools.iter().zip(all).filter(disagrees).map(|(tool, _)| format!("{} on {}", tool.name, entry.title)).collect()
}
