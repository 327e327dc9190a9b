//! Workers that go through a plan of random texts, and what the drivers do alike before and afterwards.

use crate::random::Random;
use crate::stated::{self, Stated};
use crate::table::Table;
use crate::{program, shrink};
use std::sync::atomic::{AtomicUsize, Ordering};
use std::sync::Mutex;
use std::time::{Duration, Instant};

/// A program that has not answered by then hangs.
const PATIENCE: Duration = Duration::from_secs(120);

/// How much is made, from which seed, and the number of faults after which the run ends.
pub struct Settings {
    pub count: usize,
    seed: u64,
    most_faults: usize,
}

fn seed_of_now() -> u64 {
    std::time::SystemTime::now().duration_since(std::time::UNIX_EPOCH).map_or(1, |d| d.as_secs())
}

impl Settings {
    pub fn new(args: &[String]) -> Settings {
        Settings {
            count: args.first().map_or(300, |n| n.parse().expect("a number of texts")),
            seed: args.get(1).map_or_else(seed_of_now, |s| s.parse().expect("a seed")),
            most_faults: args.get(2).map_or(8, |n| n.parse().expect("a number of faults")),
        }
    }

    pub fn print(&self, what: &str) {
        println!("seed {}, {} {what} of each kind", self.seed, self.count);
    }
}

/// One kind of texts and how many of them are made.
pub struct Work<M> {
    pub kind: &'static str,
    pub count: usize,
    pub make: M,
}

/// What a text is made from.
pub trait Sample: Sized {
    fn text(&self) -> Vec<u8>;

    /// A smaller one that still fails.
    fn smaller(&self, fails: &dyn Fn(&Self) -> bool) -> Self;
}

/// A program, and what prints the answers that it must give.
pub struct Subject {
    pub program: String,
    pub reference: fn(&[u8]) -> String,
}

impl Subject {
    /// What the program prints for a text.
    pub fn answer(&self, text: &[u8]) -> String {
        program::answer(&self.program, text)
    }

    pub fn differs(&self, text: &[u8]) -> bool {
        self.answer(text) != (self.reference)(text)
    }

    /// The stated answers, which the reference and the program must give; how many were not given.
    pub fn check_stated(&self, cases: &[Stated]) -> usize {
        let mut faults = 0;
        for case in cases {
            let (text, expected) = (case.0.as_bytes(), stated::printed(case));
            for (who, found) in [("reference", (self.reference)(text)), ("program", self.answer(text))] {
                if found != expected {
                    faults += 1;
                    println!(
                        "FAULT (stated): the {who} prints for \"{}\"\n{found}and not\n{expected}",
                        text.escape_ascii()
                    );
                }
            }
        }
        println!("{} stated answers, {faults} faults", cases.len());
        faults
    }
}

pub struct Run<M> {
    pub subject: Subject,
    settings: Settings,
    plan: Vec<Work<M>>,
    next: AtomicUsize,
    table: Mutex<Table>,
    /// what each worker does, and since when
    busy: Vec<Mutex<Option<(Instant, String)>>>,
}

/// What a run must have come upon: titles of cases with those that must come, and refusals.
pub struct Must<'a> {
    pub cases: &'a [(&'static str, &'a [&'a str])],
    pub refusals: &'a [u32],
}

impl<M: Sync> Run<M> {
    pub fn new(subject: Subject, settings: Settings, plan: Vec<Work<M>>, columns: &'static [&'static str]) -> Run<M> {
        let workers = std::thread::available_parallelism().map_or(1, |n| n.get());
        let busy = (0..workers).map(|_| Mutex::new(Some((Instant::now(), "its start".to_string())))).collect();
        Run { subject, settings, plan, next: AtomicUsize::new(0), table: Mutex::new(Table::new(columns)), busy }
    }

    /// Goes through the plan: the check is handed a work and which of its kind it is.
    pub fn go(&self, check: &(dyn Fn(&Work<M>, usize, &mut Random) + Sync)) {
        std::thread::scope(|s| {
            (0..self.busy.len()).for_each(|w| drop(s.spawn(move || self.work(w, check))));
            self.watch();
        });
    }

    /// The work with a number, and which of its kind it is.
    fn job(&self, mut number: usize) -> Option<(&Work<M>, usize)> {
        for work in &self.plan {
            if number < work.count {
                return Some((work, number));
            }
            number -= work.count;
        }
        None
    }

    fn work(&self, worker: usize, check: &dyn Fn(&Work<M>, usize, &mut Random)) {
        while let Some((work, i)) = self.job(self.next.fetch_add(1, Ordering::Relaxed)) {
            if self.table.lock().unwrap().faults() >= self.settings.most_faults {
                break;
            }
            let start = Instant::now();
            *self.busy[worker].lock().unwrap() = Some((start, format!("{} {i}", work.kind)));
            let name = work.kind.bytes().fold(i as u64, |sum, b| sum.wrapping_mul(257).wrapping_add(b as u64));
            check(work, i, &mut Random::new(self.settings.seed ^ name.wrapping_mul(0x2545_f491_4f6c_dd1d)));
            self.table.lock().unwrap().row(work.kind).seconds += start.elapsed().as_secs_f64();
        }
        *self.busy[worker].lock().unwrap() = None;
    }

    /// Ends the run if a worker has been busy for too long.
    fn watch(&self) {
        loop {
            std::thread::sleep(Duration::from_millis(50));
            let busy: Vec<_> = self.busy.iter().filter_map(|b| b.lock().unwrap().clone()).collect();
            if busy.is_empty() {
                return;
            }
            if let Some((_, job)) = busy.iter().find(|(since, _)| since.elapsed() > PATIENCE) {
                println!("FAULT: no answer within {PATIENCE:?} to {job} of seed {}", self.settings.seed);
                std::process::exit(1);
            }
        }
    }

    /// Counts something of a kind in a column.
    pub fn count(&self, kind: &'static str, column: &'static str) {
        self.table.lock().unwrap().row(kind).count(column);
    }

    pub fn count_case(&self, title: &'static str, case: String) {
        self.table.lock().unwrap().count_case(title, case);
    }

    /// True if the program prints what the reference prints; counts it.
    pub fn compare(&self, kind: &'static str, text: &[u8]) -> bool {
        let expected = (self.subject.reference)(text);
        let same = self.subject.answer(text) == expected;
        let mut table = self.table.lock().unwrap();
        table.row(kind).count("compared");
        if same {
            table.count_answer(&expected);
        }
        same
    }

    /// Compares the answers to a text; a fault is made smaller and reported.
    pub fn check_text(&self, kind: &'static str, text: &[u8]) {
        if !self.compare(kind, text) {
            self.report_difference(kind, &shrink::items(text, &|t| self.subject.differs(t)));
        }
    }

    /// What was found in a sample; a fault is made smaller and reported.
    pub fn check_with<S: Sample, A>(
        &self,
        kind: &'static str,
        what: &str,
        sample: &S,
        check: &dyn Fn(&S) -> Result<A, String>,
    ) -> Option<A> {
        if let Ok(found) = check(sample) {
            return Some(found);
        }
        let small = sample.smaller(&|s| check(s).is_err());
        self.report(kind, what, &small.text(), &check(&small).err().unwrap_or_default());
        None
    }

    pub fn report_difference(&self, kind: &'static str, text: &[u8]) {
        let (found, expected) = (self.subject.answer(text), (self.subject.reference)(text));
        self.report(kind, "program and reference differ", text, &format!("program:\n{found}reference:\n{expected}"));
    }

    pub fn report(&self, kind: &'static str, what: &str, text: &[u8], more: &str) {
        self.table.lock().unwrap().row(kind).faults += 1;
        println!("FAULT ({kind}): {what} on the text \"{}\"\n{more}", text.escape_ascii());
    }

    /// Prints the table and what never came though it must, and ends with status 0 if there was no fault.
    pub fn finish(&self, faults_before: usize, must: &Must) -> ! {
        let table = self.table.lock().unwrap();
        table.print();
        let mut faults = faults_before + table.faults();
        if table.faults() < self.settings.most_faults {
            faults += must.cases.iter().map(|(title, cases)| table.missing_cases(title, cases)).sum::<usize>();
            for number in table.missing_refusals(must.refusals) {
                faults += 1;
                println!("FAULT: refusal {number} never came");
            }
        }
        println!("{faults} faults");
        std::process::exit(if faults == 0 { 0 } else { 1 });
    }
}
