//! Compares the compiled program for AIGER with the reference, and with the program for DIMACS, on random circuits:
//! aiger_driver AIGER-PROGRAM PROGRAM [CIRCUITS OF EACH KIND] [SEED] [FAULTS AFTER WHICH THE RUN ENDS].

mod aiger_stated;
mod cases;
mod circuit_texts;
mod circuit_truth;
mod circuits;
mod damage;
#[allow(dead_code)]
mod lists;
mod program;
mod random;
#[allow(dead_code)]
mod sheets;
#[allow(dead_code)]
mod shrink;
#[allow(dead_code)]
mod stated;
mod table;
#[allow(dead_code)]
mod texts;
#[allow(dead_code)]
mod truth;
mod work;

use circuit_texts::TurnedAway;
use circuits::{Circuit, Kind};
use random::Random;
use work::{Must, Run, Sample, Settings, Subject, Work};

/// The refusals that a text can bring. 6 and 7 are none of them: a circuit of up to 1,024 nets has up to 1,024 ANDs, and
/// makes up to 3,073 clauses of 10,242 entries.
const REFUSALS: [u32; 6] = [1, 5, 15, 16, 17, 18];

const COLUMNS: [&str; 3] = ["compared", "truth", "dimacs"];

impl Sample for Circuit {
    fn text(&self) -> Vec<u8> {
        Circuit::text(self)
    }

    /// Fewer lines.
    fn smaller(&self, fails: &dyn Fn(&Circuit) -> bool) -> Circuit {
        let mut small = self.clone();
        small.rest = shrink::items(&small.rest, &|rest| fails(&Circuit { rest: rest.to_vec(), ..small.clone() }));
        small.ands = shrink::items(&small.ands, &|ands| fails(&Circuit { ands: ands.to_vec(), ..small.clone() }));
        small.inputs =
            shrink::items(&small.inputs, &|inputs| fails(&Circuit { inputs: inputs.to_vec(), ..small.clone() }));
        small
    }
}

#[derive(Clone, Copy)]
enum Make {
    Small(&'static Kind),
    Large(&'static Kind),
    Padded,
    Damaged,
    TurnedAway,
}

fn plan(count: usize) -> Vec<Work<Make>> {
    let mut plan = Vec::new();
    for kind in &circuits::LARGE {
        plan.push(Work { kind: kind.name, count: count / 30 + 6, make: Make::Large(kind) });
    }
    for kind in &circuits::KINDS {
        plan.push(Work { kind: kind.name, count, make: Make::Small(kind) });
    }
    plan.push(Work { kind: "padded", count: count / 10 + 10, make: Make::Padded });
    plan.push(Work { kind: "damaged", count: 10 * count, make: Make::Damaged });
    plan.push(Work { kind: "turned away", count: 2 * count + 200, make: Make::TurnedAway });
    plan
}

fn any_circuit(r: &mut Random) -> Circuit {
    let kind = &circuits::KINDS[r.below(circuits::KINDS.len())];
    circuits::random_circuit(kind, r)
}

struct Driver {
    dimacs_program: String,
    run: Run<Make>,
}

impl Driver {
    fn check(&self, work: &Work<Make>, i: usize, r: &mut Random) {
        match work.make {
            Make::Small(kind) => {
                let circuit = circuits::random_circuit(kind, r);
                self.check_circuit(work.kind, &circuit);
                self.check_truth(work.kind, &circuit);
            }
            Make::Large(kind) => self.check_circuit(work.kind, &circuits::random_circuit(kind, r)),
            Make::Padded => self.run.check_text(work.kind, &circuit_texts::padded(&any_circuit(r), r)),
            Make::TurnedAway => self.check_turned_away(work.kind, &TurnedAway::random(r)),
            Make::Damaged => {
                let circuit = if i % 2 == 0 { circuits::sound(r) } else { any_circuit(r) };
                self.run.check_text(work.kind, &circuit_texts::damaged(&circuit, r));
            }
        }
    }

    fn check_circuit(&self, kind: &'static str, circuit: &Circuit) {
        if !self.run.compare(kind, &circuit.text()) {
            let small = circuit.smaller(&|c| self.run.subject.differs(&c.text()));
            return self.run.report_difference(kind, &small.text());
        }
        let what = "the same list as DIMACS differs";
        if self.run.check_with(kind, what, circuit, &|c| self.check_dimacs(c)).unwrap_or(true) {
            self.run.count(kind, "dimacs");
        }
    }

    fn check_truth(&self, kind: &'static str, circuit: &Circuit) {
        if circuit.nets > truth::MOST_NETS as u64 {
            return;
        }
        let check = |c: &Circuit| circuit_truth::check(&self.run.subject.program, c);
        if self.run.check_with(kind, "a sheet is not true", circuit, &check).unwrap_or(true) {
            self.run.count(kind, "truth");
        }
    }

    /// The sheet of an accepted circuit is the other program's for the same clauses.
    fn check_dimacs(&self, circuit: &Circuit) -> Result<bool, String> {
        let text = circuit.text();
        let Ok(list) = reference::aiger::read(&text, usize::MAX) else { return Ok(false) };
        let dimacs = reference::print(&list, usize::MAX).map_err(|r| reference::refusal_text(&r))?;
        let (found, other) = (self.run.subject.answer(&text), program::answer(&self.dimacs_program, dimacs.as_bytes()));
        if found == other {
            return Ok(true);
        }
        Err(format!("its sheet:\n{found}the sheet of\n{dimacs}is\n{other}"))
    }

    /// Of the refusals that hold the first is given.
    fn check_turned_away(&self, kind: &'static str, made: &TurnedAway) {
        self.run.check_text(kind, &made.text);
        let found = self.run.subject.answer(&made.text);
        if sheets::refusal(&found) == made.numbers.first().copied() {
            return self.run.count_case(circuit_texts::TITLE, made.case());
        }
        self.run.report(kind, &format!("{} hold", made.case()), &made.text, &format!("program:\n{found}"));
    }
}

fn main() {
    let args: Vec<String> = std::env::args().collect();
    let usage = "usage: aiger_driver AIGER-PROGRAM PROGRAM [CIRCUITS OF EACH KIND] [SEED] [MOST FAULTS]";
    let [program, dimacs_program] = [1, 2].map(|i| args.get(i).expect(usage).clone());
    let settings = Settings::new(&args[3..]);
    settings.print("circuits");
    let subject = Subject { program, reference: reference::aiger::answer_text };
    let faults = subject.check_stated(&aiger_stated::AIGER);
    let plan = plan(settings.count);
    let driver = Driver { dimacs_program, run: Run::new(subject, settings, plan, &COLUMNS) };
    driver.run.go(&|work, i, r| driver.check(work, i, r));
    let cases = [(circuit_texts::TITLE, &circuit_texts::MUST as &[&str])];
    driver.run.finish(faults, &Must { cases: &cases, refusals: &REFUSALS });
}
