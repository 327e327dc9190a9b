//! Compares the compiled program with the reference on random lists:
//! driver PROGRAM [LISTS OF EACH KIND] [SEED] [FAULTS AFTER WHICH THE RUN ENDS].

mod added;
mod cases;
mod changes;
mod copies;
mod damage;
mod large;
mod lists;
mod missing;
mod program;
mod random;
mod sheets;
mod shrink;
mod stated;
mod table;
mod texts;
mod truth;
mod work;

use copies::Copied;
use lists::{Kind, List};
use missing::Missing;
use random::Random;
use work::{Must, Run, Sample, Settings, Subject, Work};

/// The refusals that a text can bring.
const REFUSALS: [u32; 9] = [1, 2, 3, 5, 6, 7, 10, 11, 12];

const COLUMNS: [&str; 4] = ["compared", "changed", "truth", "added"];

impl Sample for List {
    fn text(&self) -> Vec<u8> {
        texts::plain(self)
    }

    fn smaller(&self, fails: &dyn Fn(&List) -> bool) -> List {
        shrink::list(self, fails)
    }
}

#[derive(Clone, Copy)]
enum Make {
    Small(&'static Kind),
    Large(&'static Kind),
    Copies,
    Padded,
    Damaged,
    TurnedAway,
}

fn plan(count: usize) -> Vec<Work<Make>> {
    let mut plan = vec![Work { kind: "most ites", count: 1, make: Make::Large(&large::MOST_ITES) }];
    for kind in &large::LARGE {
        plan.push(Work { kind: kind.name, count: count / 30 + 3, make: Make::Large(kind) });
    }
    for kind in &lists::KINDS {
        plan.push(Work { kind: kind.name, count, make: Make::Small(kind) });
    }
    plan.push(Work { kind: "copies", count: count + 50, make: Make::Copies });
    plan.push(Work { kind: "padded", count: count / 10 + 10, make: Make::Padded });
    plan.push(Work { kind: "damaged", count: 10 * count, make: Make::Damaged });
    plan.push(Work { kind: "turned away", count: count / 2 + 20, make: Make::TurnedAway });
    plan
}

struct Driver {
    run: Run<Make>,
}

impl Driver {
    fn check(&self, work: &Work<Make>, i: usize, r: &mut Random) {
        match work.make {
            Make::Small(kind) => {
                let list = lists::random_list(kind, r);
                self.check_list(work.kind, &list, i % 3 == 0, r);
                self.check_change(work.kind, &list, r);
                self.check_truth(work.kind, &list);
                self.check_added(work.kind, &list, r);
            }
            Make::Large(kind) => {
                let list = (kind.make)(r);
                self.check_list(work.kind, &list, false, r);
                self.check_change(work.kind, &list, r);
                self.check_added(work.kind, &list, r);
            }
            Make::Copies => self.check_copies(work.kind, &Copied::random(r), r),
            Make::Padded => self.run.check_text(work.kind, &texts::padded(&any_list(r), r)),
            Make::TurnedAway => self.run.check_text(work.kind, &texts::turned_away(r)),
            Make::Damaged => {
                let list = any_list(r);
                let text = if i % 2 == 0 { texts::dressed(&list, r) } else { texts::plain(&list) };
                self.run.check_text(work.kind, &texts::damaged(text, r));
            }
        }
    }

    fn check_list(&self, kind: &'static str, list: &List, dress: bool, r: &mut Random) {
        let text = if dress { texts::dressed(list, r) } else { texts::plain(list) };
        if self.run.compare(kind, &text) {
            return;
        }
        let fails = |l: &List| self.run.subject.differs(&texts::plain(l));
        let text = if fails(list) { texts::plain(&shrink::list(list, &fails)) } else { text };
        self.run.report_difference(kind, &text);
    }

    fn check_change(&self, kind: &'static str, list: &List, r: &mut Random) {
        let seed = r.next();
        let check = |l: &List| changes::check(&self.run.subject.program, l, &mut Random::new(seed));
        if self.run.check_with(kind, "a changed list differs", list, &check).unwrap_or(true) {
            self.run.count(kind, "changed");
        }
    }

    fn check_truth(&self, kind: &'static str, list: &List) {
        if list.nets > truth::MOST_NETS {
            return;
        }
        if self
            .run
            .check_with(kind, "a sheet is not true", list, &|l| truth::check(&self.run.subject.program, l))
            .unwrap_or(true)
        {
            self.run.count(kind, "truth");
        }
    }

    fn check_added(&self, kind: &'static str, list: &List, r: &mut Random) {
        let seed = r.next();
        let sheet_of = |l: &List| self.run.subject.answer(&texts::plain(l));
        let check = |l: &List| added::check(&sheet_of, l, &mut Random::new(seed));
        if let Some(Some(case)) = self.run.check_with(kind, "more clauses part two nets", list, &check) {
            self.run.count(kind, "added");
            self.run.count_case(added::TITLE, case);
        }
    }

    /// A design beside its copy, and compared with it.
    fn check_copies(&self, kind: &'static str, copied: &Copied, r: &mut Random) {
        let (beside, compared) = (copied.beside(r), copied.compared(r));
        self.check_list(kind, &beside, false, r);
        self.check_list(kind, &compared, false, r);
        self.check_change(kind, &compared, r);
        let sheet = self.run.subject.answer(&texts::plain(&beside));
        if let Err(what) = copies::check_beside(&sheet, copied, copied.depth()) {
            self.run.report(kind, "a net and its copy are apart", &texts::plain(&beside), &what);
        }
        let sheet = self.run.subject.answer(&texts::plain(&compared));
        match copies::check_compared(&sheet, copied) {
            Ok(case) => self.run.count_case(copies::TITLE, case),
            Err(what) => {
                self.run.report(kind, "a design and its copy are not found equal", &texts::plain(&compared), &what)
            }
        }
    }
}

fn any_list(r: &mut Random) -> List {
    let kind = &lists::KINDS[r.below(lists::KINDS.len())];
    lists::random_list(kind, r)
}

/// Lists that leave a net and its copy, or a comparison and F, apart; how many do not.
fn check_missing(program: &str) -> usize {
    let (all, mut faults) = (Missing::all(), 0);
    for case in &all {
        if let Err(what) = case.check(program) {
            faults += 1;
            println!("FAULT (stated): missing: {}: {what}", case.what);
        }
    }
    println!("{} lists that leave a net and its copy apart, {faults} faults", all.len());
    faults
}

fn main() {
    let args: Vec<String> = std::env::args().collect();
    let program = args.get(1).expect("usage: driver PROGRAM [LISTS OF EACH KIND] [SEED] [MOST FAULTS]").clone();
    let settings = Settings::new(&args[2..]);
    settings.print("lists");
    let subject = Subject { program, reference: reference::answer_text };
    let faults = subject.check_stated(&stated::STATED) + check_missing(&subject.program);
    let plan = plan(settings.count);
    let driver = Driver { run: Run::new(subject, settings, plan, &COLUMNS) };
    driver.run.go(&|work, i, r| driver.check(work, i, r));
    driver.run.finish(faults, &Must { cases: &[(copies::TITLE, &copies::MUST)], refusals: &REFUSALS });
}
