//! Compares the product's static library with the reference, call by call in this process, with rows and buffers of many
//! lengths and every round limit, its sheets of a list and of one with more clauses with each other, and its sheets of
//! designs beside their copies, under limits that allow just so many rounds, with what must be joined then:
//! library [LISTS OF EACH KIND] [SEED]. Reading and the way to the sheet also from AIGER. Built with the feature `library`.

mod added;
mod cases;
#[allow(dead_code)]
mod circuit_texts;
mod circuits;
mod copies;
mod damage;
#[allow(dead_code)]
mod large;
mod lists;
mod random;
mod sheets;
mod texts;

use cases::Cases;
use circuit_texts::TurnedAway;
use random::Random;
use reference::{ClauseList, Refusal, Rows, Verdict};
use std::collections::BTreeMap;

extern "C" {
    fn cuddremai_read(
        text: *const u8,
        text_length: usize,
        row: *mut i32,
        row_length: usize,
        nets: *mut u32,
        clauses: *mut u32,
        entries: *mut usize,
        place: *mut usize,
    ) -> u32;
    fn cuddremai_read_aiger(
        text: *const u8,
        text_length: usize,
        row: *mut i32,
        row_length: usize,
        nets: *mut u32,
        clauses: *mut u32,
        entries: *mut usize,
        place: *mut usize,
    ) -> u32;
    fn cuddremai_print(
        nets: u32,
        clauses: u32,
        row: *const i32,
        row_length: usize,
        text: *mut u8,
        text_length: usize,
        written: *mut usize,
        place: *mut usize,
    ) -> u32;
    fn cuddremai_close(
        nets: u32,
        clauses: u32,
        row: *const i32,
        row_length: usize,
        limit: u32,
        leads: *mut u32,
        leads_length: usize,
        work: *mut u32,
        work_length: usize,
        summary: *mut [u32; 6],
        place: *mut usize,
    ) -> u32;
    fn cuddremai_sheet(
        nets: u32,
        clauses: u32,
        row: *const i32,
        row_length: usize,
        limit: u32,
        leads: *mut u32,
        leads_length: usize,
        work: *mut u32,
        work_length: usize,
        text: *mut u8,
        text_length: usize,
        written: *mut usize,
        place: *mut usize,
    ) -> u32;
    fn cuddremai_compare(
        input: *const u8,
        input_length: usize,
        text: *mut u8,
        text_length: usize,
        written: *mut usize,
        place: *mut usize,
    ) -> u32;
    fn cuddremai_compare_aiger(
        input: *const u8,
        input_length: usize,
        text: *mut u8,
        text_length: usize,
        written: *mut usize,
        place: *mut usize,
    ) -> u32;
}

/// The functions for a format, by their names, and the reference's reading.
struct Format {
    names: (&'static str, &'static str),
    read: unsafe extern "C" fn(*const u8, usize, *mut i32, usize, *mut u32, *mut u32, *mut usize, *mut usize) -> u32,
    compare: unsafe extern "C" fn(*const u8, usize, *mut u8, usize, *mut usize, *mut usize) -> u32,
    expected: fn(&[u8], usize) -> Result<ClauseList, Refusal>,
}

const DIMACS: Format =
    Format { names: ("read", "compare"), read: cuddremai_read, compare: cuddremai_compare, expected: reference::read };

const AIGER: Format = Format {
    names: ("read_aiger", "compare_aiger"),
    read: cuddremai_read_aiger,
    compare: cuddremai_compare_aiger,
    expected: reference::aiger::read,
};

/// What a caller lends before a call, so that what must keep its contents shows.
const OLD: u8 = 0xa5;
const OLD_WORD: u32 = 0xa5a5_a5a5;
const OLD_SIZE: usize = 0xa5a5_a5a5;

/// No AIGER text makes more entries: ten for an AND line of at least six bytes, and two for the output.
const MOST_MADE: usize = 110_000;

/// A call that was made, the number that it answered, and whether all of its answer is right.
struct Call {
    name: &'static str,
    number: u32,
    right: bool,
}

/// How often each call answered each number; 0 is acceptance.
type Tally = BTreeMap<&'static str, BTreeMap<u32, usize>>;

/// The answer that a refusal or an acceptance must give: number and place.
fn told<A>(expected: &Result<A, Refusal>) -> (u32, usize) {
    expected.as_ref().err().map_or((0, 0), |r| (r.number, r.place))
}

/// The row with the new entries at its start and the old one behind.
fn after<A: Copy>(new: &[A], length: usize, old: A) -> Vec<A> {
    let mut row = new.to_vec();
    row.resize(length, old);
    row
}

fn check_read(format: &Format, text: &[u8], room: usize) -> Call {
    let mut row = vec![OLD_WORD as i32; room];
    let (mut nets, mut clauses, mut entries, mut place) = (OLD_WORD, OLD_WORD, OLD_SIZE, OLD_SIZE);
    let number = unsafe {
        let (p, length) = (text.as_ptr(), text.len());
        (format.read)(p, length, row.as_mut_ptr(), room, &mut nets, &mut clauses, &mut entries, &mut place)
    };
    let expected = (format.expected)(text, room);
    let (size, numbers) = match &expected {
        Ok(l) => ((l.nets as u32, l.clauses as u32, l.row.len()), l.row.iter().map(|&x| x as i32).collect()),
        Err(_) => ((OLD_WORD, OLD_WORD, OLD_SIZE), vec![]),
    };
    let right = (number, place) == told(&expected)
        && (nets, clauses, entries) == size
        && row == after(&numbers, room, OLD_WORD as i32);
    Call { name: format.names.0, number, right }
}

/// A buffer's content and the bytes written, as they must be after a call.
fn text_after(expected: &Result<String, Refusal>, length: usize) -> (Vec<u8>, usize) {
    match expected {
        Ok(text) => (after(text.as_bytes(), length, OLD), text.len()),
        Err(_) => (vec![OLD; length], OLD_SIZE),
    }
}

fn check_print(list: &ClauseList, row: &[i32], buffer: usize) -> Call {
    let mut text = vec![OLD; buffer];
    let (mut written, mut place) = (OLD_SIZE, OLD_SIZE);
    let number = unsafe {
        let (nets, clauses, p) = (list.nets as u32, list.clauses as u32, row.as_ptr());
        cuddremai_print(nets, clauses, p, row.len(), text.as_mut_ptr(), buffer, &mut written, &mut place)
    };
    let expected = reference::print(list, buffer);
    let right = (number, place) == told(&expected) && (text, written) == text_after(&expected, buffer);
    Call { name: "print", number, right }
}

/// The lead and work rows as closing must leave them.
fn rows_after(list: &ClauseList, limit: u32, rows: Rows, refused: bool) -> (Vec<u32>, Vec<u32>) {
    match reference::close(list, limit as u64, rows) {
        Ok(answer) if !refused => {
            (after(&answer.codes(list.nets), rows.leads, OLD_WORD), after(&[0; 16_384], rows.work, OLD_WORD))
        }
        _ => (vec![OLD_WORD; rows.leads], vec![OLD_WORD; rows.work]),
    }
}

fn summary_of(expected: &Result<reference::Answer, Refusal>) -> [u32; 6] {
    let Ok(a) = expected else { return [OLD_WORD; 6] };
    let verdict = match a.verdict {
        Verdict::Contradiction => 1,
        Verdict::Settled => 2,
        Verdict::Unfinished => 3,
    };
    [verdict, a.rounds as u32, a.ands as u32, a.xors as u32, a.ites as u32, a.groups as u32]
}

fn check_close(list: &ClauseList, row: &[i32], limit: u32, rows: Rows) -> Call {
    let (mut leads, mut work) = (vec![OLD_WORD; rows.leads], vec![OLD_WORD; rows.work]);
    let (mut summary, mut place) = ([OLD_WORD; 6], OLD_SIZE);
    let number = unsafe {
        let (nets, clauses, p, l, w) =
            (list.nets as u32, list.clauses as u32, row.as_ptr(), leads.as_mut_ptr(), work.as_mut_ptr());
        let (n, m) = (rows.leads, rows.work);
        cuddremai_close(nets, clauses, p, row.len(), limit, l, n, w, m, &mut summary, &mut place)
    };
    let expected = reference::close(list, limit as u64, rows);
    let right = (number, place) == told(&expected)
        && summary == summary_of(&expected)
        && (leads, work) == rows_after(list, limit, rows, false);
    let unfinished = number == 0 && summary[0] == 3;
    Call { name: if unfinished { "close, unfinished" } else { "close" }, number, right }
}

/// What a call of the sheet answers and leaves.
struct Sheet {
    told: (u32, usize),
    rows: (Vec<u32>, Vec<u32>),
    text: (Vec<u8>, usize),
}

fn call_sheet(list: &ClauseList, row: &[i32], limit: u32, rows: Rows, buffer: usize) -> Sheet {
    let (mut leads, mut work) = (vec![OLD_WORD; rows.leads], vec![OLD_WORD; rows.work]);
    let mut text = vec![OLD; buffer];
    let (mut written, mut place) = (OLD_SIZE, OLD_SIZE);
    let number = unsafe {
        let (nets, clauses, p, l, w) =
            (list.nets as u32, list.clauses as u32, row.as_ptr(), leads.as_mut_ptr(), work.as_mut_ptr());
        let (n, m, t) = (rows.leads, rows.work, text.as_mut_ptr());
        cuddremai_sheet(nets, clauses, p, row.len(), limit, l, n, w, m, t, buffer, &mut written, &mut place)
    };
    Sheet { told: (number, place), rows: (leads, work), text: (text, written) }
}

fn check_sheet(list: &ClauseList, row: &[i32], limit: u32, rows: Rows, buffer: usize) -> Call {
    let found = call_sheet(list, row, limit, rows, buffer);
    let expected = reference::sheet(list, limit as u64, rows, buffer);
    let right = found.told == told(&expected)
        && found.text == text_after(&expected, buffer)
        && found.rows == rows_after(list, limit, rows, expected.is_err());
    Call { name: "sheet", number: found.told.0, right }
}

/// The sheet of a list as the program would print it, or its refusal, under any round limit.
fn sheet_text(list: &lists::List, limit: u32) -> String {
    let list = clause_list(list);
    let row = entries(&list);
    let rows = Rows { leads: list.nets as usize, work: 16_384 };
    let Sheet { told: (number, place), text: (text, written), .. } = call_sheet(&list, &row, limit, rows, 16_384);
    if number != 0 {
        return format!("refusal,place\n{number},{place}\n");
    }
    String::from_utf8_lossy(&text[..written]).into_owned()
}

fn check_compare(format: &Format, input: &[u8], buffer: usize) -> Call {
    let mut text = vec![OLD; buffer];
    let (mut written, mut place) = (OLD_SIZE, OLD_SIZE);
    let number = unsafe {
        let (p, length) = (input.as_ptr(), input.len());
        (format.compare)(p, length, text.as_mut_ptr(), buffer, &mut written, &mut place)
    };
    let rows = Rows { leads: 1_024, work: 16_384 };
    let expected = (format.expected)(input, usize::MAX).and_then(|l| reference::sheet(&l, l.nets + 1, rows, buffer));
    let right = (number, place) == told(&expected) && (text, written) == text_after(&expected, buffer);
    Call { name: format.names.1, number, right }
}

fn clause_list(list: &lists::List) -> ClauseList {
    let row = list.clauses.iter().flat_map(|c| c.iter().copied().chain([0])).collect();
    ClauseList { nets: list.nets as u64, clauses: list.clauses.len() as u64, row }
}

/// The literal row that is lent.
fn entries(list: &ClauseList) -> Vec<i32> {
    list.row.iter().map(|&x| x as i32).collect()
}

/// A list as a caller may hand it over: mostly sound, sometimes with sizes or entries that do not fit.
fn handed(list: &lists::List, r: &mut Random) -> ClauseList {
    let ClauseList { mut nets, mut clauses, mut row } = clause_list(list);
    if r.once_in(6) {
        nets = r.pick(&[nets + 1, nets.saturating_sub(1), 1_025, u32::MAX as u64]);
    }
    if r.once_in(8) {
        clauses = r.pick(&[clauses + 1, 4_097, u32::MAX as u64]);
    }
    if r.once_in(6) && !row.is_empty() {
        let i = r.below(row.len());
        row[i] = r.pick(&[i32::MIN as i64, i32::MAX as i64, nets as i64 + 1, -(nets as i64), 0]) as i32 as i64;
    }
    if r.once_in(12) {
        row.pop();
    }
    ClauseList { nets, clauses, row }
}

/// Counts the calls; the name of the first that is wrong.
fn first_wrong(calls: &[Call], tally: &mut Tally) -> Option<&'static str> {
    for call in calls {
        *tally.entry(call.name).or_default().entry(call.number).or_default() += 1;
    }
    Some(calls.iter().find(|call| !call.right)?.name)
}

/// All calls for one list; the name of the first that is wrong.
fn fault(list: &ClauseList, text: &[u8], tally: &mut Tally, r: &mut Random) -> Option<String> {
    let row = entries(list);
    let nets = list.nets.min(2_000) as usize;
    let limit = r.pick(&[0, 1, 2, 3, list.nets as u32, list.nets.min(9_999) as u32 + 1, u32::MAX]);
    let rows = Rows {
        leads: r.pick(&[nets, nets, nets + 3, 1_024, nets.saturating_sub(1)]),
        work: r.pick(&[16_384, 16_384, 16_400, 16_383, 0]),
    };
    let printed = reference::print(list, usize::MAX).map_or(0, |t| t.len());
    let buffer = r.pick(&[printed, printed + 9, printed.saturating_sub(1), 70_000]);
    let room = r.pick(&[row.len(), row.len() + 5, row.len().saturating_sub(1), 32_763]);
    let sheet = r.pick(&[16_384, 16_384, 16_383, 20_000]);
    let calls = [
        check_read(&DIMACS, text, room),
        check_print(list, &row, buffer),
        check_close(list, &row, limit, rows),
        check_sheet(list, &row, limit, rows, sheet),
        check_compare(&DIMACS, text, sheet),
    ];
    let wrong = first_wrong(&calls, tally)?;
    Some(format!("{wrong}: row of {room}, buffers of {buffer} and {sheet}, limit {limit}, {rows:?}"))
}

/// A list and a larger one under one limit; what is wrong with their sheets.
fn added_fault(list: &lists::List, cases: &mut Cases, r: &mut Random) -> Option<String> {
    let limit = r.pick(&[0, 1, 2, 3, list.nets as u32, list.nets as u32 + 1]);
    match added::check(&|l| sheet_text(l, limit), list, r) {
        Ok(None) => None,
        Ok(Some(case)) => {
            cases.count(case);
            None
        }
        Err(what) => Some(format!("more clauses part two nets: limit {limit}, {what}")),
    }
}

/// Cases of a list and a larger one that must come.
const MUST: [&str; 4] = [
    "settled, then settled in fewer",
    "settled, then unfinished",
    "settled, then contradiction",
    "contradiction, then contradiction in fewer",
];

/// A design beside its copy under a limit up to its depth, and compared under the bound; what is wrong with the sheets.
fn copies_fault(cases: &mut Cases, r: &mut Random) -> Option<String> {
    let copied = copies::Copied::random(r);
    let (beside, compared) = (copied.beside(r), copied.compared(r));
    let limit = r.between(1, copied.depth());
    if let Err(what) = copies::check_beside(&sheet_text(&beside, limit as u32), &copied, limit) {
        return Some(format!("limit {limit}, {what}{:?}", beside.clauses));
    }
    match copies::check_compared(&sheet_text(&compared, copied.bound as u32), &copied) {
        Ok(case) => {
            cases.count(case);
            None
        }
        Err(what) => Some(format!("{what}{:?}", compared.clauses)),
    }
}

/// Designs beside their copies; how many faults.
fn check_copies(count: usize, r: &mut Random) -> usize {
    let (mut cases, mut faults) = (Cases::default(), 0);
    for what in (0..count).filter_map(|_| copies_fault(&mut cases, r)) {
        faults += 1;
        println!("FAULT (copies): {what}");
    }
    cases.print(copies::TITLE);
    faults + cases.missing(copies::TITLE, &copies::MUST)
}

/// The entries that an AIGER text makes, also if there are too many: the least room for which 4 is not given.
fn entries_made(text: &[u8]) -> usize {
    let (mut low, mut high) = (0, MOST_MADE);
    while low < high {
        let middle = (low + high) / 2;
        match reference::aiger::read(text, middle) {
            Err(Refusal { number: 4, .. }) => low = middle + 1,
            _ => high = middle,
        }
    }
    low
}

/// Both calls for one AIGER text; the name of the first that is wrong.
fn circuit_fault(text: &[u8], tally: &mut Tally, r: &mut Random) -> Option<String> {
    let made = entries_made(text);
    let room = r.pick(&[made, made + 5, made.saturating_sub(1), 0, MOST_MADE]);
    let sheet = r.pick(&[16_384, 16_384, 16_383, 20_000]);
    let wrong = first_wrong(&[check_read(&AIGER, text, room), check_compare(&AIGER, text, sheet)], tally)?;
    Some(format!("{wrong}: row of {room}, buffer of {sheet}"))
}

/// The text for the i-th circuit of a kind.
fn circuit_text(kind: &circuits::Kind, i: usize, r: &mut Random) -> Vec<u8> {
    let circuit = circuits::random_circuit(kind, r);
    match i % 4 {
        0 => circuit_texts::damaged(&circuit, r),
        1 => TurnedAway::random(r).text,
        2 if i % 20 == 2 => circuit_texts::padded(&circuit, r),
        _ => circuit.text(),
    }
}

/// AIGER texts; how many faults.
fn check_circuits(count: usize, tally: &mut Tally, r: &mut Random) -> usize {
    let mut faults = 0;
    let large = circuits::LARGE.iter().map(|k| (k, count / 100 + 4));
    for (kind, many) in circuits::KINDS.iter().map(|k| (k, count)).chain(large) {
        for i in 0..many {
            let text = circuit_text(kind, i, r);
            if let Some(what) = circuit_fault(&text, tally, r) {
                faults += 1;
                println!("FAULT ({}): {what}\n\"{}\"", kind.name, text.escape_ascii());
            }
        }
    }
    faults
}

/// The text for the i-th list of a kind.
fn text_of(list: &lists::List, i: usize, r: &mut Random) -> Vec<u8> {
    match i % 4 {
        0 => texts::damaged(texts::dressed(list, r), r),
        1 => texts::turned_away(r),
        2 if i % 20 == 2 => texts::padded(list, r),
        _ => texts::plain(list),
    }
}

fn main() {
    let args: Vec<String> = std::env::args().collect();
    let count: usize = args.get(1).map_or(1_000, |n| n.parse().expect("a number of lists"));
    let seed: u64 = args.get(2).map_or(1, |n| n.parse().expect("a seed"));
    println!(
        "seed {seed}, {count} lists of each kind, five calls for each, and a larger list; designs beside their copies; \
         {count} circuits of each kind, two calls for each"
    );
    let mut r = Random::new(seed);
    let mut faults = 0;
    let mut compared = 0;
    let mut tally = Tally::new();
    let mut cases = Cases::default();
    for (kind, many) in lists::KINDS.iter().map(|k| (k, count)).chain(large::LARGE.iter().map(|k| (k, count / 100 + 2)))
    {
        for i in 0..many {
            let list = lists::random_list(kind, &mut r);
            let text = text_of(&list, i, &mut r);
            if let Some(what) = added_fault(&list, &mut cases, &mut r) {
                faults += 1;
                println!("FAULT ({}): {what}\n{:?}", kind.name, list.clauses);
            }
            let list = handed(&list, &mut r);
            compared += 1;
            if let Some(what) = fault(&list, &text, &mut tally, &mut r) {
                faults += 1;
                println!("FAULT ({}): {what}\n{list:?}\n\"{}\"", kind.name, text.escape_ascii());
            }
        }
    }
    faults += check_circuits(count, &mut tally, &mut r);
    for (call, numbers) in &tally {
        println!("{call}: {numbers:?}");
    }
    cases.print(added::TITLE);
    faults += cases.missing(added::TITLE, &MUST);
    faults += check_copies(count + 50, &mut r);
    println!("{compared} lists, {faults} faults");
    std::process::exit(if faults == 0 { 0 } else { 1 });
}
