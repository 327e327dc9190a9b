//! Cuddremai for Rust: safe functions over slices. Link `libcuddremai_c.a`, which `rt lib` in crates/cuddremai_c writes (x86-64
//! Linux). Every function takes every input and always ends; a refusal leaves everything lent as it was.

mod c {
    extern "C" {
        pub fn cuddremai_read(
            text: *const u8, text_length: usize, row: *mut i32, row_length: usize, nets: *mut u32, clauses: *mut u32,
            entries: *mut usize, place: *mut usize,
        ) -> u32;
        pub fn cuddremai_read_aiger(
            text: *const u8, text_length: usize, row: *mut i32, row_length: usize, nets: *mut u32, clauses: *mut u32,
            entries: *mut usize, place: *mut usize,
        ) -> u32;
        pub fn cuddremai_print(
            nets: u32, clauses: u32, row: *const i32, row_length: usize, text: *mut u8, text_length: usize,
            written: *mut usize, place: *mut usize,
        ) -> u32;
        pub fn cuddremai_close(
            nets: u32, clauses: u32, row: *const i32, row_length: usize, limit: u32, leads: *mut u32, leads_length: usize,
            work: *mut u32, work_length: usize, summary: *mut u32, place: *mut usize,
        ) -> u32;
        pub fn cuddremai_sheet(
            nets: u32, clauses: u32, row: *const i32, row_length: usize, limit: u32, leads: *mut u32, leads_length: usize,
            work: *mut u32, work_length: usize, text: *mut u8, text_length: usize, written: *mut usize, place: *mut usize,
        ) -> u32;
        pub fn cuddremai_compare(
            input: *const u8, input_length: usize, text: *mut u8, text_length: usize, written: *mut usize, place: *mut usize,
        ) -> u32;
        pub fn cuddremai_compare_aiger(
            input: *const u8, input_length: usize, text: *mut u8, text_length: usize, written: *mut usize, place: *mut usize,
        ) -> u32;
    }
}

/// Entries of a literal row that holds the numbers of any DIMACS text.
pub const ROW: usize = 32_763;
/// Entries of a literal row that holds those that any AIGER text makes.
pub const AIGER_ROW: usize = 109_222;
/// Entries that the work row must have.
pub const WORK: usize = 16_384;
/// Bytes that the buffer of a sheet must have.
pub const SHEET: usize = 16_384;
/// Bytes of the longest text.
pub const MAX_TEXT: usize = 65_536;
/// Nets of the largest list.
pub const MAX_NETS: usize = 1_024;

/// Why a list is turned away: its number in docs/REFUSALS.md, and the place.
#[derive(Clone, Copy, Debug, PartialEq, Eq)]
pub struct Refusal {
    pub number: u32,
    pub place: usize,
}

/// V, C and the number of entries of a list.
#[derive(Clone, Copy, Debug, PartialEq, Eq)]
pub struct ListSize {
    pub nets: u32,
    pub clauses: u32,
    pub entries: usize,
}

#[derive(Clone, Copy, Debug, PartialEq, Eq)]
pub enum Verdict {
    Contradiction,
    Settled,
    Unfinished,
}

/// How closing ends, the numbers of gates, and the groups left.
#[derive(Clone, Copy, Debug, PartialEq, Eq)]
pub struct Summary {
    pub verdict: Verdict,
    pub rounds: u32,
    pub ands: u32,
    pub xors: u32,
    pub ites: u32,
    pub groups: u32,
}

fn answer<T>(number: u32, place: usize, value: T) -> Result<T, Refusal> {
    if number == 0 {
        Ok(value)
    } else {
        Err(Refusal { number, place })
    }
}

/// Reads a DIMACS text: its numbers go to the start of the row.
pub fn read(text: &[u8], row: &mut [i32]) -> Result<ListSize, Refusal> {
    let (mut nets, mut clauses, mut entries, mut place) = (0, 0, 0, 0);
    // SAFETY: slices are valid for their lengths, and exclusive where they are written; so are the locals.
    let number = unsafe {
        c::cuddremai_read(
            text.as_ptr(), text.len(), row.as_mut_ptr(), row.len(), &mut nets, &mut clauses, &mut entries, &mut place,
        )
    };
    answer(number, place, ListSize { nets, clauses, entries })
}

/// Reads an ASCII AIGER text: the entries of its circuit's clauses go to the start of the row. V is M.
pub fn read_aiger(text: &[u8], row: &mut [i32]) -> Result<ListSize, Refusal> {
    let (mut nets, mut clauses, mut entries, mut place) = (0, 0, 0, 0);
    // SAFETY: as in `read`.
    let number = unsafe {
        c::cuddremai_read_aiger(
            text.as_ptr(), text.len(), row.as_mut_ptr(), row.len(), &mut nets, &mut clauses, &mut entries, &mut place,
        )
    };
    answer(number, place, ListSize { nets, clauses, entries })
}

/// Writes the list's DIMACS text at the buffer's start; how many bytes it has.
pub fn print(nets: u32, clauses: u32, row: &[i32], text: &mut [u8]) -> Result<usize, Refusal> {
    let (mut written, mut place) = (0, 0);
    // SAFETY: as in `read`.
    let number = unsafe {
        c::cuddremai_print(
            nets, clauses, row.as_ptr(), row.len(), text.as_mut_ptr(), text.len(), &mut written, &mut place,
        )
    };
    answer(number, place, written)
}

/// Closes the list under a round limit: the lead of net v goes to entry v - 1 of the lead row.
pub fn close(
    nets: u32,
    clauses: u32,
    row: &[i32],
    limit: u32,
    leads: &mut [u32],
    work: &mut [u32],
) -> Result<Summary, Refusal> {
    let (mut s, mut place) = ([0u32; 6], 0);
    // SAFETY: as in `read`; the summary has six numbers.
    let number = unsafe {
        c::cuddremai_close(
            nets, clauses, row.as_ptr(), row.len(), limit, leads.as_mut_ptr(), leads.len(), work.as_mut_ptr(), work.len(),
            s.as_mut_ptr(), &mut place,
        )
    };
    let verdict = match s[0] {
        1 => Verdict::Contradiction,
        2 => Verdict::Settled,
        _ => Verdict::Unfinished,
    };
    answer(number, place, Summary { verdict, rounds: s[1], ands: s[2], xors: s[3], ites: s[4], groups: s[5] })
}

/// Closes the list and writes its sheet at the buffer's start; how many bytes it has.
pub fn sheet(
    nets: u32,
    clauses: u32,
    row: &[i32],
    limit: u32,
    leads: &mut [u32],
    work: &mut [u32],
    text: &mut [u8],
) -> Result<usize, Refusal> {
    let (mut written, mut place) = (0, 0);
    // SAFETY: as in `read`.
    let number = unsafe {
        c::cuddremai_sheet(
            nets, clauses, row.as_ptr(), row.len(), limit, leads.as_mut_ptr(), leads.len(), work.as_mut_ptr(), work.len(),
            text.as_mut_ptr(), text.len(), &mut written, &mut place,
        )
    };
    answer(number, place, written)
}

/// From a DIMACS text to its sheet under round limit V + 1, at the buffer's start; how many bytes it has.
pub fn compare(input: &[u8], text: &mut [u8]) -> Result<usize, Refusal> {
    let (mut written, mut place) = (0, 0);
    // SAFETY: as in `read`.
    let number = unsafe {
        c::cuddremai_compare(
            input.as_ptr(), input.len(), text.as_mut_ptr(), text.len(), &mut written, &mut place,
        )
    };
    answer(number, place, written)
}

/// From an ASCII AIGER text to its sheet, likewise.
pub fn compare_aiger(input: &[u8], text: &mut [u8]) -> Result<usize, Refusal> {
    let (mut written, mut place) = (0, 0);
    // SAFETY: as in `read`.
    let number = unsafe {
        c::cuddremai_compare_aiger(
            input.as_ptr(), input.len(), text.as_mut_ptr(), text.len(), &mut written, &mut place,
        )
    };
    answer(number, place, written)
}
