//! A reference for the comparison sheet, written from the texts of document 01 and, for ITEs and AIGER, document 02, and
//! nothing else: naive, and in document 01's order. It shares no code and no definition with the product.

pub mod aiger;

use std::collections::{BTreeMap, BTreeSet, HashMap, HashSet};

/// Entries that the program lends for reading: no text of 65,536 bytes has more numbers.
const PROGRAM_ROW: usize = 32_763;

/// A literal: net v is v, its inverse -v. The constants are T and its inverse F.
pub type Literal = i64;
pub const T: Literal = i64::MAX;
pub const F: Literal = -T;

#[derive(Clone, Debug, PartialEq, Eq)]
pub struct Refusal {
    pub number: u32,
    pub place: usize,
}

fn refuse<A>(number: u32, place: usize) -> Result<A, Refusal> {
    Err(Refusal { number, place })
}

#[derive(Clone, Debug, PartialEq, Eq)]
pub struct ClauseList {
    pub nets: u64,
    pub clauses: u64,
    pub row: Vec<i64>,
}

// What comes in

fn is_blank(b: u8) -> bool {
    b == b' ' || b == b'\t' || b == b'\r' || b == b'\n'
}

/// A number without a minus: `0`, or 1 to 9 digits of which the first is not 0.
fn unsigned(word: &[u8]) -> Option<u64> {
    if word.is_empty() || word.len() > 9 || !word.iter().all(|b| b.is_ascii_digit()) {
        return None;
    }
    if word[0] == b'0' && word.len() > 1 {
        return None;
    }
    std::str::from_utf8(word).ok()?.parse().ok()
}

fn number(word: &[u8]) -> Option<i64> {
    if let Some(rest) = word.strip_prefix(b"-") {
        return match unsigned(rest) {
            Some(0) | None => None,
            Some(n) => Some(-(n as i64)),
        };
    }
    unsigned(word).map(|n| n as i64)
}

/// V and C of a header line.
fn header(line: &[u8]) -> Option<(u64, u64)> {
    let end = line.iter().rposition(|&b| !is_blank(b))? + 1;
    let line = &line[..end];
    if line[0] != b'p' {
        return None;
    }
    let words: Vec<&[u8]> = line.split(|&b| b == b' ' || b == b'\t').filter(|w| !w.is_empty()).collect();
    if words.len() != 4 || words[0] != b"p" || words[1] != b"cnf" {
        return None;
    }
    Some((unsigned(words[2])?, unsigned(words[3])?))
}

/// Reads a text into a row that has room for the given number of entries.
pub fn read(text: &[u8], room: usize) -> Result<ClauseList, Refusal> {
    if text.len() > 65_536 {
        return refuse(1, 0);
    }
    let mut sizes = None;
    let mut row = Vec::new();
    let mut start = 0;
    while start < text.len() {
        let length = text[start..].iter().position(|&b| b == b'\n').unwrap_or(text.len() - start);
        let line = &text[start..start + length];
        if !line.starts_with(b"c") {
            if sizes.is_some() {
                read_words(line, start, &mut row)?;
            } else if !line.iter().all(|&b| is_blank(b)) {
                sizes = match header(line) {
                    Some(s) => Some(s),
                    None => return refuse(2, start),
                };
            }
        }
        start += length + 1;
    }
    let Some((nets, clauses)) = sizes else {
        return refuse(2, text.len());
    };
    if room < row.len() {
        return refuse(4, 0);
    }
    let list = ClauseList { nets, clauses, row };
    test_list(&list)?;
    Ok(list)
}

fn read_words(line: &[u8], start: usize, row: &mut Vec<i64>) -> Result<(), Refusal> {
    let mut at = 0;
    while at < line.len() {
        if is_blank(line[at]) {
            at += 1;
            continue;
        }
        let length = line[at..].iter().position(|&b| is_blank(b)).unwrap_or(line.len() - at);
        match number(&line[at..at + length]) {
            Some(n) => row.push(n),
            None => return refuse(3, start + at),
        }
        at += length;
    }
    Ok(())
}

// Turned away at the desk

/// How much room the caller lends to closing and to the sheet.
#[derive(Clone, Copy, Debug)]
pub struct Rows {
    pub leads: usize,
    pub work: usize,
}

fn test_list(list: &ClauseList) -> Result<(), Refusal> {
    test_sizes(list)?;
    test_entries(list)
}

fn test_closing(list: &ClauseList, rows: Rows) -> Result<(), Refusal> {
    test_sizes(list)?;
    if (rows.leads as u64) < list.nets {
        return refuse(8, 0);
    }
    if rows.work < 16_384 {
        return refuse(9, 0);
    }
    test_entries(list)
}

fn test_sizes(list: &ClauseList) -> Result<(), Refusal> {
    if list.nets > 1_024 {
        return refuse(5, 0);
    }
    if list.clauses > 4_096 {
        return refuse(6, 0);
    }
    if list.row.len() > 16_384 {
        return refuse(7, 0);
    }
    Ok(())
}

fn test_entries(list: &ClauseList) -> Result<(), Refusal> {
    if let Some(i) = list.row.iter().position(|x| x.unsigned_abs() > list.nets) {
        return refuse(10, i);
    }
    if list.row.last().is_some_and(|&x| x != 0) {
        return refuse(11, 0);
    }
    if list.row.iter().filter(|&&x| x == 0).count() as u64 != list.clauses {
        return refuse(12, 0);
    }
    Ok(())
}

/// The DIMACS text of a list, into a buffer of the given length.
pub fn print(list: &ClauseList, buffer: usize) -> Result<String, Refusal> {
    test_list(list)?;
    let mut text = format!("p cnf {} {}\n", list.nets, list.clauses);
    for &x in &list.row {
        if x == 0 {
            text.push_str("0\n");
        } else {
            text.push_str(&format!("{x} "));
        }
    }
    if text.len() > buffer || text.len() > 65_536 {
        return refuse(13, 0);
    }
    Ok(text)
}

// Gates found in the list

type Clause = BTreeSet<Literal>;

/// The clauses as sets, ignored ones aside, each once.
fn clause_sets(row: &[i64]) -> BTreeSet<Clause> {
    let mut sets = BTreeSet::new();
    let mut clause = Clause::new();
    for &x in row {
        if x != 0 {
            clause.insert(x);
            continue;
        }
        let done = std::mem::take(&mut clause);
        if !done.iter().any(|&l| done.contains(&-l)) {
            sets.insert(done);
        }
    }
    sets
}

struct And {
    output: Literal,
    inputs: Vec<Literal>,
}

struct Xor {
    nets: Vec<Literal>,
    odd: bool,
}

struct Ite {
    output: Literal,
    select: Literal,
    on: Literal,
    off: Literal,
}

struct Gates {
    clauses: BTreeSet<Clause>,
    present: HashSet<Vec<Literal>>,
    ands: Vec<And>,
    xors: Vec<Xor>,
    /// with output and select written as plain nets
    ites: Vec<Ite>,
}

fn is_present(present: &HashSet<Vec<Literal>>, literals: &[Literal]) -> bool {
    let mut clause = literals.to_vec();
    clause.sort_unstable();
    clause.dedup();
    present.contains(&clause)
}

fn find_gates(row: &[i64]) -> Gates {
    let clauses = clause_sets(row);
    let present: HashSet<Vec<Literal>> = clauses.iter().map(|c| c.iter().copied().collect()).collect();
    let mut ands = Vec::new();
    for clause in clauses.iter().filter(|c| c.len() >= 3) {
        for &output in clause {
            let inputs: Vec<Literal> = clause.iter().filter(|&&k| k != output).map(|k| -k).collect();
            if inputs.iter().all(|&r| is_present(&present, &[-output, r])) {
                ands.push(And { output, inputs });
            }
        }
    }
    let xors = find_xors(&clauses, &present);
    let ites = find_ites(&clauses, &present);
    Gates { clauses, present, ands, xors, ites }
}

fn find_xors(clauses: &BTreeSet<Clause>, present: &HashSet<Vec<Literal>>) -> Vec<Xor> {
    let net_sets: BTreeSet<Vec<Literal>> = clauses
        .iter()
        .filter(|c| (3..=5).contains(&c.len()))
        .map(|c| {
            let mut nets: Vec<Literal> = c.iter().map(|l| l.abs()).collect();
            nets.sort_unstable();
            nets
        })
        .collect();
    let mut xors = Vec::new();
    for nets in net_sets {
        for odd in [true, false] {
            let all = (0u32..1 << nets.len()).filter(|signs| (signs.count_ones() % 2 == 0) == odd).all(|signs| {
                let clause: Vec<Literal> =
                    nets.iter().enumerate().map(|(i, &n)| if signs >> i & 1 == 1 { -n } else { n }).collect();
                is_present(present, &clause)
            });
            if all {
                xors.push(Xor { nets: nets.clone(), odd });
            }
        }
    }
    xors
}

/// For a select literal c and a plain output l: every t with (-c, -l, t) and (-c, l, -t) present.
fn sides(
    clauses: &BTreeSet<Clause>,
    present: &HashSet<Vec<Literal>>,
) -> BTreeMap<(Literal, Literal), BTreeSet<Literal>> {
    let mut sides: BTreeMap<(Literal, Literal), BTreeSet<Literal>> = BTreeMap::new();
    for clause in clauses.iter().filter(|c| c.len() == 3) {
        for &x in clause {
            for &y in clause.iter().filter(|&&y| y != x && y < 0) {
                let t = *clause.iter().find(|&&z| z != x && z != y).unwrap();
                let (c, l) = (-x, -y);
                if is_present(present, &[-c, l, -t]) {
                    sides.entry((c, l)).or_default().insert(t);
                }
            }
        }
    }
    sides
}

/// c, l and t are three different nets, and e is the same literal as t or on a fourth net.
fn is_ite(output: Literal, select: Literal, on: Literal, off: Literal) -> bool {
    let nets = |literals: &[Literal]| literals.iter().map(|x| x.abs()).collect::<BTreeSet<_>>().len();
    nets(&[output, select, on]) == 3 && (off == on || nets(&[output, select, on, off]) == 4)
}

fn find_ites(clauses: &BTreeSet<Clause>, present: &HashSet<Vec<Literal>>) -> Vec<Ite> {
    let sides = sides(clauses, present);
    let mut ites = Vec::new();
    for (&(select, output), ons) in sides.iter().filter(|((c, _), _)| *c > 0) {
        let Some(offs) = sides.get(&(-select, output)) else { continue };
        for &on in ons {
            for &off in offs {
                if is_ite(output, select, on, off) {
                    ites.push(Ite { output, select, on, off });
                }
            }
        }
    }
    ites
}

// How nets are joined

/// The lead of each net, or everything joined.
#[derive(Clone, Debug, PartialEq, Eq)]
enum Grouping {
    Leads(Vec<Literal>),
    Everything,
}

fn lead(leads: &[Literal], x: Literal) -> Literal {
    if x == T || x == F {
        x
    } else if x > 0 {
        leads[x as usize]
    } else {
        -leads[(-x) as usize]
    }
}

/// The net that leads first: a constant, else the lowest number.
fn rank(x: Literal) -> Literal {
    if x == T || x == F {
        0
    } else {
        x.abs()
    }
}

fn join(grouping: Grouping, a: Literal, b: Literal) -> Grouping {
    let Grouping::Leads(mut leads) = grouping else { return Grouping::Everything };
    let (x, y) = (lead(&leads, a), lead(&leads, b));
    if x == y {
        return Grouping::Leads(leads);
    }
    if x == -y {
        return Grouping::Everything;
    }
    let (low, high) = if rank(x) < rank(y) { (x, y) } else { (y, x) };
    for entry in leads.iter_mut().skip(1) {
        if *entry == high {
            *entry = low;
        } else if *entry == -high {
            *entry = -low;
        }
    }
    Grouping::Leads(leads)
}

/// The parity to which a bag of literals cancels: true if the literals sum to odd.
fn cancels(leads: &[Literal], bag: &[Literal]) -> Option<bool> {
    let mut odd = false;
    let mut left: Vec<Literal> = Vec::new();
    for &x in bag {
        let l = lead(leads, x);
        odd ^= l == T || (l < 0 && l != F);
        if l == T || l == F {
            continue;
        }
        match left.iter().position(|&n| n == l.abs()) {
            Some(i) => drop(left.swap_remove(i)),
            None => left.push(l.abs()),
        }
    }
    left.is_empty().then_some(odd)
}

fn without(nets: &[Literal], skip: &[usize]) -> Vec<Literal> {
    nets.iter().enumerate().filter(|(i, _)| !skip.contains(i)).map(|(_, &n)| n).collect()
}

fn turned(odd: bool, x: Literal) -> Literal {
    if odd {
        -x
    } else {
        x
    }
}

fn conclusions(gates: &Gates, leads: &[Literal]) -> Vec<(Literal, Literal)> {
    let mut pairs = Vec::new();
    by_clauses(gates, leads, &mut pairs);
    by_ands(gates, leads, &mut pairs);
    by_xors(gates, leads, &mut pairs);
    by_ites(gates, leads, &mut pairs);
    pairs
}

/// Rules 1 and 2.
fn by_clauses(gates: &Gates, leads: &[Literal], pairs: &mut Vec<(Literal, Literal)>) {
    for clause in &gates.clauses {
        if clause.is_empty() {
            pairs.push((T, F));
        }
        for &k in clause {
            if clause.iter().all(|&x| x == k || lead(leads, x) == F) {
                pairs.push((k, T));
            }
        }
        if clause.len() == 2 {
            let two: Vec<Literal> = clause.iter().copied().collect();
            if is_present(&gates.present, &[-two[0], -two[1]]) {
                pairs.push((two[0], -two[1]));
            }
        }
    }
}

/// Rules 3 and 4.
fn by_ands(gates: &Gates, leads: &[Literal], pairs: &mut Vec<(Literal, Literal)>) {
    for gate in &gates.ands {
        let inputs: BTreeSet<Literal> = gate.inputs.iter().map(|&r| lead(leads, r)).collect();
        if inputs.contains(&F) || inputs.iter().any(|x| inputs.contains(&-x)) {
            pairs.push((gate.output, F));
        }
        for &r in &gate.inputs {
            let x = lead(leads, r);
            if inputs.iter().all(|&y| y == T || y == x) {
                pairs.push((gate.output, r));
            }
        }
    }
    by_and_pairs(gates, leads, pairs);
}

/// Rule 4: of each AND the different leads of its inputs other than T must be those of the other.
fn by_and_pairs(gates: &Gates, leads: &[Literal], pairs: &mut Vec<(Literal, Literal)>) {
    let inputs_of = |gate: &And| -> Vec<Literal> {
        let inputs: BTreeSet<Literal> = gate.inputs.iter().map(|&r| lead(leads, r)).filter(|&x| x != T).collect();
        inputs.into_iter().collect()
    };
    let inputs: Vec<Vec<Literal>> = gates.ands.iter().map(inputs_of).collect();
    for (i, g) in gates.ands.iter().enumerate() {
        for (j, h) in gates.ands.iter().enumerate().skip(i + 1) {
            if inputs[i] == inputs[j] {
                pairs.push((g.output, h.output));
            }
        }
    }
}

/// Rules 5 and 6.
fn by_xors(gates: &Gates, leads: &[Literal], pairs: &mut Vec<(Literal, Literal)>) {
    for (i, g) in gates.xors.iter().enumerate() {
        for k in 0..g.nets.len() {
            if let Some(p) = cancels(leads, &without(&g.nets, &[k])) {
                pairs.push((g.nets[k], if g.odd != p { T } else { F }));
            }
            for m in k + 1..g.nets.len() {
                if let Some(p) = cancels(leads, &without(&g.nets, &[k, m])) {
                    pairs.push((g.nets[k], turned(g.odd != p, g.nets[m])));
                }
            }
        }
        for h in &gates.xors[i + 1..] {
            by_xor_pair(g, h, leads, pairs);
        }
    }
}

/// Rule 6.
fn by_xor_pair(g: &Xor, h: &Xor, leads: &[Literal], pairs: &mut Vec<(Literal, Literal)>) {
    for k in 0..g.nets.len() {
        for m in 0..h.nets.len() {
            let mut bag = without(&g.nets, &[k]);
            bag.extend(without(&h.nets, &[m]));
            if let Some(p) = cancels(leads, &bag) {
                pairs.push((g.nets[k], turned((g.odd != h.odd) != p, h.nets[m])));
            }
        }
    }
}

/// Rule 7.
fn by_ites(gates: &Gates, leads: &[Literal], pairs: &mut Vec<(Literal, Literal)>) {
    for g in &gates.ites {
        let c = lead(leads, g.select);
        if c == T {
            pairs.push((g.output, g.on));
        }
        if c == F {
            pairs.push((g.output, g.off));
        }
        if lead(leads, g.on) == lead(leads, g.off) {
            pairs.push((g.output, g.on));
        }
    }
    by_ite_pairs(gates, leads, pairs);
}

/// Rule 8: every gate in its four writings, those with the same leads of c, t and e together. Going through all
/// pairs would not end: a list can have over a million ITEs.
fn by_ite_pairs(gates: &Gates, leads: &[Literal], pairs: &mut Vec<(Literal, Literal)>) {
    let mut by_pins: HashMap<(Literal, Literal, Literal), Literal> = HashMap::new();
    for g in &gates.ites {
        for (c, t, e) in [(g.select, g.on, g.off), (-g.select, g.off, g.on)] {
            for inverted in [false, true] {
                let pins = (lead(leads, c), lead(leads, turned(inverted, t)), lead(leads, turned(inverted, e)));
                let output = turned(inverted, g.output);
                let first = *by_pins.entry(pins).or_insert(output);
                pairs.push((output, first));
            }
        }
    }
}

// Verdicts and leads

#[derive(Clone, Copy, Debug, PartialEq, Eq)]
pub enum Verdict {
    Contradiction,
    Settled,
    Unfinished,
}

#[derive(Clone, Debug, PartialEq, Eq)]
pub struct Answer {
    pub verdict: Verdict,
    pub rounds: u64,
    pub ands: usize,
    pub xors: usize,
    pub ites: usize,
    pub groups: usize,
    /// entry v - 1 for net v; none on contradiction
    pub leads: Vec<Literal>,
}

impl Answer {
    /// The first V codes of the lead row.
    pub fn codes(&self, nets: u64) -> Vec<u32> {
        if self.verdict == Verdict::Contradiction {
            return vec![u32::MAX; nets as usize];
        }
        self.leads.iter().map(|&x| code(x)).collect()
    }
}

fn code(x: Literal) -> u32 {
    match x {
        F => 0,
        T => 1,
        _ => 2 * x.unsigned_abs() as u32 + u32::from(x < 0),
    }
}

/// Closing with the rows that a caller lends. Refusal 14 is never met: no list makes more than V + 1 rounds.
pub fn close(list: &ClauseList, limit: u64, rows: Rows) -> Result<Answer, Refusal> {
    test_closing(list, rows)?;
    Ok(closed(list, limit))
}

/// The answer for an accepted list.
fn closed(list: &ClauseList, limit: u64) -> Answer {
    let gates = find_gates(&list.row);
    let mut leads: Vec<Literal> = (0..=list.nets as Literal).collect();
    let mut rounds = 0;
    let verdict = loop {
        let mut next = Grouping::Leads(leads.clone());
        for (a, b) in conclusions(&gates, &leads) {
            next = join(next, a, b);
        }
        match next {
            Grouping::Leads(next) if next == leads => break Verdict::Settled,
            _ if rounds == limit => break Verdict::Unfinished,
            Grouping::Everything => {
                rounds += 1;
                break Verdict::Contradiction;
            }
            Grouping::Leads(next) => {
                rounds += 1;
                leads = next;
            }
        }
    };
    let contradiction = verdict == Verdict::Contradiction;
    let groups = (1..leads.len()).filter(|&v| leads[v] == v as Literal).count();
    Answer {
        verdict,
        rounds,
        ands: gates.ands.len(),
        xors: gates.xors.len(),
        ites: gates.ites.len(),
        groups: if contradiction { 0 } else { groups },
        leads: if contradiction { Vec::new() } else { leads.split_off(1) },
    }
}

// The sheet

fn lead_text(x: Literal) -> String {
    match x {
        T => "T".to_string(),
        F => "F".to_string(),
        _ => x.to_string(),
    }
}

/// The sheet with the rows and the text buffer that a caller lends.
pub fn sheet(list: &ClauseList, limit: u64, rows: Rows, buffer: usize) -> Result<String, Refusal> {
    test_closing(list, rows)?;
    if buffer < 16_384 {
        return refuse(13, 0);
    }
    Ok(sheet_text(list.nets, &closed(list, limit)))
}

/// The sheet of an answer for a list of the given number of nets.
fn sheet_text(nets: u64, a: &Answer) -> String {
    let verdict = match a.verdict {
        Verdict::Contradiction => "contradiction",
        Verdict::Settled => "settled",
        Verdict::Unfinished => "unfinished",
    };
    let mut text = String::from("verdict,rounds,variables,ands,xors,ites,groups\n");
    text.push_str(&format!("{verdict},{},{nets},{},{},{},{}\n", a.rounds, a.ands, a.xors, a.ites, a.groups));
    if a.verdict != Verdict::Contradiction {
        text.push_str("net,lead\n");
        for (i, &x) in a.leads.iter().enumerate() {
            text.push_str(&format!("{},{}\n", i + 1, lead_text(x)));
        }
    }
    text
}

pub fn refusal_text(r: &Refusal) -> String {
    format!("refusal,place\n{},{}\n", r.number, r.place)
}

/// The sheet of what was read, or the refusal.
fn answer(list: Result<ClauseList, Refusal>) -> String {
    match list {
        Ok(list) => sheet_text(list.nets, &closed(&list, list.nets + 1)),
        Err(r) => refusal_text(&r),
    }
}

/// What the program prints for a text.
pub fn answer_text(text: &[u8]) -> String {
    answer(read(text, PROGRAM_ROW))
}
