//! ITEs by groups: all that share select and output. A group with n literals for t and m for e holds up to n * m ITEs, so
//! they are counted and compared without being listed, except in small groups.

use super::clauses::Clauses;
use super::gates::Triples;
use super::grouping::Grouping;
use super::keys::{packed, Table};

/// A group of at most this many pairs is matched pair by pair.
const SMALL: usize = 16;

pub struct Group {
    /// Select and output as codes of plain nets.
    pub select: u32,
    pub output: u32,
    /// Sorted literals.
    pub thens: Vec<u32>,
    pub elses: Vec<u32>,
}

pub struct Ites {
    pub groups: Vec<Group>,
    pub count: usize,
}

impl Ites {
    pub fn of(clauses: &Clauses) -> Ites {
        let mut halves = halves(clauses);
        halves.sort_unstable();
        let mut ites = Ites { groups: Vec::new(), count: 0 };
        for run in halves.chunk_by(|a, b| a >> 24 == b >> 24) {
            ites.add(run);
        }
        ites
    }

    /// The halves of one select and output: those for t first, each side sorted.
    fn add(&mut self, run: &[u64]) {
        let (thens, elses) = run.split_at(run.partition_point(|half| half >> 12 & 1 == 0));
        if thens.is_empty() || elses.is_empty() || run.len() == 2 && literal_of(&run[0]) == literal_of(&run[1]) ^ 1 {
            return;
        }
        let literals = |side: &[u64]| side.iter().map(literal_of).collect();
        let (select, output) = ((run[0] >> 36) as u32, (run[0] >> 24 & 4_095) as u32);
        let mut group = Group { select, output, thens: literals(thens), elses: literals(elses) };
        self.count += group.count();
        group.strike_out_single();
        self.groups.push(group);
    }
}

/// A half is select, output, side (0 for t) and literal, twelve bits each.
fn half(condition: u32, output: u32, literal: u32) -> u64 {
    packed(&[condition & !1, output, condition & 1, literal])
}

fn literal_of(half: &u64) -> u32 {
    (half & 4_095) as u32
}

/// Clauses (k, x, y) and (k, not x, not y): where k is false, x is the inverse of y.
fn halves(clauses: &Clauses) -> Vec<u64> {
    let triples = Triples::of(clauses);
    let mut found = Vec::new();
    for c in clauses.iter().filter(|c| c.len() == 3) {
        for (k, x, y) in [(c[0], c[1], c[2]), (c[1], c[0], c[2]), (c[2], c[0], c[1])] {
            let companion = [c[0], c[1], c[2]].map(|code| if code == k { k } else { code ^ 1 });
            if x % 2 == 0 && triples.has(companion) {
                found.push(half(k ^ 1, x, y ^ 1));
                found.push(half(k ^ 1, y & !1, x ^ 1 ^ (y & 1)));
            }
        }
    }
    found
}

/// How many literals of a sorted side make a gate with the literal: all but its inverse.
fn mates(side: &[u32], literal: u32) -> usize {
    side.len() - usize::from(side.binary_search(&(literal ^ 1)).is_ok())
}

impl Group {
    /// Pairs that are not inverses.
    fn count(&self) -> usize {
        self.thens.iter().map(|&t| mates(&self.elses, t)).sum()
    }

    /// Drops literals that no literal of the other side makes a gate with.
    fn strike_out_single(&mut self) {
        let (thens, elses) = (self.thens.clone(), self.elses.clone());
        self.thens.retain(|&t| mates(&elses, t) > 0);
        self.elses.retain(|&e| mates(&thens, e) > 0);
    }

    pub fn nets(&self) -> impl Iterator<Item = u32> + Clone + '_ {
        let sides = self.thens.iter().chain(&self.elses).map(|literal| literal / 2);
        std::iter::once(self.select / 2).chain(sides)
    }

    fn is_small(&self) -> bool {
        self.thens.len() * self.elses.len() <= SMALL
    }
}

/// A side's leads: for each code the literal that has it, or `MANY`.
struct Side {
    epoch: u32,
    seen: Vec<(u32, u32)>,
}

const NONE: u32 = 0;
const MANY: u32 = u32::MAX;

impl Side {
    fn new(nets: usize) -> Side {
        Side { epoch: 0, seen: vec![(0, NONE); 2 * nets + 2] }
    }

    fn fill(&mut self, literals: &[u32], grouping: &Grouping) {
        self.epoch += 1;
        for &literal in literals {
            let place = &mut self.seen[grouping.lead(literal) as usize];
            *place = (self.epoch, if place.0 == self.epoch { MANY } else { literal });
        }
    }

    /// `NONE`, the only literal, or `MANY`.
    fn literal(&self, code: u32) -> u32 {
        let (epoch, literal) = self.seen[code as usize];
        if epoch == self.epoch {
            literal
        } else {
            NONE
        }
    }
}

/// A literal of each side can be chosen so that the two are not inverses.
fn can_mate(a: u32, b: u32) -> bool {
    a != NONE && b != NONE && a != b ^ 1
}

/// Rules 7 and 8, over the groups that a changed lead touches.
pub struct Matching<'a> {
    groups: &'a [Group],
    large: Vec<usize>,
    table: Table<u32>,
    thens: Side,
    elses: Side,
    other_thens: Side,
    other_elses: Side,
}

impl<'a> Matching<'a> {
    pub fn new(ites: &'a Ites, nets: usize) -> Matching<'a> {
        let side = || Side::new(nets);
        Matching {
            groups: &ites.groups,
            large: (0..ites.groups.len()).filter(|&i| !ites.groups[i].is_small()).collect(),
            table: Table::default(),
            thens: side(),
            elses: side(),
            other_thens: side(),
            other_elses: side(),
        }
    }

    pub fn len(&self) -> usize {
        self.groups.len()
    }

    pub fn visit(&mut self, place: usize, grouping: &Grouping, joins: &mut Vec<(u32, u32)>) {
        let group = &self.groups[place];
        let select = grouping.lead(group.select);
        if select < 2 {
            let side = if select == 1 { &group.thens } else { &group.elses };
            joins.extend(side.iter().map(|&literal| (group.output, literal)));
        }
        if group.is_small() {
            self.match_pairs(group, grouping, joins);
        } else {
            self.join_if_sides_meet(group, grouping, joins);
        }
        if select >= 2 {
            self.match_groups(place, grouping, joins);
        }
    }

    fn match_pairs(&mut self, group: &Group, grouping: &Grouping, joins: &mut Vec<(u32, u32)>) {
        let select = grouping.lead(group.select);
        for &then in &group.thens {
            for &other in group.elses.iter().filter(|&&e| e != then ^ 1) {
                let (t, e) = (grouping.lead(then), grouping.lead(other));
                if t == e {
                    joins.push((group.output, t));
                } else if select >= 2 {
                    let (t, e) = if select % 2 == 0 { (t, e) } else { (e, t) };
                    let turn = t & 1;
                    let output = group.output ^ turn;
                    let first = *self.table.entry(packed(&[select & !1, t ^ turn, e ^ turn])).or_insert(output);
                    joins.push((first, output));
                }
            }
        }
    }

    fn join_if_sides_meet(&mut self, group: &Group, grouping: &Grouping, joins: &mut Vec<(u32, u32)>) {
        self.thens.fill(&group.thens, grouping);
        let meet = |e: &u32| self.thens.literal(grouping.lead(*e)) != NONE;
        joins.extend(group.elses.iter().filter(|e| meet(e)).map(|&e| (group.output, e)));
    }

    /// A large group with every one of the same select (with itself too: its output can be its own inverse), a small one
    /// with the large ones.
    fn match_groups(&mut self, place: usize, grouping: &Grouping, joins: &mut Vec<(u32, u32)>) {
        let group = &self.groups[place];
        if self.large.is_empty() {
            return;
        }
        self.thens.fill(&group.thens, grouping);
        self.elses.fill(&group.elses, grouping);
        let all: Vec<usize> = (0..self.groups.len()).collect();
        let others = if group.is_small() { self.large.clone() } else { all };
        let select = grouping.lead(group.select);
        for other in others.into_iter().map(|o| &self.groups[o]) {
            let other_select = grouping.lead(other.select);
            if other_select / 2 != select / 2 {
                continue;
            }
            let crossed = other_select != select;
            for turn in [0, 1] {
                let joined = grouping.lead(group.output) == grouping.lead(other.output ^ turn);
                if !joined && self.meets(other, crossed, turn, grouping) {
                    joins.push((group.output, other.output ^ turn));
                }
            }
        }
    }

    /// Some ITE of the group whose sides are filled in has the leads of one of the other group.
    fn meets(&mut self, other: &Group, crossed: bool, turn: u32, grouping: &Grouping) -> bool {
        let (thens, elses) = if crossed { (&other.elses, &other.thens) } else { (&other.thens, &other.elses) };
        let shared = |literals: &[u32], side: &Side| -> Vec<u32> {
            let leads = literals.iter().map(|&literal| grouping.lead(literal) ^ turn);
            leads.filter(|&lead| side.literal(lead) != NONE).collect()
        };
        let (ts, es) = (shared(thens, &self.thens), shared(elses, &self.elses));
        let Some(&first) = ts.first() else { return false };
        if es.is_empty() {
            return false;
        }
        if ts.iter().chain(&es).any(|lead| lead / 2 != first / 2) {
            return true;
        }
        self.other_thens.fill(thens, grouping);
        self.other_elses.fill(elses, grouping);
        let inverse = |&t: &u32| {
            let own = can_mate(self.thens.literal(t), self.elses.literal(t ^ 1));
            own && can_mate(self.other_thens.literal(t ^ turn), self.other_elses.literal(t ^ 1 ^ turn))
        };
        ts.iter().any(inverse)
    }
}
