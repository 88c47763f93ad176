//! Potential access and the bound, in two ways: the library's saturation by whole rows, and a
//! worklist of single facts "x has this right over y". The test's refusals are counted too.

use std::collections::BTreeMap;

use yavrinks_model::access::potential_access;
use yavrinks_model::confinement::{confinement_test, Tested};
use yavrinks_model::set;
use yavrinks_model::table::{Capability, Record, Table, ALL_RIGHTS};
use yavrinks_tools::generate::{
    any_sound_table, confinement_case, without_makers, ConfinementCase, CONFINEMENT_NUMBERS,
};
use yavrinks_tools::rng::Rng;
use yavrinks_tools::vectors::{test_cases, test_reach, test_rounds};

const POINTS: usize = 65;
const STAND_IN: usize = 64;

/// The four rights as positions of their bits.
const RD: usize = 0;
const WR: usize = 1;
const WK: usize = 2;
const TX: usize = 3;

/// Facts "x has right r over y", and those whose consequences are still to be drawn.
struct Facts {
    known: Vec<[[bool; POINTS]; 4]>,
    worklist: Vec<(usize, usize, usize)>,
}

impl Facts {
    fn new() -> Facts {
        Facts {
            known: vec![[[false; POINTS]; 4]; POINTS],
            worklist: Vec::new(),
        }
    }

    fn has(&self, x: usize, r: usize, y: usize) -> bool {
        self.known[x][r][y]
    }

    fn learn(&mut self, x: usize, r: usize, y: usize) {
        if !self.known[x][r][y] {
            self.known[x][r][y] = true;
            self.worklist.push((x, r, y));
        }
    }

    fn learn_rights(&mut self, x: usize, rights: u8, y: usize) {
        for r in (0..4).filter(|r| rights >> r & 1 == 1) {
            self.learn(x, r, y);
        }
    }

    fn close(&mut self) {
        while let Some((x, r, y)) = self.worklist.pop() {
            self.use_as_first(x, r, y);
            self.use_as_second(x, r, y);
        }
    }

    /// The fact as the first condition of each rule.
    fn use_as_first(&mut self, x: usize, r: usize, y: usize) {
        for z in 0..POINTS {
            for q in 0..4 {
                if r == RD && self.has(y, q, z) {
                    self.learn(x, q, z);
                }
                if r == WK && (q == RD || q == WK) && self.has(y, q, z) {
                    self.learn(x, WK, z);
                }
                if (r == WR || r == TX) && self.has(x, q, z) {
                    self.learn(y, q, z);
                }
            }
        }
    }

    /// The fact as the second condition of each rule.
    fn use_as_second(&mut self, x: usize, r: usize, y: usize) {
        for other in 0..POINTS {
            if self.has(other, RD, x) {
                self.learn(other, r, y);
            }
            if self.has(other, WK, x) && (r == RD || r == WK) {
                self.learn(other, WK, y);
            }
            if self.has(x, WR, other) || self.has(x, TX, other) {
                self.learn(other, r, y);
            }
        }
    }

    fn rights(&self, x: usize, y: usize) -> u8 {
        (0..4).fold(0, |sum, r| sum | u8::from(self.has(x, r, y)) << r)
    }

    fn influences(&self, x: usize, y: usize) -> bool {
        self.has(x, WR, y) || self.has(x, TX, y) || self.has(y, RD, x) || self.has(y, WK, x)
    }

    /// For every x, the points reached by one or more steps of influence (Warshall's method).
    fn reach(&self) -> Vec<[bool; POINTS]> {
        let mut reach = vec![[false; POINTS]; POINTS];
        for (x, row) in reach.iter_mut().enumerate() {
            for (y, reached) in row.iter_mut().enumerate() {
                *reached = self.influences(x, y);
            }
        }
        for middle in 0..POINTS {
            let from_middle = reach[middle];
            for row in reach.iter_mut().filter(|row| row[middle]) {
                for (reached, more) in row.iter_mut().zip(from_middle) {
                    *reached |= more;
                }
            }
        }
        reach
    }
}

/// The closed facts about the numbers for which `taken` holds.
fn facts_of(table: &Table, taken: impl Fn(u8) -> bool) -> Facts {
    let mut facts = Facts::new();
    for n in (0..64).filter(|&n| taken(n)) {
        let x = n as usize;
        if table.record(n).is_born() {
            facts.learn_rights(x, ALL_RIGHTS, x);
        }
        for slot in table.record(n).slots {
            facts.learn_rights(x, slot.rights, slot.target as usize);
        }
    }
    facts.close();
    facts
}

#[test]
fn potential_access_agrees_with_single_facts() {
    let mut rng = Rng::new(20);
    let mut partial = 0;
    for _ in 0..400 {
        let table = any_sound_table(&mut rng);
        let facts = facts_of(&table, |_| true);
        let (number, access) = potential_access(&table);
        assert_eq!(number, 0);
        let reach = facts.reach();
        for (x, record) in table.records.iter().enumerate() {
            for y in 0..64 {
                assert_eq!(access.rights[x][y], facts.rights(x, y), "{x} over {y}");
                assert_eq!(access.influences(x, y), facts.influences(x, y));
            }
            let influenced = access.influenced_set(x as u8);
            let expected = (0..64).filter(|&y| reach[x][y]);
            assert_eq!(influenced, expected.fold(0, |set, y| set | 1 << y));
            partial += u32::from(influenced.count_ones() > 1 && influenced != u64::MAX);
            assert_eq!(influenced == 0, !record.is_born());
        }
        assert_unborn_have_no_rights(&table, &access.rights);
    }
    assert!(partial > 1000, "too few influenced sets of middle size");
}

fn assert_unborn_have_no_rights(table: &Table, rights: &[[u8; 64]; 64]) {
    for (x, row) in rights.iter().enumerate() {
        for (y, &held) in row.iter().enumerate() {
            let born = table.records[x].is_born() && table.records[y].is_born();
            assert!(born || held == 0);
        }
    }
}

/// The bound by single facts, with the stand-in as the last point.
fn bound_by_facts(case: &ConfinementCase) -> u64 {
    let outside = |n| !set::contains(case.members, n);
    let mut facts = facts_of(&case.table, outside);
    facts.learn_rights(STAND_IN, ALL_RIGHTS, STAND_IN);
    for &(target, rights) in &case.list {
        facts.learn_rights(STAND_IN, rights, target as usize);
    }
    facts.close();
    let influenced = facts.reach()[STAND_IN];
    (0..64)
        .filter(|&n| outside(n) && influenced[n as usize])
        .fold(0, |bound, n| bound | 1 << n)
}

/// The bound by potential access of a table where one member holds the list in its slots, of
/// which there are as many as a list has entries, and the other members are unborn.
fn bound_by_table(case: &ConfinementCase) -> u64 {
    let stand_in = set::numbers(case.members).next().expect("member");
    // A member that is unborn can be no maker any more.
    let mut table = without_makers(&case.table);
    for member in set::numbers(case.members) {
        *table.record_mut(member) = Record::UNBORN;
    }
    table.record_mut(stand_in).status = 1;
    for (slot, &(target, rights)) in case.list.iter().enumerate() {
        table.record_mut(stand_in).slots[slot] = Capability::new(target, rights);
    }
    let (number, access) = potential_access(&table);
    assert_eq!(number, 0);
    access.influenced_set(stand_in) & !case.members
}

#[test]
fn bounds_agree_in_three_ways() {
    let mut rng = Rng::new(21);
    let (mut empty, mut partial) = (0, 0);
    for _ in 0..400 {
        let case = confinement_case(&mut rng, 0);
        let tested = confinement_test(&case.table, case.members, &case.list);
        assert!(tested.is_accepted());
        let bound = tested.bound;
        assert_eq!(bound, bound_by_facts(&case));
        assert_eq!(bound, bound_by_table(&case));
        let born = (0..64).filter(|&n| case.table.is_born(n) && !set::contains(case.members, n));
        empty += u32::from(bound == 0);
        partial += u32::from(bound != 0 && (bound.count_ones() as usize) < born.count());
    }
    assert!(
        empty > 40 && partial > 40,
        "{empty} empty, {partial} partial"
    );
}

#[test]
fn no_byte_of_a_member_enters_the_bound() {
    let mut rng = Rng::new(22);
    for _ in 0..300 {
        let case = confinement_case(&mut rng, 0);
        let first = confinement_test(&case.table, case.members, &case.list);
        let mut other = case.table.clone();
        for member in set::numbers(case.members) {
            let record = other.record_mut(member);
            record.word ^= rng.bits() as u32;
            record.kind ^= rng.byte(0, 1);
            record.stock = 0;
            record.slots = [Capability::EMPTY; 8];
        }
        assert_eq!(confinement_test(&other, case.members, &case.list), first);
    }
}

#[test]
fn every_number_of_the_test_is_reached() {
    let mut rng = Rng::new(23);
    let mut counts: BTreeMap<u8, u32> = BTreeMap::new();
    for aim in CONFINEMENT_NUMBERS {
        for _ in 0..300 {
            let case = confinement_case(&mut rng, aim);
            let tested = confinement_test(&case.table, case.members, &case.list);
            assert_eq!(tested.number, aim, "{:?}", case);
            assert!(tested.is_accepted() || tested == Tested::empty(aim));
            assert_eq!(tested.bound & case.members, 0);
            *counts.entry(tested.number).or_default() += 1;
        }
    }
    assert!(counts.len() == 6 && counts.values().all(|&count| count == 300));
}

/// The bound of an accepted test is what the holder of the list reaches by links, without the members, in as many
/// rounds.
#[test]
fn links_reach_the_bound() {
    let mut accepted = 0;
    for case in test_cases() {
        let tested = confinement_test(&case.table, case.members, &case.list);
        if tested.is_accepted() {
            accepted += 1;
            assert_eq!(tested.bound, test_reach(&case) & !case.members);
            assert_eq!(tested.rounds, test_rounds(&case));
        }
    }
    assert!(accepted > 100, "only {accepted} tests were accepted");
}
