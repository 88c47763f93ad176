//! Work it out by groups, 2.9 of document 02: potential access and the bound in a second way. Neither the rules of
//! `access` nor the bound of `confinement` has a part in it; what it finds has to be the same.
//! The points are the 64 numbers and, after them, the stand-in, which takes part in a test alone.

use crate::access::{Access, Relation};
use crate::confinement::{check, Entry, Tested};
use crate::refusal::Refusal;
use crate::rounds::rounds;
use crate::set;
use crate::table::{Capability, Table, ALL_RIGHTS, OBJECTS, RD, TX, WK, WR};
use crate::test_links::{links_of, STAND_IN};

/// How many points there are.
const POINTS: usize = OBJECTS + 1;

/// Potential access by groups: 0 and the relation, or 1 and no rights.
pub fn access_by_groups(table: &Table) -> (u8, Access) {
    if !table.is_sound() {
        return (Refusal::TableNotSound.number(), Access::none());
    }
    (0, Holders::of_table(table).relation())
}

/// The test whose bound is worked by groups.
pub fn test_by_groups(table: &Table, members: u64, list: &[Entry]) -> Tested {
    match check(table, members, list) {
        Ok(()) => {
            let rounds = rounds(table, members, list).len();
            Tested::accepted(bound_by_groups(table, members, list), rounds as u8)
        }
        Err(refusal) => Tested::empty(refusal.number()),
    }
}

/// The group of number x in a sound table, itself with it; of an unborn number the empty set.
pub fn group_of(table: &Table, x: u8) -> u64 {
    if !table.is_born(x) {
        return 0;
    }
    let holders = Holders::of_table(table);
    let groups = holders.groups();
    let mark = |n: u8| groups[usize::from(n)];
    set::of(holders.points.iter().filter(|&&n| mark(n) == mark(x)))
}

/// The set of non-members influenced by the stand-in. No record of a member is read.
fn bound_by_groups(table: &Table, members: u64, list: &[Entry]) -> u64 {
    let relation: Relation<POINTS> = Holders::of_test(table, members, list).relation();
    let influenced = relation.influenced_points(usize::from(STAND_IN));
    set::of(set::numbers(!members).filter(|&n| influenced[usize::from(n)]))
}

/// The points that take part, and what they hold.
struct Holders {
    points: Vec<u8>,
    /// Each capability with its holder.
    held: Vec<(u8, Capability)>,
}

impl Holders {
    /// For potential access: every born object, and every capability held in the table.
    fn of_table(table: &Table) -> Holders {
        Holders::among(table, u64::MAX)
    }

    /// For the bound: the non-members and the stand-in, which holds the list.
    fn of_test(table: &Table, members: u64, list: &[Entry]) -> Holders {
        let mut holders = Holders::among(table, !members);
        holders.points.push(STAND_IN);
        for &(target, rights) in list {
            let listed = Capability::new(target, rights);
            holders.held.push((STAND_IN, listed));
        }
        holders
    }

    /// The born objects among the numbers. The dead are born, and hold nothing.
    fn among(table: &Table, numbers: u64) -> Holders {
        let born = set::numbers(numbers).filter(|&n| table.is_born(n));
        let points: Vec<u8> = born.collect();
        let mut held = Vec::new();
        for &holder in &points {
            let capabilities = table.record(holder).capabilities();
            held.extend(capabilities.map(|one| (holder, one)));
        }
        Holders { points, held }
    }

    /// For each point the mark of its group, which no other group has. At first each is a group by itself. A held rd,
    /// wr or tx makes one of two groups: every point of the target's gets the mark of the holder's.
    fn groups(&self) -> [u8; POINTS] {
        let mut groups = [0; POINTS];
        for (mark, point) in groups.iter_mut().zip(0..) {
            *mark = point;
        }
        for (holder, held) in &self.held {
            if held.has_any(RD | WR | TX) {
                let mark = groups[usize::from(*holder)];
                let joined = groups[usize::from(held.target)];
                let points = groups.iter_mut().filter(|one| **one == joined);
                points.for_each(|one| *one = mark);
            }
        }
        groups
    }

    /// For each point those from which one link leads to it.
    fn one_link_to(&self) -> Vec<Vec<u8>> {
        let mut one_link_to = vec![Vec::new(); POINTS];
        for &(holder, held) in &self.held {
            for (from, to) in links_of(holder, held) {
                one_link_to[usize::from(to)].push(from);
            }
        }
        one_link_to
    }

    /// All four rights over one's group, wk alone over those outside it from which links lead to one.
    fn relation<const N: usize>(&self) -> Relation<N> {
        let (groups, one_link_to) = (self.groups(), self.one_link_to());
        let mut relation = Relation::none();
        for x in self.points.iter().copied().map(usize::from) {
            let leads = leading_to(x, &one_link_to);
            for y in self.points.iter().copied().map(usize::from) {
                if groups[y] == groups[x] {
                    relation.add(x, y, ALL_RIGHTS);
                } else if leads[y] {
                    relation.add(x, y, WK);
                }
            }
        }
        relation
    }
}

/// From which points links lead to x, one or more of them.
fn leading_to(x: usize, one_link_to: &[Vec<u8>]) -> [bool; POINTS] {
    let mut leads = [false; POINTS];
    let mut worklist = vec![x];
    while let Some(to) = worklist.pop() {
        for from in one_link_to[to].iter().copied().map(usize::from) {
            if !leads[from] {
                leads[from] = true;
                worklist.push(from);
            }
        }
    }
    leads
}
