//! Potential access and influence, by saturation of the rules as document 01 states them.
//! The relation is kept for every pair of points; nothing is grouped or left out for speed.

use crate::refusal::Refusal;
use crate::set;
use crate::table::{Table, ALL_RIGHTS, OBJECTS, RD, TX, WK, WR};

/// Rights between `N` points: `rights[x][y]` are the rights that x has over y.
#[derive(Clone, Debug, PartialEq, Eq)]
pub struct Relation<const N: usize> {
    pub rights: [[u8; N]; N],
}

/// Potential access, for all 64 numbers.
pub type Access = Relation<OBJECTS>;

impl<const N: usize> Relation<N> {
    /// The relation without any right.
    pub fn none() -> Self {
        Relation {
            rights: [[0; N]; N],
        }
    }

    /// Lets x have the given rights over y, beside those it has. Tells whether one was new.
    pub fn add(&mut self, x: usize, y: usize, rights: u8) -> bool {
        let old = self.rights[x][y];
        self.rights[x][y] = old | rights;
        self.rights[x][y] != old
    }

    /// Applies the rules to every pair of points until a whole pass adds nothing.
    /// Rights only grow, so the result is the least relation closed under the rules.
    pub fn saturate(&mut self) {
        loop {
            let mut grown = false;
            for x in 0..N {
                for y in 0..N {
                    grown |= self.apply_rules(x, y);
                }
            }
            if !grown {
                return;
            }
        }
    }

    /// The three rules for what x has over y. Tells whether a right was new.
    fn apply_rules(&mut self, x: usize, y: usize) -> bool {
        let held = self.rights[x][y];
        let mut grown = false;
        if held & RD != 0 {
            grown |= self.add_all_of(x, y);
        }
        if held & WK != 0 {
            let of_y = self.rights[y];
            for (z, rights) in of_y.into_iter().enumerate() {
                if rights & (RD | WK) != 0 {
                    grown |= self.add(x, z, WK);
                }
            }
        }
        if held & (WR | TX) != 0 {
            grown |= self.add_all_of(y, x);
        }
        grown
    }

    /// Lets `holder` have every right that `other` has. Tells whether a right was new.
    fn add_all_of(&mut self, holder: usize, other: usize) -> bool {
        let of_other = self.rights[other];
        let mut grown = false;
        for (z, rights) in of_other.into_iter().enumerate() {
            grown |= self.add(holder, z, rights);
        }
        grown
    }

    /// Whether x influences y in one step.
    pub fn influences(&self, x: usize, y: usize) -> bool {
        self.rights[x][y] & (WR | TX) != 0 || self.rights[y][x] & (RD | WK) != 0
    }

    /// The points that x reaches by one or more steps of influence.
    pub fn influenced_points(&self, x: usize) -> [bool; N] {
        let mut reached = [false; N];
        let mut worklist = vec![x];
        while let Some(from) = worklist.pop() {
            for (to, seen) in reached.iter_mut().enumerate() {
                if !*seen && self.influences(from, to) {
                    *seen = true;
                    worklist.push(to);
                }
            }
        }
        reached
    }
}

impl Relation<OBJECTS> {
    /// The influenced set of number x, at most 63. For an unborn number it is empty.
    pub fn influenced_set(&self, x: u8) -> u64 {
        let reached = self.influenced_points(usize::from(x));
        set::of((0..64).filter(|&n| reached[usize::from(n)]))
    }
}

/// Potential access of a table: 0 and the relation, or 1 and no rights.
pub fn potential_access(table: &Table) -> (u8, Access) {
    let mut access = Access::none();
    if !table.is_sound() {
        return (Refusal::TableNotSound.number(), access);
    }
    for (x, record) in table.records.iter().enumerate() {
        if record.is_born() {
            access.add(x, x, ALL_RIGHTS);
        }
        for held in record.capabilities() {
            access.add(x, usize::from(held.target), held.rights);
        }
    }
    access.saturate();
    (0, access)
}
