//! Links between numbers: a capability with rd, wr or tx leads from its holder to its target and
//! back, one with wk from its target to its holder; what can be reached over them, and in how many rounds.

use crate::set;
use crate::table::{Capability, Table, RD, TX, WK, WR};

/// The numbers one link from each number.
#[derive(Clone, Debug, PartialEq, Eq)]
pub struct Links {
    pub from: [u64; 64],
}

impl Links {
    /// No links at all.
    pub fn none() -> Links {
        Links { from: [0; 64] }
    }

    /// The links of every slot whose holder and target are both in the set.
    pub fn among(table: &Table, numbers: u64) -> Links {
        let mut links = Links::none();
        for holder in set::numbers(numbers) {
            for held in table.record(holder).slots {
                if set::contains(numbers, held.target) {
                    links.add(holder, held);
                }
            }
        }
        links
    }

    /// The links of a table: between born numbers.
    pub fn of_table(table: &Table) -> Links {
        Links::among(table, table.born())
    }

    /// Adds the links of one capability.
    pub fn add(&mut self, holder: u8, held: Capability) {
        if held.has_any(RD | WR | TX) {
            self.from[usize::from(holder)] |= set::single(held.target);
        }
        if held.has_any(RD | WR | TX | WK) {
            self.from[usize::from(held.target)] |= set::single(holder);
        }
    }

    /// What can be reached from a number by any links, the number itself too. A number above 63
    /// reaches nothing.
    pub fn reached(&self, start: u8) -> u64 {
        let mut seen = 0;
        let mut worklist = vec![start];
        while let Some(n) = worklist.pop() {
            if n < 64 && !set::contains(seen, n) {
                seen |= set::single(n);
                worklist.extend(set::numbers(self.from[usize::from(n)]));
            }
        }
        seen
    }

    /// How many rounds from a number added another one. At first the number alone is there; each round adds
    /// those one link from what is there. Nothing is there for a number above 63.
    pub fn rounds(&self, start: u8) -> u8 {
        let mut there = set::of(Some(start).filter(|&n| n < 64));
        let mut rounds = 0;
        loop {
            let linked = set::numbers(there).map(|n| self.from[usize::from(n)]);
            let grown = linked.fold(there, |all, numbers| all | numbers);
            if grown == there {
                return rounds;
            }
            there = grown;
            rounds += 1;
        }
    }
}
