//! Tables of several groups with wk between them, and how many groups the compared tables have.

use std::fmt;
use std::ops::RangeInclusive;

use yavrinks_model::table::{Capability, Table, ACTIVE, ALIVE, ALL_RIGHTS, DEAD, SLOTS, WK};
use yavrinks_tools::rng::Rng;

use crate::groups::wk_between;

/// The numbers of groups that are drawn, and the columns that are printed after the first one.
pub const SPANS: [RangeInclusive<u64>; 3] = [2..=7, 8..=31, 32..=64];

/// A sound table whose born objects are so many groups, or a few more where dead objects are alone; with wk between
/// them, unless none is drawn.
pub fn grouped_table(rng: &mut Rng, groups: u64) -> Table {
    let mut numbers: Vec<u8> = (0..64).collect();
    rng.shuffle(&mut numbers);
    numbers.truncate(rng.between(groups, 64) as usize);
    let mut table = Table::unborn();
    for &n in &numbers {
        let record = table.record_mut(n);
        record.status = if rng.percent(10) { DEAD } else { ALIVE };
        record.kind = rng.byte(0, ACTIVE);
    }
    join_groups(rng, &mut table, &numbers, groups as usize);
    let most = rng.pick(&[0, 1, 1, 2, 4, 8]).unwrap_or(1);
    for &holder in &numbers {
        for _ in 0..rng.between(0, most) {
            let target = rng.pick(&numbers).unwrap_or(holder);
            hold(rng, &mut table, holder, Capability::new(target, WK));
        }
    }
    table
}

/// Joins each object after the first ones to one of its group, by a capability that either of them holds.
fn join_groups(rng: &mut Rng, table: &mut Table, numbers: &[u8], groups: usize) {
    let mut members: Vec<Vec<u8>> = numbers[..groups].iter().map(|&n| vec![n]).collect();
    for &n in &numbers[groups..] {
        let group = rng.between(0, groups as u64 - 1) as usize;
        let other = rng.pick(&members[group]).unwrap_or(n);
        let rights = strong_rights(rng);
        let (holder, target) = if rng.percent(50) {
            (n, other)
        } else {
            (other, n)
        };
        let held = hold(rng, table, holder, Capability::new(target, rights));
        if held.is_none() {
            hold(rng, table, target, Capability::new(holder, rights));
        }
        members[group].push(n);
    }
}

/// Any rights with rd, wr or tx among them.
fn strong_rights(rng: &mut Rng) -> u8 {
    loop {
        match rng.byte(1, ALL_RIGHTS) {
            WK => {}
            rights => return rights,
        }
    }
}

/// Puts a capability into an empty slot of the holder, if it is alive and has one.
fn hold(rng: &mut Rng, table: &mut Table, holder: u8, held: Capability) -> Option<()> {
    let record = table.record_mut(holder);
    let empty: Vec<usize> = (0..SLOTS).filter(|&k| record.slots[k].is_empty()).collect();
    let slot = rng.pick(&empty).filter(|_| record.is_alive())?;
    record.slots[slot] = held;
    Some(())
}

/// The lines of the counts, in order.
#[derive(Clone, Copy, Debug, PartialEq, Eq)]
pub enum Way {
    /// Tables whose potential access was compared.
    Access,
    /// Tables of accepted tests, of which the groups that non-members make are counted.
    Test,
}

/// How many groups the sound tables had that were compared both ways, and how many had wk over another group.
#[derive(Clone, Debug, PartialEq, Eq)]
pub struct GroupCounts {
    by_groups: [[u64; 65]; 2],
    wk_between: [u64; 2],
}

impl Default for GroupCounts {
    fn default() -> GroupCounts {
        GroupCounts {
            by_groups: [[0; 65]; 2],
            wk_between: [0; 2],
        }
    }
}

/// The columns that are printed, with the numbers of groups that each sums up.
const COLUMNS: [(&str, RangeInclusive<usize>); 5] = [
    ("0", 0..=0),
    ("1", 1..=1),
    ("2 to 7", 2..=7),
    ("8 to 31", 8..=31),
    ("32 to 64", 32..=64),
];

impl GroupCounts {
    /// Counts a sound table that was compared, by its groups.
    pub fn add(&mut self, way: Way, table: &Table, groups: &[u64]) {
        self.by_groups[way as usize][groups.len()] += 1;
        self.wk_between[way as usize] += u64::from(wk_between(table, groups));
    }

    /// How many tables had so many groups.
    pub fn of(&self, way: Way, groups: RangeInclusive<usize>) -> u64 {
        self.by_groups[way as usize][groups].iter().sum()
    }

    /// How many tables had wk over another group.
    pub fn of_wk_between(&self, way: Way) -> u64 {
        self.wk_between[way as usize]
    }
}

impl fmt::Display for GroupCounts {
    fn fmt(&self, out: &mut fmt::Formatter<'_>) -> fmt::Result {
        write!(out, "{:25}", "both ways, by groups")?;
        for (name, _) in COLUMNS {
            write!(out, "{name:>9}")?;
        }
        writeln!(out, "{:>10}{:>15}", "all", "wk to another")?;
        for (name, way) in [
            ("potential access", Way::Access),
            ("accepted test", Way::Test),
        ] {
            write!(out, "{name:25}")?;
            for (_, groups) in COLUMNS {
                write!(out, "{:>9}", self.of(way, groups))?;
            }
            let (all, wk) = (self.of(way, 0..=64), self.of_wk_between(way));
            writeln!(out, "{all:>10}{wk:>15}")?;
        }
        Ok(())
    }
}
