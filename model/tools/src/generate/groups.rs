//! Random tables of several groups: rd, wr or tx in each, wk between them. Dead objects are among them.

use super::confinement::{accepted_on, ConfinementCase};
use crate::rng::Rng;
use yavrinks_model::table::{Capability, Table, ALIVE, ALL_RIGHTS, DEAD, RD, TX, WK, WR};

/// The most objects that are joined to one another on purpose. Others can come to them by what is held besides.
const LARGEST: u64 = 6;

/// A sound table with so many objects, in groups of one to six. Their numbers are below the limit, which is 64 at most.
pub fn grouped_table(rng: &mut Rng, born: usize, limit: u8) -> Table {
    let mut numbers: Vec<u8> = (0..limit).collect();
    rng.shuffle(&mut numbers);
    numbers.truncate(born);
    let mut table = Table::unborn();
    for &n in &numbers {
        let dead = rng.percent(20);
        table.record_mut(n).status = if dead { DEAD } else { ALIVE };
    }
    let mut groups: Vec<&[u8]> = Vec::new();
    let mut left = numbers.as_slice();
    while !left.is_empty() {
        let size = rng.between(1, LARGEST.min(left.len() as u64)) as usize;
        let (group, others) = left.split_at(size);
        join(rng, &mut table, group);
        groups.push(group);
        left = others;
    }
    for group in groups {
        for _ in 0..rng.between(0, 2) {
            let one = rng.pick(group).unwrap_or(0);
            let other = rng.pick(&numbers).unwrap_or(0);
            hold(rng, &mut table, one, other, WK);
        }
    }
    table
}

/// An accepted test of such a table.
pub fn grouped_test(rng: &mut Rng, born: usize, limit: u8) -> ConfinementCase {
    loop {
        let table = grouped_table(rng, born, limit);
        if let Some(case) = accepted_on(rng, table) {
            return case;
        }
    }
}

/// Joins each object but the first to one before it, by a capability that either holds.
fn join(rng: &mut Rng, table: &mut Table, group: &[u8]) {
    for (k, &later) in group.iter().enumerate().skip(1) {
        let earlier = rng.pick(&group[..k]).unwrap_or(later);
        let one = rng.pick(&[RD, WR, TX]).unwrap_or(RD);
        let more = rng.pick(&[0, 0, ALL_RIGHTS]).unwrap_or(0);
        let rights = one | more & rng.byte(0, ALL_RIGHTS);
        match rng.percent(50) {
            true => hold(rng, table, earlier, later, rights),
            false => hold(rng, table, later, earlier, rights),
        }
    }
}

/// Puts a capability into an empty slot. A dead holder holds nothing: then it is held over it, if the other is alive.
fn hold(rng: &mut Rng, table: &mut Table, holder: u8, target: u8, rights: u8) {
    let alive = table.record(holder).is_alive();
    let (holder, target) = if alive {
        (holder, target)
    } else {
        (target, holder)
    };
    if !table.record(holder).is_alive() {
        return;
    }
    let slots = &mut table.record_mut(holder).slots;
    let empty: Vec<usize> = (0..slots.len()).filter(|&k| slots[k].is_empty()).collect();
    if let Some(slot) = rng.pick(&empty) {
        slots[slot] = Capability::new(target, rights);
    }
}
