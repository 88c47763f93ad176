//! Potential access and the confinement test once more, by groups and written for speed alone: what the proved calls
//! are timed against. It gives the calls' answers, refusals included, and is held to the model by tests; nothing of it
//! is proved.
//!
//! Sets of objects are words of 64 bits. The records are gone through once and the slots once, up to the first offence;
//! from there on only masks are looked at, one of strong targets (rd, wr or tx) and one of all targets for each holder.

#![forbid(unsafe_code)]

use captable::raw::{Capability, Finding, Relation, Table};

/// The numbers of refusals.
const UNSOUND: u8 = 1;
const MEMBERS_INVALID: u8 = 10;
const LIST_INVALID: u8 = 11;
const RIGHT_UNLISTED: u8 = 12;
const MEMBER_HELD: u8 = 13;

const WK: u8 = 4;
const ALL_RIGHTS: u8 = 15;

const DEAD: u8 = 2;
const ACTIVE: u8 = 1;
/// The maker of an object that was not made in a run.
const NO_MAKER: u8 = 64;

/// The longest list, two bytes an entry.
const LONGEST: usize = 16;

/// Potential access of the table, into the place that the caller has for it: a relation that is given back would be
/// copied once more.
pub fn access(table: &Table, answer: &mut Relation) {
    match write_rows(table, &mut answer.rows) {
        Some(()) => answer.number = 0,
        None => {
            answer.rows = [0; 256];
            answer.number = UNSOUND;
        }
    }
}

/// The confinement test of the members and the bytes of a list.
pub fn test(table: &Table, members: u64, list: &[u8]) -> Finding {
    let (bound, rounds, number) = match tested(table, members, list) {
        Ok((bound, rounds)) => (bound, rounds, 0),
        Err(number) => (0, 0, number),
    };
    Finding {
        bound,
        rounds,
        number,
    }
}

/// The numbers of a set, from the lowest on.
struct Numbers(u64);

impl Iterator for Numbers {
    type Item = usize;

    #[inline]
    fn next(&mut self) -> Option<usize> {
        if self.0 == 0 {
            return None;
        }
        let n = low(self.0);
        self.0 &= self.0 - 1;
        Some(n)
    }
}

/// The lowest number of a set that is not empty.
#[inline]
fn low(set: u64) -> usize {
    set.trailing_zeros() as usize % 64
}

/// The objects that are alive, and those that are born.
struct Objects {
    alive: u64,
    born: u64,
}

/// What the records say, from the last to the first; none where one of them offends.
#[inline]
fn objects_of(table: &Table) -> Option<Objects> {
    let (mut alive, mut dead, mut active) = (0_u64, 0_u64, 0_u64);
    let (mut made, mut filled, mut stocked) = (0_u64, 0_u64, 0_u64);
    for record in table.records.iter().rev() {
        let stock = record.stock.bits();
        if record.status > DEAD || record.kind > ACTIVE || stock & stocked != 0 {
            return None;
        }
        alive = alive << 1 | u64::from(record.status & 1);
        dead = dead << 1 | u64::from(record.status >> 1);
        active = active << 1 | u64::from(record.kind);
        made = made << 1 | u64::from(record.maker != NO_MAKER);
        filled = filled << 1 | u64::from(u64::from(record.word) | stock != 0);
        stocked |= stock;
    }
    let born = alive | dead;
    if (active | made) & !born | filled & !alive | stocked & born != 0 {
        return None;
    }
    let is_born = |maker: u8| maker < NO_MAKER && born >> maker & 1 != 0;
    Numbers(made)
        .all(|n| is_born(table.records[n].maker))
        .then_some(Objects { alive, born })
}

/// Goes through the slots of a table whose records do not offend, and hands over each holder with its strong targets
/// and all of its targets. Ends at the first holder whose slots offend: is there none?
#[inline]
fn each_holder(table: &Table, objects: &Objects, mut each: impl FnMut(usize, u64, u64)) -> bool {
    for (n, slots) in table.slots.chunks_exact(8).enumerate() {
        let filled = |any, slot: &Capability| any | slot.target | slot.rights;
        if slots.iter().fold(0, filled) == 0 {
            continue;
        }
        let Some((strong, all)) = targets(slots) else {
            return false;
        };
        if all & !objects.born != 0 || objects.alive >> n & 1 == 0 {
            return false;
        }
        each(n, strong, all);
    }
    true
}

/// The strong targets and all targets of a holder's slots; none where a slot offends by its own bytes.
#[inline]
fn targets(slots: &[Capability]) -> Option<(u64, u64)> {
    let (mut strong, mut all) = (0, 0);
    let (mut of_empty, mut numbers, mut rights) = (0, 0, 0);
    for slot in slots {
        if slot.rights == 0 {
            of_empty |= slot.target;
            continue;
        }
        all |= 1 << (slot.target % 64);
        strong |= u64::from(slot.rights != WK) << (slot.target % 64);
        numbers |= slot.target;
        rights |= slot.rights;
    }
    (of_empty | numbers & !63 | rights & !ALL_RIGHTS == 0).then_some((strong, all))
}

/// The rows of a sound table; none for any other, with the rows in any state.
#[inline]
fn write_rows(table: &Table, rows: &mut [u64; 256]) -> Option<()> {
    let objects = objects_of(table)?;
    let (mut bonds, mut held, mut joined, mut weak) = ([0_u64; 64], [0; 64], 0, 0);
    let sound = each_holder(table, &objects, |n, strong, all| {
        held[n] = all;
        weak |= 1 << n;
        bonds[n] |= strong;
        joined |= strong;
        for target in Numbers(strong) {
            bonds[target] |= 1 << n;
        }
    });
    if !sound {
        return None;
    }
    let (own, others) = rows.split_first_chunk_mut::<64>()?;
    for (n, row) in own.iter_mut().enumerate() {
        *row = objects.born & 1 << n;
    }
    while joined != 0 {
        let group = flood(joined & joined.wrapping_neg(), &bonds, objects.born);
        joined &= !group;
        weak = write_group(group, weak, &mut held, own);
    }
    for rows in others.chunks_exact_mut(64) {
        rows.copy_from_slice(own);
    }
    if weak != 0 {
        let mut walk = Walk {
            own,
            over: &held,
            rows: others[64..].first_chunk_mut()?,
            todo: weak,
            path: [Step::default(); 64],
            length: 0,
            on_path: 0,
        };
        while walk.todo != 0 {
            walk.walk_from(low(walk.todo));
        }
    }
    Some(())
}

/// Writes a group for its members. If they hold something outside of it, which is with wk alone, each of them has that
/// wk from now on. Gives back the objects whose wk has to be followed.
#[inline]
fn write_group(group: u64, weak: u64, held: &mut [u64; 64], own: &mut [u64; 64]) -> u64 {
    let mut over = 0;
    for n in Numbers(group) {
        own[n] = group;
        over |= held[n];
    }
    if over & !group == 0 {
        return weak & !group;
    }
    for n in Numbers(group) {
        held[n] = over;
    }
    weak | group
}

/// All that bonds lead to from the start, level by level.
#[inline]
fn flood(start: u64, bonds: &[u64; 64], born: u64) -> u64 {
    let (mut seen, mut frontier) = (start, start);
    while frontier != 0 && seen != born {
        let mut next = 0;
        for n in Numbers(frontier) {
            next |= bonds[n];
        }
        frontier = next & !seen;
        seen |= next;
    }
    seen
}

/// A part of a path along wk: a group, or groups that lead to one another.
#[derive(Clone, Copy, Default)]
struct Step {
    objects: u64,
    /// Over what they have wk.
    over: u64,
    /// What is known to be reached.
    row: u64,
}

/// What is known of groups and wk, the rows of wk, and a path without its last step.
struct Walk<'a> {
    own: &'a [u64; 64],
    over: &'a [u64; 64],
    rows: &'a mut [u64; 64],
    /// Whose rows are not there yet.
    todo: u64,
    /// No object is in two steps, so that there are at most 64.
    path: [Step; 64],
    length: usize,
    on_path: u64,
}

impl Walk<'_> {
    /// Walks along wk from an object. A row is written when the rows of all that it leads to are there; where wk leads
    /// back to the path, all from there on become one step.
    #[inline]
    fn walk_from(&mut self, start: usize) {
        let mut top = self.step_to(start);
        loop {
            let next = top.over & !(top.objects | top.row);
            if next & !self.todo != 0 {
                top.row |= self.rows[low(next & !self.todo)];
            } else if next & self.on_path != 0 {
                let Some(before) = self.pop() else { return };
                top.objects |= before.objects;
                top.over |= before.over;
                top.row |= before.row;
            } else if next != 0 {
                self.path[self.length % 64] = top;
                self.length += 1;
                self.on_path |= top.objects;
                top = self.step_to(low(next));
            } else {
                let row = top.objects | top.row;
                for n in Numbers(top.objects) {
                    self.rows[n] = row;
                }
                self.todo &= !top.objects;
                let Some(before) = self.pop() else { return };
                top = before;
                top.row |= row;
            }
        }
    }

    #[inline]
    fn step_to(&self, n: usize) -> Step {
        Step {
            objects: self.own[n],
            over: self.over[n],
            row: 0,
        }
    }

    #[inline]
    fn pop(&mut self) -> Option<Step> {
        self.length = self.length.checked_sub(1)?;
        let step = self.path[self.length % 64];
        self.on_path &= !step.objects;
        Some(step)
    }
}

/// The bound and its rounds, or the number of a refusal.
#[inline]
fn tested(table: &Table, members: u64, list: &[u8]) -> Result<(u64, u8), u8> {
    let objects = objects_of(table).ok_or(UNSOUND)?;
    let (mut holdings, mut holders, mut named) = ([(0, 0); 64], 0, 0);
    let sound = each_holder(table, &objects, |n, strong, all| {
        holdings[n] = (strong, all);
        holders |= 1 << n;
        named |= if members >> n & 1 == 0 { all } else { 0 };
    });
    if !sound {
        return Err(UNSOUND);
    }
    if members == 0 || members & !objects.alive != 0 {
        return Err(MEMBERS_INVALID);
    }
    let others = objects.born & !members;
    let listed = Listed::of(list, others).ok_or(LIST_INVALID)?;
    for n in Numbers(members & holders) {
        if !listed.covers(&table.slots[8 * n..8 * n + 8], members) {
            return Err(RIGHT_UNLISTED);
        }
    }
    if named & members != 0 {
        return Err(MEMBER_HELD);
    }
    Ok(rounds(&holdings, holders & !members, others, listed.strong))
}

/// What a list says.
struct Listed {
    rights: [u8; 64],
    /// The targets with rd, wr or tx.
    strong: u64,
}

impl Listed {
    /// None for a list that is invalid.
    #[inline]
    fn of(list: &[u8], others: u64) -> Option<Listed> {
        let mut listed = Listed {
            rights: [0; 64],
            strong: 0,
        };
        if list.len() > LONGEST || !list.len().is_multiple_of(2) {
            return None;
        }
        for entry in list.chunks_exact(2) {
            let (target, rights) = (entry[0], entry[1]);
            if target > 63 || others >> target & 1 == 0 || !(1..=ALL_RIGHTS).contains(&rights) {
                return None;
            }
            listed.rights[usize::from(target)] |= rights;
            listed.strong |= u64::from(rights != WK) << target;
        }
        Some(listed)
    }

    /// Whether it has all that these slots of a member hold over others, wk alone left out.
    #[inline]
    fn covers(&self, slots: &[Capability], members: u64) -> bool {
        slots.iter().all(|slot| {
            let target = slot.target % 64;
            slot.rights & !self.rights[usize::from(target)] == 0
                || slot.rights == WK
                || members >> target & 1 != 0
        })
    }
}

/// All that the stand-in influences, and in how many rounds: from a target to its holder, and from a holder to its
/// strong targets.
#[inline]
fn rounds(held: &[(u64, u64); 64], holders: u64, others: u64, first: u64) -> (u64, u8) {
    if first == 0 {
        return (0, 0);
    }
    let mut links = [0_u64; 64];
    for n in Numbers(holders) {
        let (strong, all) = held[n];
        links[n] |= strong;
        for target in Numbers(all) {
            links[target] |= 1 << n;
        }
    }
    let (mut there, mut frontier, mut count) = (first, first, 0);
    while frontier != 0 {
        count += 1;
        if there == others {
            break;
        }
        let mut next = 0;
        for n in Numbers(frontier) {
            next |= links[n];
        }
        frontier = next & !there;
        there |= next;
    }
    (there, count)
}
