//! Random pairs of start tables: equal on every non-member, different in what the members hold.
//! Most are arranged so that some objects stay clean, others are reached by the members, and a
//! few capabilities are out of place, as a broken rule needs. In most, members hold wk alone over objects
//! that stay clean, and no entry says so: in one of the tables, or in both. Many objects have a maker, whichever part
//! that plays.

use super::runs::Start;
use crate::generate::{
    any_maker, born_non_members, confinement_case, numbers_where, ConfinementCase,
};
use crate::rng::Rng;
use yavrinks_model::confinement::{passes, Entry, MAX_ENTRIES};
use yavrinks_model::set;
use yavrinks_model::table::{Capability, Record, Table};
use yavrinks_model::table::{
    ACTIVE, ALIVE, ALL_RIGHTS, DEAD, NO_MAKER, NO_SLOTS, PASSIVE, RD, SLOTS, UNBORN, WK,
};

/// A pair of start tables. The test accepts both, unless a non-member names a member or a member holds
/// something that does not pass.
pub fn draw_start(rng: &mut Rng) -> Start {
    let case = if rng.percent(15) {
        confinement_case(rng, 0)
    } else {
        arranged_case(rng)
    };
    let mut second = case.table.clone();
    if rng.percent(92) {
        fill_members(rng, &mut second, case.members, &case.list);
    }
    let mut start = Start {
        first: case.table,
        second,
        members: case.members,
        list: case.list,
    };
    if rng.percent(15) {
        hold_unlisted(rng, &mut start);
    }
    start
}

/// Lets a member hold what does not pass, in one table or in both. Often wk is among its rights.
fn hold_unlisted(rng: &mut Rng, start: &mut Start) {
    let members: Vec<u8> = set::numbers(start.members).collect();
    let outside = born_non_members(&start.first, start.members);
    let rights = rng.pick(&[0, WK]).unwrap_or(WK) | any_rights(rng);
    let tables = rng.pick(&[[true, false], [false, true], [true, true]]);
    let [in_first, in_second] = tables.unwrap_or([true, true]);
    if let (Some(member), Some(target)) = (rng.pick(&members), rng.pick(&outside)) {
        let held = Capability::new(target, rights);
        if passes(&start.list, held) {
            return;
        }
        let k = rng.between(0, 7) as usize;
        if in_first {
            start.first.record_mut(member).slots[k] = held;
        }
        if in_second {
            start.second.record_mut(member).slots[k] = held;
        }
    }
}

/// The numbers of an arranged table, by the part that they play.
struct Parts {
    members: Vec<u8>,
    /// Objects that the members may reach in every way.
    reached: Vec<u8>,
    /// Groups of objects that the others hold no more than wk over.
    islands: Vec<Vec<u8>>,
    unborn: Vec<u8>,
    /// How many of 100 slots are filled.
    filled_percent: u64,
}

impl Parts {
    fn draw(rng: &mut Rng) -> Parts {
        let mut numbers: Vec<u8> = (0..64).collect();
        if rng.percent(50) {
            rng.shuffle(&mut numbers);
        }
        let mut cut = |low, high| -> Vec<u8> {
            let count = rng.between(low, high) as usize;
            numbers.drain(..count).collect()
        };
        let members = cut(1, 3);
        let reached = cut(0, 5);
        let islands = vec![cut(1, 4), cut(0, 3), cut(0, 2)];
        Parts {
            members,
            reached,
            islands,
            unborn: numbers,
            filled_percent: rng.pick(&[20, 40, 70]).unwrap_or(40),
        }
    }

    fn on_islands(&self) -> Vec<u8> {
        self.islands.concat()
    }

    fn non_members(&self) -> Vec<u8> {
        [self.reached.clone(), self.on_islands()].concat()
    }
}

/// A table of few objects, members and a list, made from parts. The test accepts them, unless a
/// non-member names a member.
pub fn arranged_case(rng: &mut Rng) -> ConfinementCase {
    let parts = Parts::draw(rng);
    let members = set::of(&parts.members);
    let mut table = Table::unborn();
    for n in parts.non_members() {
        *table.record_mut(n) = bare_record(rng);
    }
    for &member in &parts.members {
        table.record_mut(member).status = ALIVE;
    }
    fill_reached(rng, &parts, &mut table);
    for island in &parts.islands {
        fill_island(rng, &parts, island, &mut table);
    }
    share_stocks(rng, &parts, &mut table);
    let mut list = draw_list(rng, &parts);
    put_out_of_place(rng, &parts, &mut table, &mut list);
    let born = numbers_where(&table, Record::is_born);
    for n in parts.non_members() {
        table.record_mut(n).maker = maybe_maker(rng, n, &born);
    }
    fill_members(rng, &mut table, members, &list);
    ConfinementCase {
        table,
        members,
        list,
    }
}

/// A maker for one object in two.
fn maybe_maker(rng: &mut Rng, n: u8, born: &[u8]) -> u8 {
    match rng.percent(50) {
        true => any_maker(rng, n, born),
        false => NO_MAKER,
    }
}

/// A born record with neither stock nor slots.
fn bare_record(rng: &mut Rng) -> Record {
    let mut record = Record::UNBORN;
    record.kind = if rng.percent(70) { ACTIVE } else { PASSIVE };
    if rng.percent(9) {
        record.status = DEAD;
    } else {
        record.status = ALIVE;
        record.word = rng.between(0, 9) as u32;
    }
    record
}

/// Reached objects hold anything over each other, and wk over the islands.
fn fill_reached(rng: &mut Rng, parts: &Parts, table: &mut Table) {
    let on_islands = parts.on_islands();
    for &n in &parts.reached {
        fill_slots(rng, parts, table, n, |rng| {
            if rng.percent(60) {
                (rng.pick(&parts.reached), any_rights(rng))
            } else {
                (rng.pick(&on_islands), WK)
            }
        });
    }
}

/// Objects of an island hold anything over each other, and sometimes wk over other islands.
fn fill_island(rng: &mut Rng, parts: &Parts, island: &[u8], table: &mut Table) {
    let on_islands = parts.on_islands();
    for &n in island {
        fill_slots(rng, parts, table, n, |rng| {
            if rng.percent(85) {
                (rng.pick(island), any_rights(rng))
            } else {
                (rng.pick(&on_islands), WK)
            }
        });
    }
}

/// Fills slots of an alive object with capabilities that are drawn one by one.
fn fill_slots(
    rng: &mut Rng,
    parts: &Parts,
    table: &mut Table,
    n: u8,
    draw: impl Fn(&mut Rng) -> (Option<u8>, u8),
) {
    if !table.record(n).is_alive() {
        return;
    }
    for k in 0..SLOTS {
        if let (true, (Some(target), rights)) = (rng.percent(parts.filled_percent), draw(rng)) {
            table.record_mut(n).slots[k] = Capability::new(target, rights);
        }
    }
}

fn any_rights(rng: &mut Rng) -> u8 {
    rng.byte(1, ALL_RIGHTS)
}

/// Gives some of the unborn numbers to alive non-members; the others stay free for members. In one table of two it is
/// few, so that a number that is reclaimed is soon made anew.
fn share_stocks(rng: &mut Rng, parts: &Parts, table: &mut Table) {
    let mut owners = parts.non_members();
    owners.retain(|&n| table.record(n).is_alive());
    let stocked_percent = rng.pick(&[6, 60]).unwrap_or(60);
    for &n in &parts.unborn {
        if let (Some(owner), true) = (rng.pick(&owners), rng.percent(stocked_percent)) {
            table.record_mut(owner).stock |= set::single(n);
        }
    }
}

/// A list that names reached objects with any rights, and the islands with wk.
fn draw_list(rng: &mut Rng, parts: &Parts) -> Vec<Entry> {
    let on_islands = parts.on_islands();
    let mut list = Vec::new();
    for _ in 0..rng.between(0, MAX_ENTRIES as u64 - 1) {
        match rng.pick(&parts.reached) {
            Some(target) if rng.percent(60) => list.push((target, any_rights(rng))),
            _ => list.extend(rng.pick(&on_islands).map(|target| (target, WK))),
        }
    }
    list
}

/// Puts a few capabilities where they do harm: the bound must grow by them, or the test refuse.
fn put_out_of_place(rng: &mut Rng, parts: &Parts, table: &mut Table, list: &mut Vec<Entry>) {
    let on_islands = parts.on_islands();
    if let (Some(target), true) = (rng.pick(&on_islands), rng.percent(20)) {
        list.push((target, RD));
    }
    let mut holders = parts.non_members();
    holders.retain(|&n| table.record(n).is_alive());
    let targets = parts.non_members();
    if rng.percent(25) {
        let rights = if rng.percent(50) { RD } else { any_rights(rng) };
        put_anywhere(rng, table, &holders, &targets, rights);
    }
    if rng.percent(10) {
        put_anywhere(rng, table, &holders, &parts.members, WK);
    }
    holders.retain(|&n| !table.record(n).is_active());
    if rng.percent(15) {
        let rights = any_rights(rng);
        put_anywhere(rng, table, &holders, &parts.members, rights);
    }
}

fn put_anywhere(rng: &mut Rng, table: &mut Table, holders: &[u8], targets: &[u8], rights: u8) {
    if let (Some(holder), Some(target)) = (rng.pick(holders), rng.pick(targets)) {
        let k = rng.between(0, 7) as usize;
        table.record_mut(holder).slots[k] = Capability::new(target, rights);
    }
}

/// Draws anew all that the members hold, and their kinds, words and makers. Nothing else changes. In every
/// third table no wk is put in beside what is listed, so that it is often in one of two tables alone.
fn fill_members(rng: &mut Rng, table: &mut Table, members: u64, list: &[Entry]) {
    let numbers: Vec<u8> = set::numbers(members).collect();
    let outside = born_non_members(table, members);
    let born = numbers_where(table, Record::is_born);
    let weak_percent = rng.pick(&[0, 30, 60]).unwrap_or(0);
    for &member in &numbers {
        *table.record_mut(member) = Record {
            status: ALIVE,
            kind: if rng.percent(85) { ACTIVE } else { PASSIVE },
            word: rng.between(0, 9) as u32,
            stock: 0,
            slots: NO_SLOTS,
            maker: maybe_maker(rng, member, &born),
        };
        for k in 0..SLOTS {
            table.record_mut(member).slots[k] = if rng.percent(60) {
                member_capability(rng, &numbers, list)
            } else {
                let target = rng.pick(&outside).filter(|_| rng.percent(weak_percent));
                target.map_or(Capability::EMPTY, |target| Capability::new(target, WK))
            };
        }
    }
    share_free_numbers(rng, table, &numbers);
}

/// A capability over a member, or one within the list.
fn member_capability(rng: &mut Rng, members: &[u8], list: &[Entry]) -> Capability {
    match rng.pick(list) {
        Some((target, rights)) if rng.percent(65) => {
            let part = rights & rng.byte(0, ALL_RIGHTS);
            Capability::new(target, if part == 0 { rights } else { part })
        }
        _ => match rng.pick(members) {
            Some(member) => Capability::new(member, any_rights(rng)),
            None => Capability::EMPTY,
        },
    }
}

/// Gives some of the unborn numbers that are in no stock to members, in one table of two few.
fn share_free_numbers(rng: &mut Rng, table: &mut Table, members: &[u8]) {
    let stocked = table.records.iter().fold(0, |all, r| all | r.stock);
    let stocked_percent = rng.pick(&[4, 40]).unwrap_or(40);
    for n in set::numbers(!stocked) {
        if let (Some(owner), true) = (rng.pick(members), rng.percent(stocked_percent)) {
            if table.record(n).status == UNBORN {
                table.record_mut(owner).stock |= set::single(n);
            }
        }
    }
}
