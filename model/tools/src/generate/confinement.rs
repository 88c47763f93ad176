//! Random confinement tests, each aimed at acceptance or at one refusal.
//! An aimed case starts from an accepted one; later offences are added to some, then its own.
//! In many, members hold wk alone over non-members, listed and not, now and then over dozens of them.

use super::tables::{any_damage, numbers_where, sound_table, Shape};
use crate::rng::Rng;
use yavrinks_model::confinement::{listed_rights, passes, Entry, MAX_ENTRIES};
use yavrinks_model::set;
use yavrinks_model::table::{Capability, Record, Table, ALL_RIGHTS, SLOTS, WK};

/// A table, a set of members and a list.
#[derive(Clone, Debug, PartialEq, Eq)]
pub struct ConfinementCase {
    pub table: Table,
    pub members: u64,
    pub list: Vec<Entry>,
}

/// The numbers that the test can give.
pub const CONFINEMENT_NUMBERS: [u8; 6] = [0, 1, 10, 11, 12, 13];

/// A case for which the test gives `aim`.
pub fn confinement_case(rng: &mut Rng, aim: u8) -> ConfinementCase {
    assert!(CONFINEMENT_NUMBERS.contains(&aim), "no test gives {aim}");
    loop {
        if let Some(case) = try_case(rng, aim) {
            return case;
        }
    }
}

/// A case, or none if the random table has no object that it needs.
fn try_case(rng: &mut Rng, aim: u8) -> Option<ConfinementCase> {
    let mut case = accepted_case(rng)?;
    if aim == 0 {
        return Some(case);
    }
    for number in [13, 12, 11, 10, 1] {
        if number == aim {
            offend(rng, &mut case, number)?;
        } else if number > aim && rng.percent(30) {
            // Without the objects that a later offence needs, the case simply lacks it.
            let _ = offend(rng, &mut case, number);
        }
    }
    Some(case)
}

/// A case that is accepted.
fn accepted_case(rng: &mut Rng) -> Option<ConfinementCase> {
    let shape = if rng.percent(50) {
        Shape::mixed(rng)
    } else {
        Shape::random(rng)
    };
    let table = sound_table(rng, &shape);
    accepted_on(rng, table)
}

/// A case that is accepted, of a sound table; capabilities that stand in the way are replaced. None if nobody is alive.
pub fn accepted_on(rng: &mut Rng, mut table: Table) -> Option<ConfinementCase> {
    let members = random_members(rng, &table)?;
    hide_members(rng, &mut table, members);
    if rng.percent(25) {
        fill_with_weak(rng, &mut table, members);
    }
    let held = rights_to_list(rng, &mut table, members);
    let list = covering_list(rng, &table, members, &held);
    Some(ConfinementCase {
        table,
        members,
        list,
    })
}

/// A non-empty set of alive numbers, mostly small.
fn random_members(rng: &mut Rng, table: &Table) -> Option<u64> {
    let mut alive = numbers_where(table, Record::is_alive);
    rng.shuffle(&mut alive);
    let most = if rng.percent(80) { 4 } else { 64 };
    let count = rng.between(1, most.min(alive.len().max(1) as u64)) as usize;
    alive.truncate(count);
    match set::of(&alive) {
        0 => None,
        members => Some(members),
    }
}

/// Replaces capabilities of non-members that name a member.
fn hide_members(rng: &mut Rng, table: &mut Table, members: u64) {
    let outside = born_non_members(table, members);
    for n in set::numbers(!members) {
        for k in 0..8 {
            let held = table.record(n).slots[k];
            if held.rights != 0 && set::contains(members, held.target) {
                let other = rng.pick(&outside).filter(|_| rng.percent(50));
                table.record_mut(n).slots[k] = match other {
                    Some(target) => Capability::new(target, held.rights),
                    None => Capability::EMPTY,
                };
            }
        }
    }
}

/// What members hold over non-members with wk alone, where no wk is listed for the target: (member, target).
pub fn unlisted_wk(table: &Table, members: u64, list: &[Entry]) -> Vec<(u8, u8)> {
    let mut found = Vec::new();
    for member in set::numbers(members) {
        for held in table.record(member).capabilities() {
            let listed = listed_rights(list, held.target) & WK != 0;
            if held.rights == WK && !listed && !set::contains(members, held.target) {
                found.push((member, held.target));
            }
        }
    }
    found
}

/// The born numbers outside the members, in ascending order.
pub fn born_non_members(table: &Table, members: u64) -> Vec<u8> {
    let mut numbers = numbers_where(table, Record::is_born);
    numbers.retain(|&n| !set::contains(members, n));
    numbers
}

/// Fills slots of members that are empty with wk over non-members.
fn fill_with_weak(rng: &mut Rng, table: &mut Table, members: u64) {
    let outside = born_non_members(table, members);
    let filled_percent = rng.pick(&[30, 100]).unwrap_or(100);
    for member in set::numbers(members) {
        for slot in 0..SLOTS {
            let target = rng.pick(&outside).filter(|_| rng.percent(filled_percent));
            let slot = &mut table.record_mut(member).slots[slot];
            if let (Some(target), true) = (target, slot.is_empty()) {
                *slot = Capability::new(target, WK);
            }
        }
    }
}

/// The rights that members hold over non-members, by target, as far as they are to be listed: of wk
/// alone a share, and none where there would be more targets than a list has room for. Slots with other
/// rights are emptied there.
fn rights_to_list(rng: &mut Rng, table: &mut Table, members: u64) -> Vec<Entry> {
    let unlisted_percent = rng.pick(&[0, 50, 50, 100]).unwrap_or(50);
    let mut held: Vec<Entry> = Vec::new();
    for member in set::numbers(members) {
        for slot in &mut table.record_mut(member).slots {
            let inside = slot.is_empty() || set::contains(members, slot.target);
            if inside || (slot.rights == WK && rng.percent(unlisted_percent)) {
                continue;
            }
            let known = held.iter().position(|entry| entry.0 == slot.target);
            match known {
                Some(k) => held[k].1 |= slot.rights,
                None if held.len() < MAX_ENTRIES => held.push((slot.target, slot.rights)),
                None if slot.rights == WK => {}
                None => *slot = Capability::EMPTY,
            }
        }
    }
    held
}

/// A list that covers the held rights: some split into two entries, some with more than is held.
fn covering_list(rng: &mut Rng, table: &Table, members: u64, held: &[Entry]) -> Vec<Entry> {
    let mut list = Vec::new();
    for (k, &(target, rights)) in held.iter().enumerate() {
        let room = MAX_ENTRIES - list.len() > held.len() - k;
        let first = rights & rng.byte(0, ALL_RIGHTS);
        if room && rng.percent(40) && first != 0 && first != rights {
            list.push((target, first));
            list.push((target, rights & !first));
        } else if rng.percent(20) {
            list.push((target, rights | rng.byte(0, ALL_RIGHTS)));
        } else {
            list.push((target, rights));
        }
    }
    let outside = born_non_members(table, members);
    while list.len() < MAX_ENTRIES && rng.percent(25) {
        match rng.pick(&outside) {
            Some(target) => list.push((target, rng.byte(1, ALL_RIGHTS))),
            None => break,
        }
    }
    rng.shuffle(&mut list);
    list
}

/// Adds the offence with the given number. None, with the case as it was, if that is impossible.
fn offend(rng: &mut Rng, case: &mut ConfinementCase, number: u8) -> Option<()> {
    match number {
        1 => any_damage(rng, &mut case.table),
        10 => spoil_members(rng, case)?,
        11 => spoil_list(rng, case)?,
        12 => hold_unlisted(rng, case)?,
        _ => name_member_outside(rng, case)?,
    }
    Some(())
}

fn spoil_members(rng: &mut Rng, case: &mut ConfinementCase) -> Option<()> {
    let not_alive = numbers_where(&case.table, |record| !record.is_alive());
    if rng.percent(20) {
        case.members = 0;
    } else {
        case.members |= set::single(rng.pick(&not_alive)?);
    }
    Some(())
}

fn spoil_list(rng: &mut Rng, case: &mut ConfinementCase) -> Option<()> {
    let outside = born_non_members(&case.table, case.members);
    let unborn = numbers_where(&case.table, |record| !record.is_born());
    let members: Vec<u8> = set::numbers(case.members).collect();
    let rights = rng.byte(1, ALL_RIGHTS);
    let entry = match rng.between(0, 5) {
        0 => (rng.pick(&outside)?, 0),
        1 => (rng.pick(&outside)?, rng.byte_above(ALL_RIGHTS)),
        2 => (rng.pick(&unborn)?, rights),
        3 => (rng.pick(&members)?, rights),
        4 => (rng.byte_above(63), rights),
        _ => {
            let length = rng.pick(&[9, 9, 10, 16, 255]).unwrap_or(9);
            while case.list.len() < length {
                case.list
                    .push((rng.pick(&outside)?, rng.byte(1, ALL_RIGHTS)));
            }
            return Some(());
        }
    };
    let place = rng.between(0, case.list.len() as u64) as usize;
    if place < case.list.len() {
        case.list[place] = entry;
    } else if place < MAX_ENTRIES {
        case.list.push(entry);
    } else {
        case.list[0] = entry;
    }
    Some(())
}

/// Puts a capability that does not pass into a slot of a member: with a right that is not listed, or with
/// wk as the only one of several rights that is not.
fn hold_unlisted(rng: &mut Rng, case: &mut ConfinementCase) -> Option<()> {
    let members: Vec<u8> = set::numbers(case.members).collect();
    let holder = rng.pick(&members)?;
    let only_wk = only_wk_missing(rng, case).filter(|_| rng.percent(60));
    let capability = match only_wk {
        Some(capability) => capability,
        None => not_passing(rng, case)?,
    };
    case.table.record_mut(holder).slots[rng.between(0, 7) as usize] = capability;
    Some(())
}

/// A capability to any non-member that does not pass.
fn not_passing(rng: &mut Rng, case: &ConfinementCase) -> Option<Capability> {
    let target = rng.pick(&born_non_members(&case.table, case.members))?;
    let offences: Vec<Capability> = (1..=ALL_RIGHTS)
        .map(|rights| Capability::new(target, rights))
        .filter(|&held| !passes(&case.list, held))
        .collect();
    rng.pick(&offences)
}

/// A capability with wk and other rights, of which wk alone is not listed. None if no target has an
/// entry without wk.
fn only_wk_missing(rng: &mut Rng, case: &ConfinementCase) -> Option<Capability> {
    let outside = born_non_members(&case.table, case.members);
    let without_wk: Vec<Entry> = outside
        .into_iter()
        .map(|target| (target, listed_rights(&case.list, target)))
        .filter(|&(_, listed)| listed != 0 && listed & WK == 0)
        .collect();
    let (target, listed) = rng.pick(&without_wk)?;
    let others: Vec<u8> = (1..=ALL_RIGHTS).filter(|r| r & !listed == 0).collect();
    Some(Capability::new(target, WK | rng.pick(&others)?))
}

/// Lets an alive non-member, active or passive, hold a capability naming a member, often with wk alone,
/// which only members may hold unlisted.
fn name_member_outside(rng: &mut Rng, case: &mut ConfinementCase) -> Option<()> {
    let members: Vec<u8> = set::numbers(case.members).collect();
    let mut holders = numbers_where(&case.table, Record::is_alive);
    holders.retain(|&n| !set::contains(case.members, n));
    let holder = rng.pick(&holders)?;
    let any = rng.byte(1, ALL_RIGHTS);
    let rights = rng.pick(&[WK, any, any]).unwrap_or(any);
    let capability = Capability::new(rng.pick(&members)?, rights);
    case.table.record_mut(holder).slots[rng.between(0, 7) as usize] = capability;
    Some(())
}
