//! The confinement test: whether a set of members is confined to a list, and to which bound.
//! All members are replaced by one stand-in, a point after the 64 numbers, that holds the list.
//! A member's capability with wk alone needs no entry, as 2.3 of document 02 has it; with the bound the
//! number of rounds is reported, as 2.6 has it.

use crate::access::Relation;
use crate::refusal::Refusal;
use crate::rounds::rounds;
use crate::set;
use crate::table::{Capability, Table, ALL_RIGHTS, OBJECTS, WK};

/// The largest number of entries in a list.
pub const MAX_ENTRIES: usize = 8;

/// An entry of the list: target, rights.
pub type Entry = (u8, u8);

/// The point of the stand-in.
const STAND_IN: usize = OBJECTS;
/// The points of the relation that gives the bound.
const POINTS: usize = OBJECTS + 1;

/// What the test brings back.
#[derive(Clone, Copy, Debug, PartialEq, Eq)]
pub struct Tested {
    /// 0 for accepted, or the refusal number.
    pub number: u8,
    /// The bound, empty on a refusal.
    pub bound: u64,
    /// How many rounds added an object, none on a refusal.
    pub rounds: u8,
}

impl Tested {
    /// Accepted: the bound, and the rounds that it took.
    pub fn accepted(bound: u64, rounds: u8) -> Tested {
        Tested {
            number: 0,
            bound,
            rounds,
        }
    }

    /// The number with an empty bound, for which no round adds anything.
    pub fn empty(number: u8) -> Tested {
        Tested {
            number,
            bound: 0,
            rounds: 0,
        }
    }

    pub fn is_accepted(&self) -> bool {
        self.number == 0
    }
}

/// The test.
pub fn confinement_test(table: &Table, members: u64, list: &[Entry]) -> Tested {
    match check(table, members, list) {
        Ok(()) => {
            let rounds = rounds(table, members, list).len();
            Tested::accepted(bound(table, members, list), rounds as u8)
        }
        Err(refusal) => Tested::empty(refusal.number()),
    }
}

/// The checks in number order.
pub(crate) fn check(table: &Table, members: u64, list: &[Entry]) -> Result<(), Refusal> {
    if !table.is_sound() {
        return Err(Refusal::TableNotSound);
    }
    if members == 0 || !set::numbers(members).all(|n| table.record(n).is_alive()) {
        return Err(Refusal::MembersNotAlive);
    }
    if !list_is_valid(table, members, list) {
        return Err(Refusal::ListInvalid);
    }
    if !members_hold_only_what_passes(table, members, list) {
        return Err(Refusal::RightNotListed);
    }
    if !members_are_unnamed_outside(table, members) {
        return Err(Refusal::MemberNamedOutside);
    }
    Ok(())
}

fn list_is_valid(table: &Table, members: u64, list: &[Entry]) -> bool {
    list.len() <= MAX_ENTRIES
        && list.iter().all(|&(target, rights)| {
            (1..=ALL_RIGHTS).contains(&rights)
                && table.is_born(target)
                && !set::contains(members, target)
        })
}

/// The rights listed for a target: the union over its entries.
pub fn listed_rights(list: &[Entry], target: u8) -> u8 {
    list.iter()
        .filter(|entry| entry.0 == target)
        .fold(0, |union, entry| union | entry.1)
}

/// Whether a capability that a member holds to a non-member passes: its rights are exactly wk, or each
/// of them is listed for its target. Beside any other right, wk has to be listed too.
pub fn passes(list: &[Entry], held: Capability) -> bool {
    held.rights == WK || held.rights & !listed_rights(list, held.target) == 0
}

fn members_hold_only_what_passes(table: &Table, members: u64, list: &[Entry]) -> bool {
    set::numbers(members).all(|member| {
        let mut capabilities = table.record(member).capabilities();
        capabilities.all(|held| set::contains(members, held.target) || passes(list, held))
    })
}

fn members_are_unnamed_outside(table: &Table, members: u64) -> bool {
    set::numbers(!members).all(|outsider| {
        table
            .record(outsider)
            .capabilities()
            .all(|held| !set::contains(members, held.target))
    })
}

/// The set of non-members influenced by the stand-in. No record of a member is read: what passes
/// unlisted adds nothing.
fn bound(table: &Table, members: u64, list: &[Entry]) -> u64 {
    let mut relation = Relation::<POINTS>::none();
    for n in set::numbers(!members) {
        let record = table.record(n);
        if record.is_born() {
            relation.add(usize::from(n), usize::from(n), ALL_RIGHTS);
        }
        for held in record.capabilities() {
            relation.add(usize::from(n), usize::from(held.target), held.rights);
        }
    }
    relation.add(STAND_IN, STAND_IN, ALL_RIGHTS);
    for &(target, rights) in list {
        relation.add(STAND_IN, usize::from(target), rights);
    }
    relation.saturate();
    let influenced = relation.influenced_points(STAND_IN);
    set::of(set::numbers(!members).filter(|&n| influenced[usize::from(n)]))
}
