//! The confinement test under given rules. The checks before 12 are the model's; 12, 13, the bound and the rounds
//! are worked here, since the broken rules are about them.

use super::rules::{Access, Naming, Rounds, Rules, StandIn, Unlisted};
use crate::generate::ConfinementCase;
use crate::misread_rounds::through_members;
use yavrinks_model::access::Relation;
use yavrinks_model::confinement::{self, Entry, Tested};
use yavrinks_model::refusal::Refusal;
use yavrinks_model::rounds::rounds;
use yavrinks_model::set;
use yavrinks_model::table::{Capability, Record, Table};
use yavrinks_model::table::{ALL_RIGHTS, OBJECTS, RD, TX, WK, WR};

/// The point of the stand-in, after the 64 numbers.
const STAND_IN: usize = OBJECTS;
/// The points of the relation that gives the bound.
const POINTS: usize = OBJECTS + 1;

impl Rules {
    /// The test.
    pub fn confinement_test(&self, table: &Table, members: u64, list: &[Entry]) -> Tested {
        let unlisted = Refusal::RightNotListed.number();
        let named = Refusal::MemberNamedOutside.number();
        // Check 12 and check 13 are the last ones, so that any other number stands.
        match confinement::confinement_test(table, members, list).number {
            number if ![0, unlisted, named].contains(&number) => Tested::empty(number),
            _ if !self.members_pass(table, members, list) => Tested::empty(unlisted),
            _ if self.member_is_named(table, members) => Tested::empty(named),
            _ => Tested::accepted(
                self.bound(table, members, list),
                self.rounds(table, members, list),
            ),
        }
    }

    fn members_pass(&self, table: &Table, members: u64, list: &[Entry]) -> bool {
        held_outside(table, members).all(|held| {
            let passes_too = match self.unlisted {
                Unlisted::WkAlone => false,
                Unlisted::WkAmongOthers => held.has_any(WK),
                Unlisted::AllIfListEmpty => list.is_empty(),
            };
            passes_too || confinement::passes(list, held)
        })
    }

    fn member_is_named(&self, table: &Table, members: u64) -> bool {
        set::numbers(!members).any(|n| {
            let record = table.record(n);
            record.capabilities().any(|held| {
                let looked_at = match self.naming {
                    Naming::All => true,
                    Naming::OfActive => record.is_active(),
                    Naming::NotWkAlone => held.rights != WK,
                };
                looked_at && set::contains(members, held.target)
            })
        })
    }

    /// The bound for a test that is accepted.
    pub fn bound(&self, table: &Table, members: u64, list: &[Entry]) -> u64 {
        let mut relation = self.held_rights(table, members, list);
        let mut over_itself = [0; POINTS];
        for n in set::numbers(!members).filter(|&n| table.is_born(n)) {
            let n = usize::from(n);
            over_itself[n] = relation.rights[n][n];
            relation.add(n, n, ALL_RIGHTS);
        }
        relation.add(STAND_IN, STAND_IN, ALL_RIGHTS);
        self.saturate(&mut relation, &over_itself);
        let influenced = relation.influenced_points(STAND_IN);
        set::of(set::numbers(!members).filter(|&n| influenced[usize::from(n)]))
    }

    /// The rounds of a test that is accepted, by the model's own count unless they go through members.
    fn rounds(&self, table: &Table, members: u64, list: &[Entry]) -> u8 {
        let list = self.held_by_stand_in(table, members, list);
        match self.rounds {
            Rounds::AsWritten => rounds(table, members, &list).len() as u8,
            Rounds::ThroughMembers => through_members(&ConfinementCase {
                table: table.clone(),
                members,
                list,
            }),
        }
    }

    /// The rights that non-members and the stand-in hold in slots or by the list.
    fn held_rights(&self, table: &Table, members: u64, list: &[Entry]) -> Relation<POINTS> {
        let mut relation = Relation::none();
        for n in set::numbers(!members) {
            for held in outside_capabilities(table.record(n), members) {
                let rights = self.rights_in_bound(held.rights);
                relation.add(usize::from(n), usize::from(held.target), rights);
            }
        }
        for (target, rights) in self.held_by_stand_in(table, members, list) {
            let rights = self.rights_in_bound(rights);
            relation.add(STAND_IN, usize::from(target), rights);
        }
        relation
    }

    fn rights_in_bound(&self, rights: u8) -> u8 {
        if self.access == Access::ReadLikeWk && rights & RD != 0 {
            rights & !RD | WK
        } else {
            rights
        }
    }

    fn held_by_stand_in(&self, table: &Table, members: u64, list: &[Entry]) -> Vec<Entry> {
        match self.stand_in {
            StandIn::List => list.to_vec(),
            StandIn::Slots => held_outside(table, members)
                .map(|held| (held.target, held.rights))
                .collect(),
        }
    }

    /// Applies the rules of potential access until a whole pass adds nothing. `over_itself` are
    /// the rights over itself that each point has in a slot.
    fn saturate(&self, relation: &mut Relation<POINTS>, over_itself: &[u8; POINTS]) {
        let mut grown = true;
        while grown {
            grown = false;
            for x in 0..POINTS {
                for y in (0..POINTS).filter(|&y| y != x) {
                    if relation.rights[x][y] != 0 {
                        grown |= self.apply_access_rules(relation, over_itself[y], x, y);
                    }
                }
            }
        }
    }

    /// The three rules for what x has over y, another point. Tells whether a right was new.
    fn apply_access_rules(
        &self,
        relation: &mut Relation<POINTS>,
        y_over_itself: u8,
        x: usize,
        y: usize,
    ) -> bool {
        let held = relation.rights[x][y];
        let mut grown = false;
        for z in 0..POINTS {
            let of_y = relation.rights[y][z];
            if held & RD != 0 {
                let only_held = self.access == Access::ReadHeldOnly && z == y;
                let passed = if only_held { y_over_itself } else { of_y };
                grown |= relation.add(x, z, passed);
            }
            if held & WK != 0 && of_y & (RD | WK) != 0 {
                grown |= relation.add(x, z, WK);
            }
            if held & (WR | TX) != 0 && self.access != Access::WriteOneWay {
                let of_x = relation.rights[x][z];
                grown |= relation.add(y, z, of_x);
            }
        }
        grown
    }
}

/// The capabilities of a record that name non-members.
fn outside_capabilities(record: &Record, members: u64) -> impl Iterator<Item = Capability> + '_ {
    record
        .capabilities()
        .filter(move |held| !set::contains(members, held.target))
}

/// What the members hold over non-members.
fn held_outside(table: &Table, members: u64) -> impl Iterator<Item = Capability> + '_ {
    set::numbers(members)
        .flat_map(move |member| outside_capabilities(table.record(member), members))
}
