//! Tests drawn on the table as it is in which members hold wk alone, which needs no entry, over many
//! non-members: accepted ones, and ones with an offence beside it.

use yavrinks_model::confinement::{listed_rights, Entry, MAX_ENTRIES};
use yavrinks_model::set;
use yavrinks_model::table::{Capability, Record, Table, ALL_RIGHTS, SLOTS, WK};
use yavrinks_tools::generate::{born_non_members, numbers_where, ConfinementCase};
use yavrinks_tools::rng::Rng;

/// What is beside the wk.
#[derive(Clone, Copy, Debug, PartialEq, Eq)]
pub enum Beside {
    /// Nothing that offends: the test is accepted.
    Nothing,
    /// A member's capability with a right that has to be listed and is not: 12.
    UnlistedRight,
    /// A non-member's capability that names a member, most often with wk alone: 13.
    NamedMember,
}

impl Beside {
    pub const ALL: [Beside; 3] = [Beside::Nothing, Beside::UnlistedRight, Beside::NamedMember];
}

/// A test on a copy of the table in which members hold wk alone; none if the table has no objects for it.
pub fn weak_case(rng: &mut Rng, table: &Table, beside: Beside) -> Option<ConfinementCase> {
    let mut alive = numbers_where(table, Record::is_alive);
    rng.shuffle(&mut alive);
    alive.truncate(rng.between(1, 8) as usize);
    let mut drawn = Drawn {
        table: table.clone(),
        members: set::of(&alive),
        list: Vec::new(),
        outside: Vec::new(),
    };
    drawn.outside = born_non_members(table, drawn.members);
    drawn.hide_members();
    drawn.hold(rng)?;
    drawn.list_some(rng);
    match beside {
        Beside::Nothing => {}
        Beside::UnlistedRight => drawn.hold_unlisted_right(rng)?,
        Beside::NamedMember => drawn.name_member(rng)?,
    }
    Some(ConfinementCase {
        table: drawn.table,
        members: drawn.members,
        list: drawn.list,
    })
}

/// A test that is being drawn.
struct Drawn {
    table: Table,
    members: u64,
    list: Vec<Entry>,
    /// The born non-members.
    outside: Vec<u8>,
}

impl Drawn {
    /// Empties the slots of non-members that name a member.
    fn hide_members(&mut self) {
        for n in set::numbers(!self.members) {
            for slot in &mut self.table.record_mut(n).slots {
                if slot.rights != 0 && set::contains(self.members, slot.target) {
                    *slot = Capability::EMPTY;
                }
            }
        }
    }

    /// Lets members hold wk alone in many slots. What else they hold over non-members is listed for as many
    /// targets as there is room for, and becomes wk where there is none.
    fn hold(&mut self, rng: &mut Rng) -> Option<()> {
        let room = rng.pick(&[0, 0, 1, 3, MAX_ENTRIES])?;
        for member in set::numbers(self.members) {
            for k in 0..SLOTS {
                let slot = &mut self.table.record_mut(member).slots[k];
                if slot.is_empty() && rng.percent(50) {
                    *slot = Capability::new(rng.pick(&self.outside)?, WK);
                }
                if slot.is_empty() || set::contains(self.members, slot.target) {
                    continue;
                }
                let known = self.list.iter().position(|entry| entry.0 == slot.target);
                match known {
                    _ if rng.percent(50) => slot.rights = WK,
                    Some(at) => self.list[at].1 |= slot.rights,
                    None if self.list.len() < room => self.list.push((slot.target, slot.rights)),
                    None => slot.rights = WK,
                }
            }
        }
        Some(())
    }

    /// Lists wk for some targets too, in entries of their own.
    fn list_some(&mut self, rng: &mut Rng) {
        let most = rng.pick(&[0, 0, 1, MAX_ENTRIES]).unwrap_or(0);
        while self.list.len() < most && rng.percent(80) {
            let target = rng.pick(&self.outside);
            self.list.extend(target.map(|target| (target, WK)));
        }
        rng.shuffle(&mut self.list);
    }

    /// Puts a capability that does not pass into a slot of a member. Half of the time wk is in it; where
    /// other rights are listed for its target, it is at times these and wk.
    fn hold_unlisted_right(&mut self, rng: &mut Rng) -> Option<()> {
        let target = rng.pick(&self.outside)?;
        let listed = listed_rights(&self.list, target);
        let with = if rng.percent(50) { WK } else { 0 };
        let mut offending: Vec<u8> = (1..=ALL_RIGHTS)
            .filter(|&rights| rights != WK && rights & !listed != 0 && rights & with == with)
            .collect();
        if offending.contains(&(listed | WK)) && rng.percent(50) {
            offending = vec![listed | WK];
        }
        let rights = rng.pick(&offending)?;
        self.put(rng, self.members, Capability::new(target, rights))
    }

    /// Lets a non-member hold a capability that names a member: wk alone, most often.
    fn name_member(&mut self, rng: &mut Rng) -> Option<()> {
        let rights = if rng.percent(80) {
            WK
        } else {
            rng.byte(1, ALL_RIGHTS)
        };
        let members: Vec<u8> = set::numbers(self.members).collect();
        let named = Capability::new(rng.pick(&members)?, rights);
        self.put(rng, set::of(&self.outside), named)
    }

    /// Puts a capability into any slot of one of the holders that is alive.
    fn put(&mut self, rng: &mut Rng, holders: u64, held: Capability) -> Option<()> {
        let mut alive = numbers_where(&self.table, Record::is_alive);
        alive.retain(|&n| set::contains(holders, n));
        let holder = rng.pick(&alive)?;
        self.table.record_mut(holder).slots[rng.between(0, 7) as usize] = held;
        Some(())
    }
}
