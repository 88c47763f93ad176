//! One request under given rules. Where a copy lands, which numbers can be made, who is recorded as a maker, what
//! a destroyed object keeps and what a reclaim asks for and leaves is worked here, since the rules can break it; all
//! else is the model's.

use super::rules::{Destroyed, Empty, Joins, Left, Makers, Makes};
use super::rules::{Reclaimable, Recorded, Rules, Weakening};
use crate::copies::{landed_by, Copied};
use crate::generate::numbers_where;
use yavrinks_model::refusal::Refusal;
use yavrinks_model::set;
use yavrinks_model::step::{self, weaken, Request};
use yavrinks_model::table::{Capability, Record, Table, OBJECTS, RD, UNBORN, WK, WR};

impl Weakening {
    fn of(self, found: Capability) -> Capability {
        let again = !found.has_any(RD) && found.has_any(WK);
        let kept = match self {
            Weakening::ToWk => 0,
            Weakening::None => return found,
            Weakening::KeepsRd => found.rights & RD,
            Weakening::HandsRdBack if again => RD,
            Weakening::HandsRdBack => 0,
            Weakening::NeverToNothing if weaken(found).is_empty() => return found,
            Weakening::NeverToNothing => 0,
        };
        let weakened = weaken(found);
        Capability::new(weakened.target, weakened.rights | kept)
    }
}

impl Empty {
    /// What a slot holds after an empty copy.
    fn leaves(self, before: &Table, held: Capability, copied: &Copied) -> Capability {
        match self {
            Empty::WhatItHeld => held,
            Empty::WhatTheSourceHas => before.record(copied.source).slots[usize::from(copied.slot)],
            Empty::WhatNobodyElseHas if is_shared(before, copied.holder, held) => Capability::EMPTY,
            Empty::WhatNobodyElseHas => held,
        }
    }
}

/// Whether an object other than the holder has a capability over the same target.
fn is_shared(table: &Table, holder: u8, held: Capability) -> bool {
    let others = (0..OBJECTS as u8).filter(|&n| n != holder);
    let mut capabilities = others.flat_map(|n| table.record(n).capabilities());
    capabilities.any(|other| other.target == held.target)
}

impl Makes {
    /// Whether an unborn number outside the actor's stock can be made.
    fn reaches(self, table: &Table, n: u8) -> bool {
        let stocked = table.records.iter().any(|r| set::contains(r.stock, n));
        match self {
            Makes::OwnStock => false,
            Makes::OwnOrNoStock => !stocked,
            Makes::AnyUnborn => true,
        }
    }
}

impl Recorded {
    /// The maker of what the actor makes.
    fn maker(self, before: &Table, actor: u8) -> u8 {
        let names_actor = |record: &Record| {
            let mut held = record.capabilities();
            held.any(|held| held.target == actor)
        };
        let lowest = match self {
            Recorded::Actor => None,
            Recorded::LowestAlive => numbers_where(before, Record::is_alive).first().copied(),
            Recorded::HolderOfActor => numbers_where(before, names_actor).first().copied(),
        };
        lowest.unwrap_or(actor)
    }
}

/// The target of an actor's slot.
fn target_of(before: &Table, actor: u8, t: u8) -> u8 {
    before.record(actor).slots[usize::from(t)].target
}

impl Rules {
    /// One request on a table lent to be changed, with its reply.
    pub fn step_in_place(&self, table: &mut Table, request: &Request) -> u8 {
        let before = table.clone();
        if let Request::Allocate { actor, n, .. } = request {
            // The model's allocate then makes n if these rules reach it. So the table stays sound, and
            // nothing but the broken rule shows.
            self.move_into_stock(table, *actor, *n);
        }
        if let Request::Reclaim { actor, t } = request {
            self.strengthen(table, *actor, *t);
        }
        let mut reply = step::step_in_place(table, request);
        if reply == 0 && self.is_in_use(&before, request) {
            reply = Refusal::TargetAlive.number();
        }
        if reply == 0 {
            self.copy_anew(&before, table, request);
            self.keep_slots(&before, table, request);
            self.record_makers(&before, table, request);
            self.leave_reclaimed(&before, table, request);
        } else {
            *table = before;
        }
        reply
    }

    /// Lands the copies of a request that is done by these rules.
    fn copy_anew(&self, before: &Table, table: &mut Table, request: &Request) {
        let rule = |held, copied: &Copied| {
            let copy = match copied.weakened {
                true => self.weakening.of(copied.found),
                false => copied.found,
            };
            if copy.is_empty() {
                self.empty.leaves(before, held, copied)
            } else {
                copy
            }
        };
        if let Some((holder, slots)) = landed_by(before, request, rule) {
            table.record_mut(holder).slots = slots;
        }
    }

    /// Gives a destroyed object back what it keeps by these rules.
    fn keep_slots(&self, before: &Table, table: &mut Table, request: &Request) {
        if let (Destroyed::KindAndSlots, Request::Destroy { actor, t }) = (self.destroyed, request)
        {
            let target = target_of(before, *actor, *t);
            table.record_mut(target).slots = before.record(target).slots;
        }
    }

    /// Records makers by these rules.
    fn record_makers(&self, before: &Table, table: &mut Table, request: &Request) {
        match (self.makers, request) {
            (_, Request::Allocate { actor, n, .. }) => {
                table.record_mut(*n).maker = self.recorded.maker(before, *actor);
            }
            (Makers::TakenByReader, Request::Read { actor, t }) => {
                table.record_mut(target_of(before, *actor, *t)).maker = *actor;
            }
            _ => {}
        }
    }

    /// Gives wr to a slot that is enough for a reclaim by these rules. The model's reclaim then empties it.
    fn strengthen(&self, table: &mut Table, actor: u8, t: u8) {
        let record = table.records.get_mut(usize::from(actor));
        let used = record.and_then(|record| record.slots.get_mut(usize::from(t)));
        if let (Reclaimable::ByWrOrWk, Some(used)) = (self.reclaimable, used) {
            if used.has_any(WK) {
                used.rights |= WR;
            }
        }
    }

    /// Whether a reclaim is refused by these rules though the model does it.
    fn is_in_use(&self, before: &Table, request: &Request) -> bool {
        let Request::Reclaim { actor, t } = request else {
            return false;
        };
        let used = before.record(*actor).slots[usize::from(*t)];
        match self.reclaimable {
            Reclaimable::ByWr | Reclaimable::ByWrOrWk => false,
            Reclaimable::UnlessHeld => is_shared(before, *actor, used),
            Reclaimable::UnlessMaker => before.records.iter().any(|one| one.maker == used.target),
        }
    }

    /// Gives back what a reclaim leaves by these rules, and the number to whom it belongs.
    fn leave_reclaimed(&self, before: &Table, table: &mut Table, request: &Request) {
        let Request::Reclaim { actor, t } = request else {
            return;
        };
        let gone = target_of(before, *actor, *t);
        for n in (0..OBJECTS as u8).filter(|&n| n != gone) {
            let (old, record) = (before.record(n), table.record_mut(n));
            match self.left {
                Left::Capabilities if n != *actor => record.slots = old.slots,
                Left::Makers => record.maker = old.maker,
                _ => {}
            }
        }
        let maker = before.record(gone).maker;
        let returns = self.joins == Joins::ItsMaker && usize::from(maker) < OBJECTS;
        if returns && table.record(maker).is_alive() {
            table.record_mut(*actor).stock &= !set::single(gone);
            table.record_mut(maker).stock |= set::single(gone);
        }
    }

    fn move_into_stock(&self, table: &mut Table, actor: u8, n: u8) {
        let limit = OBJECTS as u8;
        let in_range = actor < limit && n < limit;
        if !in_range || !table.record(actor).is_alive() || table.record(n).status != UNBORN {
            return;
        }
        if self.makes.reaches(table, n) {
            for record in &mut table.records {
                record.stock &= !set::single(n);
            }
            table.record_mut(actor).stock |= set::single(n);
        }
    }
}
