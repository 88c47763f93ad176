//! Wrong readings of 2.8: what somebody could take a reclaim, or the clean objects after it, to be.
//! The tools put their cases to this file too, so that there is one list.

use yavrinks_model::runs::clean_after;
use yavrinks_model::set;
use yavrinks_model::step::{step, Request};
use yavrinks_model::table::{Capability, Record, Table, RD, SLOTS, WK, WR};

/// A wrong reading of what a reclaim is answered or of what it does.
#[derive(Clone, Copy, Debug, PartialEq, Eq, PartialOrd, Ord)]
pub enum Misread {
    /// A target that is alive can be reclaimed too.
    AliveToo,
    /// A dead target is refused by 5, as everywhere else.
    DeadRefused,
    /// The right is looked at before the target.
    RightFirst,
    /// wk is enough.
    WkIsEnough,
    /// rd is enough.
    RdIsEnough,
    /// The actor's capabilities alone are emptied.
    OwnSlotsAlone,
    /// The used slot alone is emptied.
    UsedSlotAlone,
    /// Of each holder the first capability alone is emptied.
    FirstSlotOfEach,
    /// Capabilities of passive holders stay.
    PassiveSkipped,
    /// No maker byte changes.
    MakersLeft,
    /// The maker byte of the actor alone changes.
    OwnMakerAlone,
    /// What a reclaimed object made has the actor as its maker.
    ActorIsMaker,
    /// The number is in no stock.
    NotInStock,
    /// The actor's stock is the number alone.
    StockAlone,
    /// The record keeps its kind.
    KindLeft,
    /// The record keeps its maker.
    MakerLeft,
    /// The record stays dead.
    StaysDead,
    /// Refused while another object holds a capability over the number.
    RefusedWhileHeld,
    /// Refused while a passive object holds one.
    RefusedWhileHeldByPassive,
}

impl Misread {
    pub const ALL: [Misread; 19] = [
        Misread::AliveToo,
        Misread::DeadRefused,
        Misread::RightFirst,
        Misread::WkIsEnough,
        Misread::RdIsEnough,
        Misread::OwnSlotsAlone,
        Misread::UsedSlotAlone,
        Misread::FirstSlotOfEach,
        Misread::PassiveSkipped,
        Misread::MakersLeft,
        Misread::OwnMakerAlone,
        Misread::ActorIsMaker,
        Misread::NotInStock,
        Misread::StockAlone,
        Misread::KindLeft,
        Misread::MakerLeft,
        Misread::StaysDead,
        Misread::RefusedWhileHeld,
        Misread::RefusedWhileHeldByPassive,
    ];

    /// The step by this reading. What is no reclaim, and what is refused by 1 to 4, is as ever.
    pub fn step(self, table: &Table, request: &Request) -> (u8, Table) {
        let (reply, after) = step(table, request);
        let Request::Reclaim { actor, t } = *request else {
            return (reply, after);
        };
        if matches!(reply, 1..=4) {
            return (reply, after);
        }
        let used = table.record(actor).slots[usize::from(t)];
        let refused = |number| (number, table.clone());
        let held_by = |holds: fn(&Record) -> bool| {
            let others = (0..).zip(&table.records).filter(|&(n, _)| n != actor);
            let mut held = others.filter(|(_, record)| holds(record));
            held.any(|(_, record)| record.capabilities().any(|held| held.target == used.target))
        };
        match self {
            Misread::AliveToo if used.has_any(WR) => (0, reclaimed(table, actor, used.target)),
            Misread::AliveToo => refused(6),
            Misread::DeadRefused if reply != 24 => refused(5),
            Misread::RightFirst if !used.has_any(WR) => refused(6),
            Misread::WkIsEnough if reply == 6 && used.has_any(WK) => {
                (0, reclaimed(table, actor, used.target))
            }
            Misread::RdIsEnough if reply == 6 && used.has_any(RD) => {
                (0, reclaimed(table, actor, used.target))
            }
            Misread::RefusedWhileHeld if reply == 0 && held_by(|_| true) => refused(24),
            Misread::RefusedWhileHeldByPassive if reply == 0 && held_by(|r| !r.is_active()) => {
                refused(24)
            }
            _ if reply == 0 => (0, self.left(table, after, actor, t)),
            _ => (reply, after),
        }
    }

    /// The table after a reclaim by this reading, which leaves or alters something.
    fn left(self, before: &Table, mut after: Table, actor: u8, t: u8) -> Table {
        let target = before.record(actor).slots[usize::from(t)].target;
        for n in 0..64 {
            let old = before.record(n);
            let mut first = true;
            for k in 0..SLOTS {
                if old.slots[k].is_empty() || old.slots[k].target != target {
                    continue;
                }
                let stays = match self {
                    Misread::OwnSlotsAlone => n != actor,
                    Misread::UsedSlotAlone => (n, k) != (actor, usize::from(t)),
                    Misread::FirstSlotOfEach => !first,
                    Misread::PassiveSkipped => !old.is_active(),
                    _ => false,
                };
                first = false;
                if stays {
                    after.record_mut(n).slots[k] = old.slots[k];
                }
            }
            if old.maker == target && n != target {
                after.record_mut(n).maker = match self {
                    Misread::MakersLeft => target,
                    Misread::OwnMakerAlone if n != actor => target,
                    Misread::ActorIsMaker => actor,
                    _ => 64,
                };
            }
        }
        match self {
            Misread::NotInStock => after.record_mut(actor).stock &= !set::single(target),
            Misread::StockAlone => after.record_mut(actor).stock = set::single(target),
            Misread::KindLeft => after.record_mut(target).kind = before.record(target).kind,
            Misread::MakerLeft => after.record_mut(target).maker = before.record(target).maker,
            Misread::StaysDead => *after.record_mut(target) = *before.record(target),
            _ => {}
        }
        after
    }
}

/// The table after a reclaim of a number, whatever its status and whatever the slot.
fn reclaimed(table: &Table, actor: u8, target: u8) -> Table {
    let mut after = table.clone();
    *after.record_mut(target) = Record::UNBORN;
    for record in &mut after.records {
        let named = |slot: &&mut Capability| slot.target == target;
        let named = record.slots.iter_mut().filter(named);
        named.for_each(|slot| *slot = Capability::EMPTY);
        if record.maker == target {
            record.maker = 64;
        }
    }
    after.record_mut(actor).stock |= set::single(target);
    after
}

/// A wrong reading of which objects are clean after a request.
#[derive(Clone, Copy, Debug, PartialEq, Eq)]
pub enum MisreadClean {
    /// As before 2.8: once clean, always clean, whoever makes the number anew.
    ByFirstMaking,
    /// A reclaimed number stays clean until another makes it anew.
    UnbornStays,
    /// A clean object that dies is clean no more.
    UntilDeath,
}

impl MisreadClean {
    pub const ALL: [MisreadClean; 3] = [
        MisreadClean::ByFirstMaking,
        MisreadClean::UnbornStays,
        MisreadClean::UntilDeath,
    ];

    /// The clean objects after a request by this reading.
    pub fn after(self, before: &Table, clean: u64, request: &Request, reply: u8) -> u64 {
        let now = clean_after(before, clean, request, reply);
        let gone = clean & !now;
        match (self, request) {
            (MisreadClean::ByFirstMaking, _) => now | gone,
            (MisreadClean::UnbornStays, Request::Reclaim { .. }) => now | gone,
            (MisreadClean::UntilDeath, Request::Destroy { actor, t }) if reply == 0 => {
                let used = before.record(*actor).slots[usize::from(*t)];
                now & !set::single(used.target)
            }
            _ => now,
        }
    }
}
