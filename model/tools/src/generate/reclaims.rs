//! Random reclaims that are done, of each kind that a wrong reading needs: who else names the number, where, and
//! which number it is.

use super::requests::{step_case, StepCase};
use super::tables::numbers_where;
use crate::rng::Rng;
use yavrinks_model::set;
use yavrinks_model::step::{Code, Request};
use yavrinks_model::table::{Capability, Record, Table};
use yavrinks_model::table::{ACTIVE, ALL_RIGHTS, NO_MAKER, PASSIVE, SLOTS, UNBORN};

/// What is so in a reclaim.
#[derive(Clone, Copy, Debug, PartialEq, Eq, PartialOrd, Ord)]
pub enum ReclaimKind {
    /// Nobody but the actor names the number, and it made nothing.
    Alone,
    /// Active objects hold capabilities over it.
    HeldByActive,
    /// Passive objects do.
    HeldByPassive,
    /// One object does in several slots.
    InSeveralSlots,
    /// The actor does in several slots.
    OwnSlots,
    /// It made others, dead and alive.
    Made,
    /// It made the actor.
    MadeTheActor,
    /// It was made, and active.
    WasMade,
    /// It is 0, the target of an empty slot.
    Zero,
    /// It is 63.
    Last,
}

impl ReclaimKind {
    pub const ALL: [ReclaimKind; 10] = [
        ReclaimKind::Alone,
        ReclaimKind::HeldByActive,
        ReclaimKind::HeldByPassive,
        ReclaimKind::InSeveralSlots,
        ReclaimKind::OwnSlots,
        ReclaimKind::Made,
        ReclaimKind::MadeTheActor,
        ReclaimKind::WasMade,
        ReclaimKind::Zero,
        ReclaimKind::Last,
    ];

    /// Whether a reclaim that is done on this table is of the kind.
    pub fn is_in(self, table: &Table, actor: u8, target: u8) -> bool {
        let names = |record: &Record| {
            let held = record.capabilities();
            held.filter(|held| held.target == target).count()
        };
        let holders = |kind| {
            let held = |&n: &u8| n != actor && table.record(n).kind == kind;
            let mut holders = numbers_where(table, |record| names(record) != 0);
            holders.retain(held);
            holders
        };
        let others = [holders(ACTIVE), holders(PASSIVE)].concat();
        let made = numbers_where(table, |record| record.maker == target);
        let record = table.record(target);
        match self {
            ReclaimKind::Alone => others.is_empty() && made.is_empty(),
            ReclaimKind::HeldByActive => !holders(ACTIVE).is_empty(),
            ReclaimKind::HeldByPassive => !holders(PASSIVE).is_empty(),
            ReclaimKind::InSeveralSlots => others.iter().any(|&n| names(table.record(n)) >= 2),
            ReclaimKind::OwnSlots => names(table.record(actor)) >= 2,
            ReclaimKind::Made => made.iter().filter(|&&n| n != target).count() >= 2,
            ReclaimKind::MadeTheActor => made.contains(&actor),
            ReclaimKind::WasMade => record.maker != NO_MAKER && record.is_active(),
            ReclaimKind::Zero => target == 0,
            ReclaimKind::Last => target == 63,
        }
    }
}

/// The actor and the target of a reclaim.
fn target_of(case: &StepCase) -> Option<(u8, u8)> {
    let Request::Reclaim { actor, t } = case.request else {
        return None;
    };
    let used = case.table.record(actor).slots[usize::from(t)];
    Some((actor, used.target))
}

/// A reclaim of the kind that is done.
pub fn reclaim_case(rng: &mut Rng, kind: ReclaimKind) -> StepCase {
    loop {
        let mut case = step_case(rng, Code::Reclaim.number(), 0);
        bend(rng, &mut case, kind);
        let is_so = target_of(&case).is_some_and(|(actor, n)| kind.is_in(&case.table, actor, n));
        if is_so {
            return case;
        }
    }
}

/// A reclaim that is refused by 24 or 6, through a slot with these rights.
pub fn reclaim_through(rng: &mut Rng, aim: u8, rights: u8) -> StepCase {
    let mut case = step_case(rng, Code::Reclaim.number(), aim);
    if let Request::Reclaim { actor, t } = case.request {
        case.table.record_mut(actor).slots[usize::from(t)].rights = rights;
    }
    case
}

/// Turns a reclaim towards the kind, as far as its table can be.
fn bend(rng: &mut Rng, case: &mut StepCase, kind: ReclaimKind) {
    let Some((actor, target)) = target_of(case) else {
        return;
    };
    let used = match case.request {
        Request::Reclaim { t, .. } => usize::from(t),
        _ => 0,
    };
    let others = |table: &Table, kind| {
        let able = |record: &Record| record.is_alive() && record.kind == kind;
        let mut others = numbers_where(table, able);
        others.retain(|&n| n != actor);
        others
    };
    match kind {
        ReclaimKind::Alone => forget(&mut case.table, (actor, used), target),
        ReclaimKind::HeldByActive | ReclaimKind::InSeveralSlots => {
            let holders = others(&case.table, ACTIVE);
            let slots = if kind == ReclaimKind::HeldByActive {
                1
            } else {
                3
            };
            hold(rng, &mut case.table, &holders, target, slots);
        }
        ReclaimKind::HeldByPassive => {
            let holders = others(&case.table, PASSIVE);
            hold(rng, &mut case.table, &holders, target, 2);
        }
        ReclaimKind::OwnSlots => {
            for k in (0..SLOTS).filter(|&k| k != used) {
                if rng.percent(40) {
                    let rights = rng.byte(1, ALL_RIGHTS);
                    case.table.record_mut(actor).slots[k] = Capability::new(target, rights);
                }
            }
        }
        ReclaimKind::Made => {
            for n in numbers_where(&case.table, Record::is_born) {
                if rng.percent(30) {
                    case.table.record_mut(n).maker = target;
                }
            }
        }
        ReclaimKind::MadeTheActor => case.table.record_mut(actor).maker = target,
        ReclaimKind::WasMade => {
            let record = case.table.record_mut(target);
            (record.kind, record.maker) = (ACTIVE, actor);
        }
        ReclaimKind::Zero => move_number(&mut case.table, (actor, used), target, 0),
        ReclaimKind::Last => move_number(&mut case.table, (actor, used), target, 63),
    }
}

/// Empties all slots that name the number but the used one, and takes away what it made.
fn forget(table: &mut Table, used: (u8, usize), target: u8) {
    for n in 0..64 {
        let record = table.record_mut(n);
        for k in (0..SLOTS).filter(|&k| (n, k) != used) {
            if record.slots[k].target == target {
                record.slots[k] = Capability::EMPTY;
            }
        }
        if record.maker == target {
            record.maker = NO_MAKER;
        }
    }
}

/// Puts capabilities over the number into up to so many slots of one of the holders.
fn hold(rng: &mut Rng, table: &mut Table, holders: &[u8], target: u8, slots: usize) {
    if let Some(holder) = rng.pick(holders) {
        for _ in 0..slots {
            let k = rng.between(0, 7) as usize;
            let rights = rng.byte(1, ALL_RIGHTS);
            table.record_mut(holder).slots[k] = Capability::new(target, rights);
        }
    }
}

/// Lets a number that is unborn or dead be the one that is reclaimed, with a dead record like that of the target.
fn move_number(table: &mut Table, (actor, used): (u8, usize), target: u8, n: u8) {
    if table.record(n).is_alive() || n == target {
        return;
    }
    if table.record(n).status == UNBORN {
        for record in &mut table.records {
            record.stock &= !set::single(n);
        }
        *table.record_mut(n) = *table.record(target);
    }
    table.record_mut(actor).slots[used].target = n;
}
