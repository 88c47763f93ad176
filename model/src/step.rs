//! The nine requests, eight of document 01 and reclaim of 2.8 of document 02: what each needs, what refuses it
//! and what it does.
//! A step exists in two forms, table in and table out, and on a table lent to be changed.
//! A copy that comes out empty changes no slot, as 2.4 of document 02 has it; an allocate records who made
//! the object, as 2.7 has it.

use crate::refusal::{reply_number, Refusal};
use crate::set;
use crate::table::{Capability, Record, Slots, Table};
use crate::table::{
    ACTIVE, ALIVE, ALL_RIGHTS, DEAD, NO_MAKER, NO_SLOTS, OBJECTS, RD, SLOTS, TX, WK, WR,
};

/// The largest number of pairs in a list.
pub const MAX_PAIRS: usize = 4;
/// The reply field of a send that asks for no reply slot.
pub const NO_REPLY: u8 = 8;

/// A pair: the actor's slot, the destination slot.
pub type Pair = (u8, u8);

/// A request, a line each as in the documents. Any field may be out of range, and a list of any length
/// can be stated: that is for the step to refuse.
#[rustfmt::skip]
#[derive(Clone, Debug, PartialEq, Eq)]
pub enum Request {
    Read { actor: u8, t: u8 },
    Write { actor: u8, t: u8, word: u32 },
    Fetch { actor: u8, t: u8, i: u8, j: u8 },
    Store { actor: u8, t: u8, i: u8, j: u8 },
    Revoke { actor: u8, t: u8, j: u8 },
    Send { actor: u8, t: u8, word: u32, list: Vec<Pair>, reply: u8 },
    Allocate { actor: u8, n: u8, kind: u8, part: u64, i: u8, list: Vec<Pair> },
    Destroy { actor: u8, t: u8 },
    Reclaim { actor: u8, t: u8 },
    /// A code that is not 1 to 9.
    Unknown { code: u8, actor: u8 },
}

/// The requests by name. The discriminant is the documents' code.
#[derive(Clone, Copy, Debug, PartialEq, Eq)]
#[repr(u8)]
pub enum Code {
    Read = 1,
    Write = 2,
    Fetch = 3,
    Store = 4,
    Revoke = 5,
    Send = 6,
    Allocate = 7,
    Destroy = 8,
    Reclaim = 9,
}

impl Code {
    /// In the order of their numbers, from 1 on.
    pub const ALL: [Code; 9] = [
        Code::Read,
        Code::Write,
        Code::Fetch,
        Code::Store,
        Code::Revoke,
        Code::Send,
        Code::Allocate,
        Code::Destroy,
        Code::Reclaim,
    ];

    /// The request with the number, if there is one.
    pub fn of(number: u8) -> Option<Code> {
        Code::ALL.into_iter().find(|code| code.number() == number)
    }

    pub fn number(self) -> u8 {
        self as u8
    }

    pub fn name(self) -> &'static str {
        match self {
            Code::Read => "read",
            Code::Write => "write",
            Code::Fetch => "fetch",
            Code::Store => "store",
            Code::Revoke => "revoke",
            Code::Send => "send",
            Code::Allocate => "allocate",
            Code::Destroy => "destroy",
            Code::Reclaim => "reclaim",
        }
    }

    /// Number and name, as the documents have them.
    pub fn label(self) -> String {
        format!("{} {}", self.number(), self.name())
    }

    /// The rights of which the used slot needs at least one. An allocate uses no slot.
    pub fn needs(self) -> Option<u8> {
        match self {
            Code::Read | Code::Fetch => Some(RD | WK),
            Code::Write | Code::Store | Code::Revoke | Code::Destroy | Code::Reclaim => Some(WR),
            Code::Send => Some(TX),
            Code::Allocate => None,
        }
    }

    /// The request with this code. It takes those of the fields that it has.
    pub fn request(self, fields: Fields) -> Request {
        let Fields { actor, t, i, j, .. } = fields;
        match self {
            Code::Read => Request::Read { actor, t },
            Code::Write => Request::Write {
                actor,
                t,
                word: fields.word,
            },
            Code::Fetch => Request::Fetch { actor, t, i, j },
            Code::Store => Request::Store { actor, t, i, j },
            Code::Revoke => Request::Revoke { actor, t, j },
            Code::Send => Request::Send {
                actor,
                t,
                word: fields.word,
                list: fields.list,
                reply: fields.reply,
            },
            Code::Allocate => Request::Allocate {
                actor,
                n: fields.n,
                kind: fields.kind,
                part: fields.part,
                i,
                list: fields.list,
            },
            Code::Destroy => Request::Destroy { actor, t },
            Code::Reclaim => Request::Reclaim { actor, t },
        }
    }
}

/// Every field that requests have, by document 01's names. No request has all of them.
#[derive(Clone, Debug, Default)]
pub struct Fields {
    pub actor: u8,
    pub t: u8,
    pub i: u8,
    pub j: u8,
    pub n: u8,
    pub kind: u8,
    pub part: u64,
    pub word: u32,
    pub list: Vec<Pair>,
    pub reply: u8,
}

impl Request {
    /// The number of the request.
    pub fn code(&self) -> u8 {
        match self {
            Request::Read { .. } => Code::Read.number(),
            Request::Write { .. } => Code::Write.number(),
            Request::Fetch { .. } => Code::Fetch.number(),
            Request::Store { .. } => Code::Store.number(),
            Request::Revoke { .. } => Code::Revoke.number(),
            Request::Send { .. } => Code::Send.number(),
            Request::Allocate { .. } => Code::Allocate.number(),
            Request::Destroy { .. } => Code::Destroy.number(),
            Request::Reclaim { .. } => Code::Reclaim.number(),
            Request::Unknown { code, .. } => *code,
        }
    }

    /// The number that makes the request.
    pub fn actor(&self) -> u8 {
        match self {
            Request::Read { actor, .. }
            | Request::Write { actor, .. }
            | Request::Fetch { actor, .. }
            | Request::Store { actor, .. }
            | Request::Revoke { actor, .. }
            | Request::Send { actor, .. }
            | Request::Allocate { actor, .. }
            | Request::Destroy { actor, .. }
            | Request::Reclaim { actor, .. }
            | Request::Unknown { actor, .. } => *actor,
        }
    }

    /// The actor's slot that is used, and the rights of which it needs at least one.
    /// Allocate and unknown codes use no slot.
    pub fn used_slot(&self) -> Option<(u8, u8)> {
        let t = match self {
            Request::Read { t, .. }
            | Request::Write { t, .. }
            | Request::Fetch { t, .. }
            | Request::Store { t, .. }
            | Request::Revoke { t, .. }
            | Request::Send { t, .. }
            | Request::Destroy { t, .. }
            | Request::Reclaim { t, .. } => *t,
            Request::Allocate { .. } | Request::Unknown { .. } => return None,
        };
        Some((t, Code::of(self.code())?.needs()?))
    }

    /// Whether the code is known and no field is out of range.
    fn fields_are_in_range(&self) -> bool {
        let others_are_in_range = match self {
            Request::Read { t, .. }
            | Request::Write { t, .. }
            | Request::Destroy { t, .. }
            | Request::Reclaim { t, .. } => is_slot(*t),
            Request::Fetch { t, i, j, .. } | Request::Store { t, i, j, .. } => {
                is_slot(*t) && is_slot(*i) && is_slot(*j)
            }
            Request::Revoke { t, j, .. } => is_slot(*t) && is_slot(*j),
            Request::Send { t, list, reply, .. } => {
                is_slot(*t) && is_list(list) && *reply <= NO_REPLY
            }
            Request::Allocate {
                n, kind, i, list, ..
            } => is_number(*n) && *kind <= ACTIVE && is_slot(*i) && is_list(list),
            Request::Unknown { .. } => false,
        };
        is_number(self.actor()) && others_are_in_range
    }
}

fn is_number(n: u8) -> bool {
    usize::from(n) < OBJECTS
}

fn is_slot(slot: u8) -> bool {
    usize::from(slot) < SLOTS
}

fn is_list(list: &[Pair]) -> bool {
    list.len() <= MAX_PAIRS && list.iter().all(|&(from, to)| is_slot(from) && is_slot(to))
}

/// One request, table in and table out, with the reply: 0 for done, or the refusal number.
pub fn step(table: &Table, request: &Request) -> (u8, Table) {
    let mut after = table.clone();
    let reply = step_in_place(&mut after, request);
    (reply, after)
}

/// One request on a table lent to be changed. A refused request leaves the table as it was.
pub fn step_in_place(table: &mut Table, request: &Request) -> u8 {
    let outcome = check(table, request);
    if outcome.is_ok() {
        apply(table, request);
    }
    reply_number(&outcome)
}

/// The checks in number order, among those that apply to the request.
fn check(table: &Table, request: &Request) -> Result<(), Refusal> {
    if !table.is_sound() {
        return Err(Refusal::TableNotSound);
    }
    if !request.fields_are_in_range() {
        return Err(Refusal::FieldOutOfRange);
    }
    let actor = table.record(request.actor());
    if !actor.can_act() {
        return Err(Refusal::ActorNotRunning);
    }
    if let Some((t, needed)) = request.used_slot() {
        check_used_slot(table, request, actor.slots[usize::from(t)], needed)?;
    }
    if let Request::Allocate { n, part, .. } = request {
        check_stock(actor, *n, *part)?;
    }
    Ok(())
}

/// Checks 4 to 8, for the requests that use a slot of the actor. Reclaim is for a dead target: in the place of 5
/// it meets 24.
fn check_used_slot(
    table: &Table,
    request: &Request,
    used: Capability,
    needed: u8,
) -> Result<(), Refusal> {
    if used.is_empty() {
        return Err(Refusal::SlotEmpty);
    }
    let target = table.record(used.target);
    match (request, target.is_alive()) {
        (Request::Reclaim { .. }, true) => return Err(Refusal::TargetAlive),
        (Request::Reclaim { .. }, false) | (_, true) => {}
        (_, false) => return Err(Refusal::TargetDead),
    }
    if !used.has_any(needed) {
        return Err(Refusal::RightAbsent);
    }
    if matches!(request, Request::Send { .. }) && !target.is_active() {
        return Err(Refusal::TargetPassive);
    }
    if matches!(request, Request::Destroy { .. }) && used.target == request.actor() {
        return Err(Refusal::DestroyOfActor);
    }
    Ok(())
}

/// Check 9, for allocate alone.
fn check_stock(actor: &Record, n: u8, part: u64) -> Result<(), Refusal> {
    let own = set::contains(actor.stock, n);
    if own && set::is_within(part, actor.stock & !set::single(n)) {
        Ok(())
    } else {
        Err(Refusal::OutsideStock)
    }
}

/// The effect of a request that passed every check.
fn apply(table: &mut Table, request: &Request) {
    let actor = request.actor();
    let before = *table.record(actor);
    let used = match request.used_slot() {
        Some((t, _)) => before.slots[usize::from(t)],
        None => Capability::EMPTY,
    };
    match request {
        Request::Read { .. } => {
            table.record_mut(actor).word = table.record(used.target).word;
        }
        Request::Write { word, .. } => table.record_mut(used.target).word = *word,
        Request::Fetch { i, j, .. } => {
            let found = table.record(used.target).slots[usize::from(*i)];
            copy_to(&mut table.record_mut(actor).slots, *j, fetched(used, found));
        }
        Request::Store { i, j, .. } => {
            let copy = before.slots[usize::from(*i)];
            copy_to(&mut table.record_mut(used.target).slots, *j, copy);
        }
        Request::Revoke { j, .. } => {
            table.record_mut(used.target).slots[usize::from(*j)] = Capability::EMPTY;
        }
        Request::Send {
            word, list, reply, ..
        } => {
            let target = table.record_mut(used.target);
            target.word = *word;
            copy_pairs(&before.slots, list, &mut target.slots);
            if *reply != NO_REPLY {
                target.slots[usize::from(*reply)] = Capability::new(actor, TX);
            }
        }
        Request::Allocate { .. } => apply_allocate(table, request, &before),
        Request::Destroy { .. } => apply_destroy(table, actor, used.target),
        Request::Reclaim { .. } => apply_reclaim(table, actor, used.target),
        Request::Unknown { .. } => {}
    }
}

/// The effect of allocate. `before` is the actor's record before the request.
fn apply_allocate(table: &mut Table, request: &Request, before: &Record) {
    if let Request::Allocate {
        actor,
        n,
        kind,
        part,
        i,
        list,
    } = request
    {
        let mut made = Record {
            status: ALIVE,
            kind: *kind,
            word: 0,
            stock: *part,
            slots: NO_SLOTS,
            maker: *actor,
        };
        copy_pairs(&before.slots, list, &mut made.slots);
        *table.record_mut(*n) = made;
        let maker = table.record_mut(*actor);
        maker.stock &= !(set::single(*n) | *part);
        maker.slots[usize::from(*i)] = Capability::new(*n, ALL_RIGHTS);
    }
}

/// The effect of destroy: kind and maker of the target stay, and its stock joins the actor's.
fn apply_destroy(table: &mut Table, actor: u8, target: u8) {
    let destroyed = *table.record(target);
    *table.record_mut(target) = Record {
        status: DEAD,
        kind: destroyed.kind,
        word: 0,
        stock: 0,
        slots: NO_SLOTS,
        maker: destroyed.maker,
    };
    table.record_mut(actor).stock |= destroyed.stock;
}

/// The effect of reclaim: the target's number is unborn and in the actor's stock, and nothing names it any more,
/// whoever holds or was made.
fn apply_reclaim(table: &mut Table, actor: u8, target: u8) {
    *table.record_mut(target) = Record::UNBORN;
    for record in &mut table.records {
        for slot in &mut record.slots {
            if slot.target == target {
                *slot = Capability::EMPTY;
            }
        }
        if record.maker == target {
            record.maker = NO_MAKER;
        }
    }
    table.record_mut(actor).stock |= set::single(target);
}

/// Copies pairs left to right. The source is a copy made before the request, because the
/// destination may be the actor itself.
fn copy_pairs(source: &Slots, list: &[Pair], destination: &mut Slots) {
    for &(from, to) in list {
        copy_to(destination, to, source[usize::from(from)]);
    }
}

/// Copies into one slot.
fn copy_to(slots: &mut Slots, to: u8, copy: Capability) {
    let slot = &mut slots[usize::from(to)];
    *slot = landed(*slot, copy);
}

/// What a slot holds after a copy to it: the copy, or what it held if the copy is empty.
pub fn landed(held: Capability, copy: Capability) -> Capability {
    if copy.is_empty() {
        held
    } else {
        copy
    }
}

/// What a fetch copies of what it finds: weakened if rd is absent from the used slot.
fn fetched(used: Capability, found: Capability) -> Capability {
    if used.has_any(RD) {
        found
    } else {
        weaken(found)
    }
}

/// Weakening gives wk if rd or wk was present; otherwise the copy is empty.
pub fn weaken(capability: Capability) -> Capability {
    if capability.has_any(RD | WK) {
        Capability::new(capability.target, WK)
    } else {
        Capability::EMPTY
    }
}
