//! Steps with empty copies, of each kind on demand. Slots of a random table are filled and emptied for them.

use super::requests::{step_case, StepCase};
use super::tables::numbers_where;
use crate::empty_kinds::{empty_kinds, EmptyKind};
use crate::rng::Rng;
use yavrinks_model::step::{step, Code, Pair, Request, MAX_PAIRS, NO_REPLY};
use yavrinks_model::table::{Capability, Record, Table, ALL_RIGHTS, RD, SLOTS, TX, WK, WR};

/// A case of the kind, which is done.
pub fn empty_copy_case(rng: &mut Rng, kind: EmptyKind) -> StepCase {
    loop {
        let code = code(rng, kind).number();
        let mut case = step_case(rng, code, 0);
        arrange(rng, &mut case, kind);
        // Where actor and target are one, a slot may have been arranged twice.
        let is_done = step(&case.table, &case.request).0 == 0;
        if is_done && empty_kinds(&case.table, &case.request).contains(&kind) {
            return case;
        }
    }
}

fn code(rng: &mut Rng, kind: EmptyKind) -> Code {
    match kind {
        EmptyKind::FetchWithRd
        | EmptyKind::FetchWithoutRd
        | EmptyKind::WeakenedWr
        | EmptyKind::WeakenedTx
        | EmptyKind::WeakenedWrTx => Code::Fetch,
        EmptyKind::Store => Code::Store,
        EmptyKind::Allocate
        | EmptyKind::AllocateEmptyAfterFilled
        | EmptyKind::AllocateFilledAfterEmpty => Code::Allocate,
        EmptyKind::OnEmpty => rng
            .pick(&[Code::Fetch, Code::Store, Code::Send])
            .unwrap_or(Code::Fetch),
        EmptyKind::Revoke => Code::Revoke,
        _ => Code::Send,
    }
}

/// Fills and empties slots, and draws the list anew, so that the case is of the kind.
fn arrange(rng: &mut Rng, case: &mut StepCase, kind: EmptyKind) {
    let actor = case.request.actor();
    let destination = match kind {
        EmptyKind::OnEmpty => Capability::EMPTY,
        _ => any_capability(rng, &case.table),
    };
    match &case.request {
        Request::Fetch { t, i, j, .. } => {
            let found = fetched(rng, &case.table, kind);
            let used = slot_mut(&mut case.table, actor, *t);
            used.rights = using(rng, kind);
            let target = used.target;
            *slot_mut(&mut case.table, target, *i) = found;
            *slot_mut(&mut case.table, actor, *j) = destination;
        }
        Request::Store { t, i, j, .. } => {
            *slot_mut(&mut case.table, actor, *i) = Capability::EMPTY;
            let target = slot_mut(&mut case.table, actor, *t).target;
            *slot_mut(&mut case.table, target, *j) = destination;
        }
        Request::Revoke { t, j, .. } => {
            let target = slot_mut(&mut case.table, actor, *t).target;
            *slot_mut(&mut case.table, target, *j) = destination;
        }
        Request::Send { .. } | Request::Allocate { .. } => {
            arrange_pairs(rng, case, kind, destination);
        }
        _ => {}
    }
}

fn slot_mut(table: &mut Table, n: u8, slot: u8) -> &mut Capability {
    &mut table.record_mut(n).slots[usize::from(slot)]
}

fn any_capability(rng: &mut Rng, table: &Table) -> Capability {
    let born = numbers_where(table, Record::is_born);
    Capability::new(rng.pick(&born).unwrap_or(0), rng.byte(1, ALL_RIGHTS))
}

/// What a fetch of the kind finds.
fn fetched(rng: &mut Rng, table: &Table, kind: EmptyKind) -> Capability {
    let rights = match kind {
        EmptyKind::WeakenedWr => WR,
        EmptyKind::WeakenedTx => TX,
        EmptyKind::WeakenedWrTx => WR | TX,
        _ => return Capability::EMPTY,
    };
    Capability::new(any_capability(rng, table).target, rights)
}

/// The rights that a fetch of the kind uses.
fn using(rng: &mut Rng, kind: EmptyKind) -> u8 {
    let others = rng.byte(0, ALL_RIGHTS);
    match kind {
        EmptyKind::FetchWithRd => others | RD,
        EmptyKind::OnEmpty => others | rng.pick(&[RD, WK]).unwrap_or(RD),
        _ => (others | WK) & !RD,
    }
}

/// The slots of a list that is made for a kind: its destination, and the actor's two that are copied to it.
struct Places {
    to: u8,
    empty: u8,
    filled: u8,
}

/// The list for the kind, the reply slot, and what the slots hold.
fn arrange_pairs(rng: &mut Rng, case: &mut StepCase, kind: EmptyKind, destination: Capability) {
    let actor = case.request.actor();
    let mut slots: Vec<u8> = (0..SLOTS as u8).collect();
    rng.shuffle(&mut slots);
    let places = Places {
        to: slots[0],
        empty: slots[1],
        filled: slots[2],
    };
    *slot_mut(&mut case.table, actor, places.filled) = any_capability(rng, &case.table);
    let pairs = pairs(rng, kind, &places);
    match &mut case.request {
        Request::Send { t, list, reply, .. } => {
            (*list, *reply) = (pairs, drawn_reply(rng, kind, &places));
            let used = slot_mut(&mut case.table, actor, *t);
            used.rights |= TX;
            if kind == EmptyKind::SendToOneself {
                used.target = actor;
            }
            let target = used.target;
            *slot_mut(&mut case.table, target, places.to) = destination;
        }
        Request::Allocate { i, list, .. } => {
            *list = pairs;
            // The new object's slot is empty; the maker's own are filled, so that a mix-up shows.
            *slot_mut(&mut case.table, actor, *i) = any_capability(rng, &case.table);
            *slot_mut(&mut case.table, actor, places.to) = destination;
        }
        _ => {}
    }
    *slot_mut(&mut case.table, actor, places.empty) = Capability::EMPTY;
}

/// The pairs to the one slot, among others to other slots.
fn pairs(rng: &mut Rng, kind: EmptyKind, places: &Places) -> Vec<Pair> {
    let Places { to, empty, filled } = *places;
    let pairs = match kind {
        EmptyKind::SendEmptyAfterFilled
        | EmptyKind::ReplyOnEmptyAfterFilled
        | EmptyKind::AllocateEmptyAfterFilled => vec![(filled, to), (empty, to)],
        EmptyKind::SendFilledAfterEmpty
        | EmptyKind::ReplyOnFilledAfterEmpty
        | EmptyKind::AllocateFilledAfterEmpty => vec![(empty, to), (filled, to)],
        _ => vec![(empty, to)],
    };
    among_others(rng, pairs, to)
}

/// The reply slot: on top of the pairs, or elsewhere, or none.
fn drawn_reply(rng: &mut Rng, kind: EmptyKind, places: &Places) -> u8 {
    match kind {
        EmptyKind::ReplyOnKept
        | EmptyKind::ReplyOnEmptyAfterFilled
        | EmptyKind::ReplyOnFilledAfterEmpty => places.to,
        _ => {
            let others = [places.empty, places.filled, NO_REPLY];
            rng.pick(&others).unwrap_or(NO_REPLY)
        }
    }
}

/// The pairs in their order, between others to other slots.
fn among_others(rng: &mut Rng, mut pairs: Vec<Pair>, to: u8) -> Vec<Pair> {
    for _ in 0..rng.between(0, (MAX_PAIRS - pairs.len()) as u64) {
        let place = rng.between(0, pairs.len() as u64) as usize;
        let other = (to + rng.byte(1, 7)) % SLOTS as u8;
        pairs.insert(place, (rng.byte(0, 7), other));
    }
    pairs
}
