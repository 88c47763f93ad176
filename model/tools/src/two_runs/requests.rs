//! Random requests of clean actors and of others. Most can be done: they use slots that are
//! filled, rights that are there and numbers in stock. Some of these are turned towards empty copies. The
//! rest is arbitrary.

use crate::generate::{actor_mut, any_request, turn_to_empty};
use crate::rng::Rng;
use yavrinks_model::set;
use yavrinks_model::step::{Code, Fields, Pair, Request, MAX_PAIRS, NO_REPLY};
use yavrinks_model::table::{Record, Table, ACTIVE, ALIVE, DEAD, PASSIVE, SLOTS, UNBORN};

/// Codes by how often they are tried. Revoke and destroy are rare, since they end what the
/// others need. Reclaim comes often, since few slots serve it.
const CODES: [u8; 25] = [
    1, 1, 2, 2, 2, 3, 3, 3, 3, 4, 4, 4, 5, 6, 6, 6, 7, 7, 7, 8, 8, 9, 9, 9, 9,
];

/// A request whose actor is clean. There must be a clean object.
pub fn clean_request(rng: &mut Rng, table: &Table, clean: u64) -> Request {
    let all: Vec<u8> = set::numbers(clean).collect();
    let able = able_actors(table, clean);
    match rng.pick(&able) {
        Some(actor) if rng.percent(92) => likely_request(rng, table, actor, clean),
        _ => {
            // Dead and passive ones ask too, and so do codes and fields without sense.
            let actor = rng.pick(&all).unwrap_or(0);
            let mut request = any_request(rng);
            *actor_mut(&mut request) = actor;
            request
        }
    }
}

/// A request whose actor is not clean, be it a member, bound, unborn or no number at all.
pub fn other_request(rng: &mut Rng, table: &Table, clean: u64) -> Request {
    let able = able_actors(table, !clean);
    match rng.pick(&able) {
        Some(actor) if rng.percent(92) => likely_request(rng, table, actor, clean),
        _ => loop {
            let request = any_request(rng);
            if !set::contains(clean, request.actor()) {
                return request;
            }
        },
    }
}

/// The alive and active objects of a set.
pub fn able_actors(table: &Table, of: u64) -> Vec<u8> {
    set::numbers(of)
        .filter(|&n| table.record(n).can_act())
        .collect()
}

/// A request that is done, if a few attempts find one.
fn likely_request(rng: &mut Rng, table: &Table, actor: u8, clean: u64) -> Request {
    for _ in 0..5 {
        let code = rng.pick(&CODES).and_then(Code::of).unwrap_or(Code::Read);
        let found = if code == Code::Allocate {
            allocate(rng, table, actor)
        } else {
            through_slot(rng, table, actor, code, clean)
        };
        if let Some(mut request) = found {
            if rng.percent(20) {
                turn_to_empty(rng, table, &mut request);
            }
            return request;
        }
    }
    let mut request = any_request(rng);
    *actor_mut(&mut request) = actor;
    request
}

/// A request of the actor with the code, through a slot that serves it.
pub fn through_slot(
    rng: &mut Rng,
    table: &Table,
    actor: u8,
    code: Code,
    clean: u64,
) -> Option<Request> {
    let t = serving_slot(rng, table, actor, code, clean)?;
    Some(request_through(rng, table, actor, code, t))
}

/// A slot of the actor that serves the code. Slots that lead across, from clean to other objects
/// or back, are preferred: under sound rules these have wk alone and do no harm.
fn serving_slot(rng: &mut Rng, table: &Table, actor: u8, code: Code, clean: u64) -> Option<u8> {
    let mut slots: Vec<u8> = (0..SLOTS as u8)
        .filter(|&t| slot_serves(table, actor, code, t))
        .collect();
    let leads_across = |t: &u8| {
        let target = table.record(actor).slots[usize::from(*t)].target;
        set::contains(clean, target) != set::contains(clean, actor)
    };
    if slots.iter().any(leads_across) && rng.percent(60) {
        slots.retain(leads_across);
    }
    rng.pick(&slots)
}

fn slot_serves(table: &Table, actor: u8, code: Code, t: u8) -> bool {
    let Some(needed) = code.needs() else {
        return false;
    };
    let used = table.record(actor).slots[usize::from(t)];
    let target = table.record(used.target);
    let status = if code == Code::Reclaim { DEAD } else { ALIVE };
    used.has_any(needed)
        && target.status == status
        && (code != Code::Send || target.is_active())
        && (code != Code::Destroy || used.target != actor)
}

/// A request with the code that uses slot t.
fn request_through(rng: &mut Rng, table: &Table, actor: u8, code: Code, t: u8) -> Request {
    let own = table.record(actor);
    let target = table.record(own.slots[usize::from(t)].target);
    let fields = Fields {
        actor,
        t,
        word: rng.between(0, 99) as u32,
        j: rng.byte(0, 7),
        ..Fields::default()
    };
    code.request(match code {
        Code::Fetch => Fields {
            i: filled_slot(rng, target),
            j: free_slot(rng, own),
            ..fields
        },
        Code::Store => Fields {
            i: filled_slot(rng, own),
            ..fields
        },
        Code::Send => Fields {
            list: pairs(rng, own),
            reply: rng.byte(0, NO_REPLY),
            ..fields
        },
        _ => fields,
    })
}

/// Mostly a filled slot of the record.
fn filled_slot(rng: &mut Rng, record: &Record) -> u8 {
    slot_where(rng, record, |filled| filled)
}

/// Mostly an empty slot of the record, so that what the object holds is kept for later.
fn free_slot(rng: &mut Rng, record: &Record) -> u8 {
    slot_where(rng, record, |filled| !filled)
}

fn slot_where(rng: &mut Rng, record: &Record, wanted: impl Fn(bool) -> bool) -> u8 {
    let slots: Vec<u8> = (0..SLOTS as u8)
        .filter(|&k| wanted(!record.slots[usize::from(k)].is_empty()))
        .collect();
    match rng.pick(&slots) {
        Some(slot) if rng.percent(85) => slot,
        _ => rng.byte(0, 7),
    }
}

/// A list of pairs that copy mostly filled slots. A few lists are too long.
fn pairs(rng: &mut Rng, own: &Record) -> Vec<Pair> {
    let longest = MAX_PAIRS as u64;
    let length = if rng.percent(97) {
        rng.between(0, longest)
    } else {
        rng.between(longest + 1, longest + 3)
    };
    (0..length)
        .map(|_| (filled_slot(rng, own), rng.byte(0, 7)))
        .collect()
}

/// An allocate of a number in stock, or now and then of another unborn number.
pub fn allocate(rng: &mut Rng, table: &Table, actor: u8) -> Option<Request> {
    let own = table.record(actor);
    let n = if rng.percent(88) {
        let stock: Vec<u8> = set::numbers(own.stock).collect();
        rng.pick(&stock)?
    } else {
        number_of_others(rng, table)?
    };
    let rest = own.stock & !set::single(n);
    Some(Request::Allocate {
        actor,
        n,
        kind: if rng.percent(60) { ACTIVE } else { PASSIVE },
        part: if rng.percent(50) {
            0
        } else {
            rest & rng.bits()
        },
        i: free_slot(rng, own),
        list: pairs(rng, own),
    })
}

/// An unborn number: the lowest that is in no stock, as a common supply would give it out, or any.
fn number_of_others(rng: &mut Rng, table: &Table) -> Option<u8> {
    let stocked = table.records.iter().fold(0, |all, r| all | r.stock);
    let unborn: Vec<u8> = (0..64)
        .filter(|&n| table.record(n).status == UNBORN)
        .collect();
    let lowest_free = unborn.iter().copied().find(|&n| !set::contains(stocked, n));
    match lowest_free {
        Some(n) if rng.percent(60) => Some(n),
        _ => rng.pick(&unborn),
    }
}
