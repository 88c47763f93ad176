//! Requests turned towards empty copies, on a table that stays as it is.

use crate::copies::copies;
use crate::rng::Rng;
use yavrinks_model::step::{Pair, Request, MAX_PAIRS};
use yavrinks_model::table::{Slots, Table, SLOTS};

/// Turns a request that copies towards empty copies, mostly on filled slots. Where the table has no
/// fitting slot, the request stays as it is.
pub fn turn_to_empty(rng: &mut Rng, table: &Table, request: &mut Request) {
    let own = table.record(request.actor()).slots;
    let target = match request.used_slot() {
        Some((t, _)) => table.record(own[usize::from(t)].target).slots,
        None => own,
    };
    match request {
        Request::Fetch { .. } => {
            if let Some(i) = empty_source(rng, table, request) {
                set_slots(request, i, filled_slot(rng, &own));
            }
        }
        Request::Store { .. } => {
            if let Some(i) = rng.pick(&slots_where(&own, true)) {
                set_slots(request, i, filled_slot(rng, &target));
            }
        }
        Request::Send { list, reply, .. } => {
            *list = mixed_pairs(rng, &own, &target);
            // Now and then the reply comes on top.
            if let (Some(pair), true) = (list.first(), rng.percent(30)) {
                *reply = pair.1;
            }
        }
        Request::Allocate { list, .. } => *list = mixed_pairs(rng, &own, &target),
        _ => {}
    }
}

/// A slot of which a fetch comes out empty. Those that are filled are preferred.
fn empty_source(rng: &mut Rng, table: &Table, fetch: &Request) -> Option<u8> {
    let copied = |i: u8| {
        let mut request = fetch.clone();
        set_slots(&mut request, i, 0);
        copies(table, &request)
    };
    let all = || (0..SLOTS as u8).map(|i| (i, copied(i)));
    let weakened = all().filter(|(_, of)| of.iter().any(|one| one.is_weakened_to_nothing()));
    let empty = all().filter(|(_, of)| of.iter().any(|one| one.is_empty()));
    let weakened: Vec<u8> = weakened.map(|(i, _)| i).collect();
    let empty: Vec<u8> = empty.map(|(i, _)| i).collect();
    match rng.pick(&weakened) {
        Some(i) if rng.percent(60) => Some(i),
        _ => rng.pick(&empty),
    }
}

fn set_slots(request: &mut Request, from: u8, to: u8) {
    if let Request::Fetch { i, j, .. } | Request::Store { i, j, .. } = request {
        (*i, *j) = (from, to);
    }
}

/// The slots that are empty, or those that are filled.
fn slots_where(slots: &Slots, empty: bool) -> Vec<u8> {
    (0..SLOTS as u8)
        .filter(|&k| slots[usize::from(k)].is_empty() == empty)
        .collect()
}

/// Mostly a filled slot.
fn filled_slot(rng: &mut Rng, slots: &Slots) -> u8 {
    let filled = rng.pick(&slots_where(slots, false));
    filled.filter(|_| rng.percent(85)).unwrap_or(rng.byte(0, 7))
}

/// Some pairs, every second of an empty slot, to few slots that are mostly filled.
fn mixed_pairs(rng: &mut Rng, own: &Slots, destination: &Slots) -> Vec<Pair> {
    let to = [filled_slot(rng, destination), filled_slot(rng, destination)];
    let length = rng.between(1, MAX_PAIRS as u64);
    (0..length)
        .map(|_| {
            let sources = slots_where(own, rng.percent(50));
            let from = rng.pick(&sources).unwrap_or(rng.byte(0, 7));
            (from, rng.pick(&to).unwrap_or(0))
        })
        .collect()
}
