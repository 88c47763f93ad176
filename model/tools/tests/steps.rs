//! Steps, in two ways: the library's, and each field of the table after the step by a formula.
//! Cases are aimed at every reply of every request; the counts show that each is reached.

use std::collections::{BTreeMap, BTreeSet};

use yavrinks_model::runs::run;
use yavrinks_model::set;
use yavrinks_model::step::{step, step_in_place, weaken, Pair, Request};
use yavrinks_model::table::{Capability, Record, Slots, Table};
use yavrinks_model::table::{ACTIVE, ALIVE, ALL_RIGHTS, DEAD, PASSIVE, RD, TX, UNBORN, WK, WR};
use yavrinks_tools::empty_kinds::{empty_kinds, EmptyKind};
use yavrinks_tools::generate::{
    any_request, any_sound_table, can_meet, empty_copy_case, likely_request, sound_table,
    step_case, Shape, STEP_REPLIES,
};
use yavrinks_tools::rng::Rng;

/// The target of the slot that a request uses.
fn target_of(before: &Table, request: &Request) -> Option<u8> {
    let (t, _) = request.used_slot()?;
    Some(before.record(request.actor()).slots[t as usize].target)
}

/// What the last pair with a filled source brings to slot k.
fn last_filled(own: &Slots, list: &[Pair], k: u8) -> Option<Capability> {
    let to_slot = list.iter().rev().filter(|pair| pair.1 == k);
    let mut brought = to_slot.map(|pair| own[pair.0 as usize]);
    brought.find(|copy| copy.rights != 0)
}

/// Slot k of number n after a request that is done.
fn expected_slot(before: &Table, request: &Request, n: u8, k: u8) -> Capability {
    let own = before.record(request.actor()).slots;
    let old = before.record(n).slots[k as usize];
    let at_actor = n == request.actor();
    let at_target = target_of(before, request) == Some(n);
    match request {
        Request::Fetch { t, i, j, .. } if at_actor && k == *j => {
            let used = own[*t as usize];
            let found = before.record(used.target).slots[*i as usize];
            match (used.rights & RD, found.rights) {
                (_, 0) | (0, 2 | 8 | 10) => old,
                (0, _) => weaken(found),
                _ => found,
            }
        }
        Request::Store { i, j, .. } if at_target && k == *j => match own[*i as usize].rights {
            0 => old,
            _ => own[*i as usize],
        },
        Request::Revoke { j, .. } if at_target && k == *j => Capability::EMPTY,
        Request::Send { list, reply, .. } if at_target => match last_filled(&own, list, k) {
            _ if k == *reply => Capability::new(request.actor(), TX),
            Some(copy) => copy,
            None => old,
        },
        Request::Allocate {
            n: made, i, list, ..
        } => match last_filled(&own, list, k) {
            Some(copy) if n == *made => copy,
            _ if at_actor && k == *i => Capability::new(*made, ALL_RIGHTS),
            _ => old,
        },
        Request::Destroy { .. } if at_target => Capability::EMPTY,
        Request::Reclaim { t, .. } if old.target == own[*t as usize].target => Capability::EMPTY,
        _ => old,
    }
}

fn expected_word(before: &Table, request: &Request, n: u8) -> u32 {
    let at_target = target_of(before, request) == Some(n);
    match request {
        Request::Read { .. } if n == request.actor() => {
            before
                .record(target_of(before, request).expect("target"))
                .word
        }
        Request::Write { word, .. } | Request::Send { word, .. } if at_target => *word,
        Request::Destroy { .. } if at_target => 0,
        _ => before.record(n).word,
    }
}

fn expected_stock(before: &Table, request: &Request, n: u8) -> u64 {
    let old = before.record(n).stock;
    match request {
        Request::Allocate { n: made, part, .. } if n == *made => *part,
        Request::Allocate { n: made, part, .. } if n == request.actor() => set::numbers(old)
            .filter(|m| m != made && !set::contains(*part, *m))
            .fold(0, |stock, m| stock | 1 << m),
        Request::Destroy { .. } => match target_of(before, request) {
            Some(target) if n == target => 0,
            Some(target) if n == request.actor() => old | before.record(target).stock,
            _ => old,
        },
        Request::Reclaim { .. } if n == request.actor() => {
            old | 1 << target_of(before, request).expect("target")
        }
        _ => old,
    }
}

fn expected_record(before: &Table, request: &Request, n: u8) -> Record {
    let old = before.record(n);
    let (status, kind, maker) = match request {
        Request::Allocate {
            n: made,
            kind,
            actor,
            ..
        } if n == *made => (ALIVE, *kind, *actor),
        Request::Destroy { .. } if target_of(before, request) == Some(n) => {
            (DEAD, old.kind, old.maker)
        }
        Request::Reclaim { .. } => match target_of(before, request) {
            Some(target) if target == n => (UNBORN, PASSIVE, 64),
            Some(target) if target == old.maker => (old.status, old.kind, 64),
            _ => (old.status, old.kind, old.maker),
        },
        _ => (old.status, old.kind, old.maker),
    };
    let mut slots = old.slots;
    for k in 0..8 {
        slots[k as usize] = expected_slot(before, request, n, k);
    }
    Record {
        status,
        kind,
        word: expected_word(before, request, n),
        stock: expected_stock(before, request, n),
        slots,
        maker,
    }
}

/// Asserts everything that holds of a step from a sound table; gives the reply and the table.
fn checked_step(before: &Table, request: &Request) -> (u8, Table) {
    let (reply, after) = step(before, request);
    let mut lent = before.clone();
    assert_eq!(step_in_place(&mut lent, request), reply);
    assert_eq!(lent, after);
    assert!(after.is_sound());
    assert_eq!(reply, first_cause(before, request));
    for n in 0..64 {
        let expected = match reply {
            0 => expected_record(before, request, n),
            _ => *before.record(n),
        };
        assert_eq!(*after.record(n), expected, "{n} after {request:?}");
    }
    (reply, after)
}

/// Every field of a request with the highest value it may have; the length of a list is one.
fn limits(request: &Request) -> Vec<(usize, usize)> {
    let slots = |slots: &[&u8]| -> Vec<(usize, usize)> {
        slots.iter().map(|slot| (**slot as usize, 7)).collect()
    };
    let list = |list: &[Pair]| -> Vec<(usize, usize)> {
        let mut fields = vec![(list.len(), 4)];
        for (from, to) in list {
            fields.extend([(*from as usize, 7), (*to as usize, 7)]);
        }
        fields
    };
    match request {
        Request::Read { t, .. }
        | Request::Write { t, .. }
        | Request::Destroy { t, .. }
        | Request::Reclaim { t, .. } => slots(&[t]),
        Request::Fetch { t, i, j, .. } | Request::Store { t, i, j, .. } => slots(&[t, i, j]),
        Request::Revoke { t, j, .. } => slots(&[t, j]),
        Request::Send {
            t, list: l, reply, ..
        } => [slots(&[t]), list(l), vec![(*reply as usize, 8)]].concat(),
        Request::Allocate {
            n,
            kind,
            i,
            list: l,
            ..
        } => {
            let rest = vec![(*n as usize, 63), (*kind as usize, 1)];
            [slots(&[i]), list(l), rest].concat()
        }
        Request::Unknown { .. } => vec![(1, 0)],
    }
}

/// The reply for a sound table: of all causes that are met the one that is checked first, or 0.
fn first_cause(table: &Table, request: &Request) -> u8 {
    let mut causes = Vec::new();
    let actor = request.actor() as usize;
    let out_of_range = |&(value, highest): &(usize, usize)| value > highest;
    if actor > 63 || limits(request).iter().any(out_of_range) {
        return 2;
    }
    let record = &table.records[actor];
    if record.status != ALIVE || record.kind != ACTIVE {
        causes.push(3);
    }
    if let Request::Allocate { n, part, .. } = request {
        let rest: BTreeSet<u8> = set::numbers(record.stock).filter(|m| m != n).collect();
        if !set::contains(record.stock, *n) || set::numbers(*part).any(|m| !rest.contains(&m)) {
            causes.push(9);
        }
    } else {
        causes.extend(used_slot_causes(table, request));
    }
    // 24 is between 4 and 6.
    let place = |&cause: &u8| if cause == 24 { 5 } else { cause };
    causes.into_iter().min_by_key(place).unwrap_or(0)
}

/// The causes 4 to 8, and 24, that are met. An empty slot names no target that could give others.
fn used_slot_causes(table: &Table, request: &Request) -> Vec<u8> {
    let (t, _) = request.used_slot().expect("slot");
    let used = table.record(request.actor()).slots[t as usize];
    if used == Capability::EMPTY {
        return vec![4];
    }
    let needed = match request {
        Request::Read { .. } | Request::Fetch { .. } => RD | WK,
        Request::Send { .. } => TX,
        Request::Write { .. }
        | Request::Store { .. }
        | Request::Revoke { .. }
        | Request::Destroy { .. }
        | Request::Reclaim { .. } => WR,
        Request::Allocate { .. } | Request::Unknown { .. } => panic!("no slot is used"),
    };
    let target = table.record(used.target);
    let met = [
        (24, request.code() == 9 && target.status == ALIVE),
        (5, request.code() != 9 && target.status == DEAD),
        (6, used.rights & needed == 0),
        (7, request.code() == 6 && target.kind != ACTIVE),
        (8, request.code() == 8 && used.target == request.actor()),
    ];
    met.into_iter().filter(|c| c.1).map(|c| c.0).collect()
}

#[test]
fn every_reply_of_every_request_is_reached() {
    let mut rng = Rng::new(10);
    let mut counts: BTreeMap<(u8, u8), u32> = BTreeMap::new();
    for code in (0..=10).chain([100, 255]) {
        for aim in STEP_REPLIES.into_iter().filter(|&aim| can_meet(code, aim)) {
            for _ in 0..150 {
                let case = step_case(&mut rng, code, aim);
                let (reply, after) = step(&case.table, &case.request);
                assert_eq!(case.request.code(), code);
                assert_eq!(reply, aim, "{:?}", case.request);
                if aim == 1 {
                    assert_eq!(after, case.table);
                } else {
                    checked_step(&case.table, &case.request);
                }
                *counts.entry((code, reply)).or_default() += 1;
            }
        }
    }
    assert!(counts.values().all(|&count| count == 150));
    // Seven requests with a slot get 0 to 6, send also 7, destroy also 8; reclaim gets seven, 24 in the place of 5;
    // allocate gets five replies; each of the four unknown codes gets 1 and 2.
    assert_eq!(counts.len(), 7 * 7 + 2 + 7 + 5 + 4 * 2);
}

#[test]
fn arbitrary_requests_agree_with_the_formulas() {
    let mut rng = Rng::new(11);
    let mut replies = BTreeSet::new();
    for _ in 0..20_000 {
        let table = any_sound_table(&mut rng);
        let request = any_request(&mut rng);
        replies.insert(checked_step(&table, &request).0);
        let request = likely_request(&mut rng, &table);
        replies.insert(checked_step(&table, &request).0);
    }
    let sound = STEP_REPLIES.into_iter().filter(|&reply| reply != 1);
    assert_eq!(replies, sound.collect());
}

#[test]
fn runs_reach_every_request_done_and_chain_their_tables() {
    let mut rng = Rng::new(12);
    let mut done: BTreeMap<u8, u32> = BTreeMap::new();
    for _ in 0..60 {
        let shape = Shape::mixed(&mut rng);
        let start = sound_table(&mut rng, &shape);
        let mut table = start.clone();
        let (mut requests, mut replies) = (Vec::new(), Vec::new());
        for _ in 0..200 {
            let request = likely_request(&mut rng, &table);
            let (reply, after) = checked_step(&table, &request);
            if reply == 0 {
                *done.entry(request.code()).or_default() += 1;
            }
            table = after;
            requests.push(request);
            replies.push(reply);
        }
        assert_eq!(run(&start, &requests), (replies, table));
    }
    for code in 1..=9 {
        let count = done.get(&code).copied().unwrap_or(0);
        assert!(count >= 100, "code {code} was done {count} times");
    }
}

#[test]
fn every_kind_of_empty_copy_agrees_with_the_formulas() {
    let mut rng = Rng::new(13);
    for kind in EmptyKind::ALL {
        for _ in 0..150 {
            let case = empty_copy_case(&mut rng, kind);
            assert_eq!(checked_step(&case.table, &case.request).0, 0);
            assert!(empty_kinds(&case.table, &case.request).contains(&kind));
        }
    }
}

/// Of the requests that a table is likely to grant, enough are of each kind to be met in runs.
#[test]
fn likely_requests_have_empty_copies_of_every_kind() {
    let mut rng = Rng::new(14);
    let mut counts: BTreeMap<EmptyKind, u32> = BTreeMap::new();
    for _ in 0..60_000 {
        let shape = Shape::mixed(&mut rng);
        let table = sound_table(&mut rng, &shape);
        let request = likely_request(&mut rng, &table);
        if step(&table, &request).0 == 0 {
            for kind in empty_kinds(&table, &request) {
                *counts.entry(kind).or_default() += 1;
            }
        }
    }
    println!("{counts:?}");
    assert!(EmptyKind::ALL.iter().all(|kind| counts[kind] >= 20));
}
