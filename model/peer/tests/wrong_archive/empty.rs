//! Archives that do wrong with copies that come out empty. Each takes the right step and then does to the slots
//! what it should not, in one form of the step or in the other; it is found out in both.

use std::cell::Cell;

use captable::raw;
use yavrinks_model::step::{Code, Request, NO_REPLY};
use yavrinks_model::table::{Capability, Table, ACTIVE, ALIVE};
use yavrinks_model::wire::encode;
use yavrinks_peer::convert::to_raw;
use yavrinks_tools::copies::reply_slot;

use super::done::{outcome, steps, table_is_found, ByValue, Done, Lent, Wrong};
use super::told_of;

fn empty_copies_empty(done: &mut Done) {
    done.land_all();
}

#[test]
fn empty_copies_that_empty_are_found() {
    table_is_found(empty_copies_empty);
}

fn fetch_alone_keeps(done: &mut Done) {
    if !done.is(Code::Fetch) {
        done.land_all();
    }
}

#[test]
fn the_rule_in_fetch_alone_is_found() {
    table_is_found(fetch_alone_keeps);
}

fn all_but_fetch_keep(done: &mut Done) {
    if done.is(Code::Fetch) {
        done.land_all();
    }
}

fn all_but_store_keep(done: &mut Done) {
    if done.is(Code::Store) {
        done.land_all();
    }
}

fn all_but_send_keep(done: &mut Done) {
    if done.is(Code::Send) {
        done.land_all();
    }
}

fn all_but_allocate_keep(done: &mut Done) {
    if done.is(Code::Allocate) {
        done.land_all();
    }
}

#[test]
fn one_request_without_the_rule_is_found() {
    table_is_found(all_but_fetch_keep);
    table_is_found(all_but_store_keep);
    table_is_found(all_but_send_keep);
    table_is_found(all_but_allocate_keep);
}

/// Only an empty source keeps; a copy that is weakened to nothing still empties.
fn weakened_copies_empty(done: &mut Done) {
    done.land_by(|held, copied| {
        if copied.found.is_empty() {
            held
        } else {
            copied.copy()
        }
    });
}

#[test]
fn weakening_without_the_rule_is_found() {
    table_is_found(weakened_copies_empty);
}

/// The other way about: only a copy that is weakened to nothing keeps.
fn empty_sources_empty(done: &mut Done) {
    done.land_by(|held, copied| {
        if copied.is_weakened_to_nothing() {
            held
        } else {
            copied.copy()
        }
    });
}

#[test]
fn the_rule_in_weakening_alone_is_found() {
    table_is_found(empty_sources_empty);
}

/// After an empty copy to a slot no filled one goes there.
fn empty_copies_block(done: &mut Done) {
    let blocked = Cell::new(0);
    done.land_by(|held, copied| {
        let bit = 1 << copied.slot;
        if copied.is_empty() {
            blocked.set(blocked.get() | bit);
        }
        if blocked.get() & bit != 0 {
            held
        } else {
            copied.copy()
        }
    });
}

#[test]
fn empty_copies_that_block_later_ones_are_found() {
    table_is_found(empty_copies_block);
}

/// An empty copy gives a slot back what it held before the request, whatever an earlier pair put there.
fn empty_copies_take_back(done: &mut Done) {
    let before = done.before.clone();
    done.land_by(|_, copied| {
        if copied.is_empty() {
            before.record(copied.holder).slots[usize::from(copied.slot)]
        } else {
            copied.copy()
        }
    });
}

#[test]
fn empty_copies_that_take_earlier_ones_back_are_found() {
    table_is_found(empty_copies_take_back);
}

/// Empty copies to the reply slot keep it from the reply too.
fn reply_is_kept_out(done: &mut Done) {
    let Some(reply) = reply_slot(&done.request) else {
        return;
    };
    let mut there = done.copies();
    there.retain(|copied| copied.slot == reply);
    if there.iter().all(|copied| copied.is_empty()) {
        for copied in there {
            let place = usize::from(reply);
            let held = done.before.record(copied.holder).slots[place];
            done.after.record_mut(copied.holder).slots[place] = held;
        }
    }
}

#[test]
fn a_reply_that_empty_copies_keep_out_is_found() {
    table_is_found(reply_is_kept_out);
}

/// A pair of a send to oneself reads a slot as the pairs before it left it, and finds it filled.
fn sends_to_oneself_read_what_was_copied(done: &mut Done) {
    let Request::Send {
        actor, list, reply, ..
    } = &done.request
    else {
        return;
    };
    if *reply != NO_REPLY || done.copies().iter().any(|copied| copied.holder != *actor) {
        return;
    }
    let mut slots = done.before.record(*actor).slots;
    for &(i, j) in list {
        if !slots[usize::from(i)].is_empty() {
            slots[usize::from(j)] = slots[usize::from(i)];
        }
    }
    if !list.is_empty() {
        done.after.record_mut(*actor).slots = slots;
    }
}

#[test]
fn sends_to_oneself_that_read_what_was_copied_are_found() {
    table_is_found(sends_to_oneself_read_what_was_copied);
}

/// Where a slot of the new object gets an empty copy, it keeps what the actor has there.
fn new_slots_get_the_actors(done: &mut Done) {
    if !done.is(Code::Allocate) {
        return;
    }
    let own = done.before.record(done.request.actor()).slots;
    done.land_by(|held, copied| match (copied.is_empty(), held.is_empty()) {
        (true, true) => own[usize::from(copied.slot)],
        (true, false) => held,
        (false, _) => copied.copy(),
    });
}

#[test]
fn new_slots_with_what_the_actor_has_there_are_found() {
    table_is_found(new_slots_get_the_actors);
}

fn revokes_keep(done: &mut Done) {
    if done.is(Code::Revoke) {
        done.after = done.before.clone();
    }
}

#[test]
fn revokes_that_keep_the_slot_are_found() {
    table_is_found(revokes_keep);
}

/// A request with an empty copy is refused by 4.
fn empty_copies_are_refused(done: &mut Done) {
    if done.copies().iter().any(|copied| copied.is_empty()) {
        done.after = done.before.clone();
        done.reply = 4;
    }
}

/// The table differs too where the request does more than keep a slot.
#[test]
fn empty_copies_that_are_refused_are_found() {
    for (call, told) in [
        (
            "captable_step_by_value",
            told_of(&ByValue(steps(empty_copies_are_refused))),
        ),
        (
            "captable_step",
            told_of(&Lent(steps(empty_copies_are_refused))),
        ),
    ] {
        let expected = format!("{call} differs from the model in: number");
        assert!(told.starts_with(&expected), "{told}");
    }
}

/// Objects 0 and 1. Slot 0 of 0 has wr, wk and tx over 1, slot 1 all rights over itself, slots 2 to 5 one right
/// over 1, and 6 and 7 are empty; slots 0 to 6 of 1 have rights 10, and 7 is empty. The stock of 0 is {10}.
fn small_table() -> raw::Table {
    let mut table = Table::unborn();
    for n in [0, 1] {
        table.record_mut(n).status = ALIVE;
        table.record_mut(n).kind = ACTIVE;
    }
    let held = [(1, 14), (0, 15), (1, 1), (1, 2), (1, 4), (1, 8)];
    for (slot, (target, rights)) in table.record_mut(0).slots.iter_mut().zip(held) {
        *slot = Capability::new(target, rights);
    }
    for slot in &mut table.record_mut(1).slots[..7] {
        *slot = Capability::new(1, 10);
    }
    table.record_mut(0).stock = 1 << 10;
    to_raw(&table)
}

/// The requests on which the wrong archives are compared, each with the object and the slot that it is about.
fn cases() -> [(Request, usize, usize); 10] {
    let (actor, t) = (0, 0);
    let send = |t, list: &[(u8, u8)], reply| Request::Send {
        actor,
        t,
        word: 0,
        list: list.to_vec(),
        reply,
    };
    let allocate = |list: &[(u8, u8)]| Request::Allocate {
        actor,
        n: 10,
        kind: 0,
        part: 0,
        i: 7,
        list: list.to_vec(),
    };
    #[rustfmt::skip]
    let cases = [
        (Request::Fetch { actor, t, i: 7, j: 2 }, 0, 2),
        (Request::Fetch { actor, t, i: 0, j: 2 }, 0, 2),
        (Request::Store { actor, t, i: 6, j: 2 }, 1, 2),
        (send(0, &[(2, 3), (6, 3)], NO_REPLY), 1, 3),
        (send(0, &[(6, 3), (2, 3)], NO_REPLY), 1, 3),
        (send(0, &[(6, 3)], 3), 1, 3),
        (send(1, &[(2, 6), (6, 3)], NO_REPLY), 0, 3),
        (allocate(&[(6, 3)]), 10, 3),
        (allocate(&[(2, 3), (6, 3)]), 10, 3),
        (Request::Revoke { actor, t, j: 2 }, 1, 2),
    ];
    cases
}

/// Each wrong archive is wrong about what it is called after, and about nothing else. The rights in the slot that
/// each case is about, 0 for an empty one; in the first row as they should be.
#[test]
fn each_wrong_archive_is_wrong_in_its_own_way() {
    let right: Wrong = |_| {};
    #[rustfmt::skip]
    let rows: [(Wrong, [u8; 10]); 15] = [
        (right,                                 [1, 1, 10, 1, 1, 8, 2, 0, 1, 0]),
        (empty_copies_empty,                    [0, 0, 0, 0, 1, 8, 0, 0, 0, 0]),
        (fetch_alone_keeps,                     [1, 1, 0, 0, 1, 8, 0, 0, 0, 0]),
        (all_but_fetch_keep,                    [0, 0, 10, 1, 1, 8, 2, 0, 1, 0]),
        (all_but_store_keep,                    [1, 1, 0, 1, 1, 8, 2, 0, 1, 0]),
        (all_but_send_keep,                     [1, 1, 10, 0, 1, 8, 0, 0, 1, 0]),
        (all_but_allocate_keep,                 [1, 1, 10, 1, 1, 8, 2, 0, 0, 0]),
        (weakened_copies_empty,                 [1, 0, 10, 1, 1, 8, 2, 0, 1, 0]),
        (empty_sources_empty,                   [0, 1, 0, 0, 1, 8, 0, 0, 0, 0]),
        (empty_copies_block,                    [1, 1, 10, 1, 10, 8, 2, 0, 1, 0]),
        (empty_copies_take_back,                [1, 1, 10, 10, 1, 8, 2, 0, 0, 0]),
        (reply_is_kept_out,                     [1, 1, 10, 1, 1, 10, 2, 0, 1, 0]),
        (sends_to_oneself_read_what_was_copied, [1, 1, 10, 1, 1, 8, 1, 0, 1, 0]),
        (new_slots_get_the_actors,              [1, 1, 10, 1, 1, 8, 2, 2, 1, 0]),
        (revokes_keep,                          [1, 1, 10, 1, 1, 8, 2, 0, 1, 10]),
    ];
    for (row, (wrong, expected)) in rows.into_iter().enumerate() {
        let held = cases().map(|(request, n, j)| {
            let outcome = outcome(wrong, &small_table(), &mut encode(&request));
            assert_eq!(outcome.number, 0, "{request:?}");
            outcome.table.slots[n * 8 + j].rights
        });
        assert_eq!(held, expected, "row {row}");
    }
}
