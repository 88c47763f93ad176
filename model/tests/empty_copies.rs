//! Document 02, 2.4, sentence by sentence, each on a small table.

mod done;
mod held;

use done::done;
use held::table_with;
use yavrinks_model::set;
use yavrinks_model::step::{landed, Pair, Request, NO_REPLY};
use yavrinks_model::table::{Capability, Record, Table};
use yavrinks_model::table::{ACTIVE, ALIVE, ALL_RIGHTS, DEAD, NO_MAKER, RD, SLOTS, TX, WK, WR};

const ACTOR: u8 = 10;
const TARGET: u8 = 20;
/// What actor and target hold capabilities over.
const OTHER: u8 = 30;
/// What the actor can make.
const UNMADE: u8 = 40;

/// The actor's slot that is used, the slot that both have filled, and two that both have empty.
const USED: u8 = 0;
const FILLED: u8 = 5;
const EMPTY: u8 = 2;
const ANOTHER: u8 = 3;

/// What the actor and the target have in the filled slot.
const CHANNEL: Capability = Capability::new(OTHER, WR | TX);
const OF_TARGET: Capability = Capability::new(OTHER, RD);

/// A table where the actor has these rights over the target.
fn table_of(rights: u8) -> Table {
    let mut table = table_with(&[OTHER], &[(ACTOR, TARGET, rights)]);
    for n in [ACTOR, TARGET] {
        table.record_mut(n).kind = ACTIVE;
    }
    table.record_mut(ACTOR).stock = set::single(UNMADE);
    *slot_mut(&mut table, ACTOR, FILLED) = CHANNEL;
    *slot_mut(&mut table, TARGET, FILLED) = OF_TARGET;
    table
}

fn slot_mut(table: &mut Table, n: u8, slot: u8) -> &mut Capability {
    &mut table.record_mut(n).slots[usize::from(slot)]
}

/// Asserts that after a request the table is as before but for the given slots.
fn expect_slots(table: &Table, request: &Request, slots: &[(u8, u8, Capability)]) {
    let mut expected = table.clone();
    for &(n, slot, content) in slots {
        *slot_mut(&mut expected, n, slot) = content;
    }
    assert_eq!(done(table, request), expected, "{request:?}");
}

fn fetch(i: u8, j: u8) -> Request {
    Request::Fetch {
        actor: ACTOR,
        t: USED,
        i,
        j,
    }
}

fn store(i: u8, j: u8) -> Request {
    Request::Store {
        actor: ACTOR,
        t: USED,
        i,
        j,
    }
}

/// A send that leaves the target's word as it is, so that slots alone can change.
fn send(list: &[Pair], reply: u8) -> Request {
    Request::Send {
        actor: ACTOR,
        t: USED,
        word: 0,
        list: list.to_vec(),
        reply,
    }
}

/// The rights values that give a right to read.
fn reading_rights() -> impl Iterator<Item = u8> {
    (1..=ALL_RIGHTS).filter(|rights| rights & (RD | WK) != 0)
}

// Twice this spring a routine cleared its own channel by fetching from an empty slot.

#[test]
fn a_fetch_of_an_empty_slot_keeps_the_channel() {
    for rights in reading_rights() {
        let table = table_of(rights);
        for j in 0..SLOTS as u8 {
            // Even the slot that is used, and slots that are empty anyway.
            expect_slots(&table, &fetch(EMPTY, j), &[]);
        }
    }
}

// From now on a copy that comes out empty, from an empty slot or from weakening, changes no slot.

#[test]
fn a_slot_keeps_what_it_held_under_an_empty_copy_alone() {
    for held in [Capability::EMPTY, CHANNEL, OF_TARGET] {
        assert_eq!(landed(held, Capability::EMPTY), held);
        for target in [0, OTHER, 63] {
            for rights in 1..=ALL_RIGHTS {
                let copy = Capability::new(target, rights);
                assert_eq!(landed(held, copy), copy);
            }
        }
    }
}

/// Without rd, a fetch of rights without rd and wk comes out empty: of wr, of tx and of both.
#[test]
fn a_fetch_weakened_to_nothing_keeps_the_channel() {
    for used in reading_rights() {
        for found in 1..=ALL_RIGHTS {
            let mut table = table_of(used);
            *slot_mut(&mut table, TARGET, FILLED) = Capability::new(OTHER, found);
            let copied = match (used & RD, found) {
                (0, 2 | 8 | 10) => None,
                (0, _) => Some(WK),
                _ => Some(found),
            };
            for (j, held) in [(FILLED, CHANNEL), (EMPTY, Capability::EMPTY)] {
                let after = copied.map_or(held, |rights| Capability::new(OTHER, rights));
                expect_slots(&table, &fetch(FILLED, j), &[(ACTOR, j, after)]);
            }
        }
    }
}

/// The actor fetches from itself through wk, onto the slot that it uses and onto the one that it copies.
#[test]
fn a_fetch_from_oneself_weakened_to_nothing_keeps_both_slots() {
    let mut table = table_of(WK);
    *slot_mut(&mut table, ACTOR, USED) = Capability::new(ACTOR, WK);
    for j in [USED, FILLED] {
        expect_slots(&table, &fetch(FILLED, j), &[]);
    }
    // What is used has wk, so that it lands.
    let weakened = Capability::new(ACTOR, WK);
    expect_slots(&table, &fetch(USED, FILLED), &[(ACTOR, FILLED, weakened)]);
}

// This holds in fetch, store, send and allocate. Fetch is above.

#[test]
fn a_store_of_an_empty_slot_keeps_the_targets_slot() {
    let table = table_of(WR);
    for j in 0..SLOTS as u8 {
        expect_slots(&table, &store(EMPTY, j), &[]);
        expect_slots(&table, &store(FILLED, j), &[(TARGET, j, CHANNEL)]);
    }
    // A store is never weakened: wr and tx land.
    let own = Capability::new(TARGET, WR);
    expect_slots(&table, &store(USED, FILLED), &[(TARGET, FILLED, own)]);
}

#[test]
fn an_empty_pair_keeps_the_targets_slot() {
    let table = table_of(TX);
    expect_slots(&table, &send(&[(EMPTY, FILLED)], NO_REPLY), &[]);
    expect_slots(&table, &send(&[(EMPTY, EMPTY)], NO_REPLY), &[]);
    let four = [(EMPTY, FILLED), (ANOTHER, FILLED), (1, 0), (EMPTY, 7)];
    expect_slots(&table, &send(&four, NO_REPLY), &[]);
    // The word is set all the same.
    let request = Request::Send {
        actor: ACTOR,
        t: USED,
        word: 9,
        list: four.to_vec(),
        reply: NO_REPLY,
    };
    let mut expected = table.clone();
    expected.record_mut(TARGET).word = 9;
    assert_eq!(done(&table, &request), expected);
}

/// A later pair to the same slot wins only where it is not empty.
#[test]
fn of_pairs_to_one_slot_the_last_filled_one_lands() {
    let table = table_of(TX);
    let own = Capability::new(TARGET, TX);
    for to in [FILLED, EMPTY] {
        for (list, landing) in [
            (&[(FILLED, to), (EMPTY, to)][..], CHANNEL),
            (&[(EMPTY, to), (FILLED, to)], CHANNEL),
            (&[(EMPTY, to), (FILLED, to), (ANOTHER, to)], CHANNEL),
            (&[(FILLED, to), (EMPTY, to), (USED, to)], own),
            (&[(FILLED, to), (USED, to), (EMPTY, to), (ANOTHER, to)], own),
        ] {
            let slots = [(TARGET, to, landing)];
            expect_slots(&table, &send(list, NO_REPLY), &slots);
        }
    }
}

#[test]
fn the_reply_lands_on_top_of_kept_and_of_filled_slots() {
    let table = table_of(TX);
    let reply = Capability::new(ACTOR, TX);
    for to in [FILLED, EMPTY] {
        for list in [
            &[][..],
            &[(EMPTY, to)],
            &[(FILLED, to), (EMPTY, to)],
            &[(EMPTY, to), (FILLED, to)],
        ] {
            expect_slots(&table, &send(list, to), &[(TARGET, to, reply)]);
        }
    }
    // Beside it, an empty pair keeps its slot.
    let list = [(EMPTY, FILLED)];
    expect_slots(&table, &send(&list, EMPTY), &[(TARGET, EMPTY, reply)]);
}

/// Pairs copy the slots from before: one that an earlier pair filled is still copied as empty, and one that
/// an earlier pair overwrote as it was.
#[test]
fn in_a_send_to_oneself_what_was_empty_before_is_an_empty_copy() {
    let mut table = table_of(TX);
    let own = Capability::new(ACTOR, TX);
    *slot_mut(&mut table, ACTOR, USED) = own;
    let list = [(USED, EMPTY), (EMPTY, FILLED)];
    expect_slots(&table, &send(&list, NO_REPLY), &[(ACTOR, EMPTY, own)]);
    let list = [(EMPTY, USED), (USED, FILLED), (FILLED, EMPTY)];
    let slots = [(ACTOR, FILLED, own), (ACTOR, EMPTY, CHANNEL)];
    expect_slots(&table, &send(&list, NO_REPLY), &slots);
}

/// Allocates with the list: the actor gets the new object in slot `i`, and that is made with the given slots.
fn expect_made(i: u8, list: &[Pair], slots: &[(u8, Capability)]) {
    let table = table_of(WK);
    let request = Request::Allocate {
        actor: ACTOR,
        n: UNMADE,
        kind: ACTIVE,
        part: 0,
        i,
        list: list.to_vec(),
    };
    let mut expected = table.clone();
    let made = expected.record_mut(UNMADE);
    (made.status, made.kind, made.maker) = (ALIVE, ACTIVE, ACTOR);
    for &(slot, content) in slots {
        made.slots[usize::from(slot)] = content;
    }
    expected.record_mut(ACTOR).stock = 0;
    *slot_mut(&mut expected, ACTOR, i) = Capability::new(UNMADE, ALL_RIGHTS);
    assert_eq!(done(&table, &request), expected, "{request:?}");
}

/// The new object's slots are empty to begin with, whatever the actor has in its own.
#[test]
fn an_empty_pair_leaves_a_new_objects_slot_empty() {
    for to in [USED, FILLED, EMPTY] {
        expect_made(7, &[(EMPTY, to)], &[]);
        expect_made(to, &[(EMPTY, to)], &[]);
        expect_made(7, &[(EMPTY, to), (ANOTHER, to), (EMPTY, 1)], &[]);
    }
    // Slot 7 is empty before the request, and so is its copy.
    expect_made(7, &[(7, FILLED)], &[]);
}

#[test]
fn a_new_object_gets_the_last_filled_pair() {
    for to in [USED, FILLED, EMPTY] {
        expect_made(7, &[(EMPTY, to), (FILLED, to)], &[(to, CHANNEL)]);
        expect_made(7, &[(FILLED, to), (EMPTY, to)], &[(to, CHANNEL)]);
        let used = Capability::new(TARGET, WK);
        let list = [(FILLED, to), (EMPTY, to), (USED, to), (ANOTHER, to)];
        expect_made(FILLED, &list, &[(to, used)]);
    }
}

// Revoke alone empties a slot of an alive object.

#[test]
fn a_revoke_empties_every_slot() {
    let mut table = table_of(WR);
    table.record_mut(TARGET).slots = [OF_TARGET; SLOTS];
    for j in 0..SLOTS as u8 {
        let request = Request::Revoke {
            actor: ACTOR,
            t: USED,
            j,
        };
        expect_slots(&table, &request, &[(TARGET, j, Capability::EMPTY)]);
    }
    // Even the one that it uses.
    let mut own = table_of(WR);
    *slot_mut(&mut own, ACTOR, USED) = Capability::new(ACTOR, WR);
    let request = Request::Revoke {
        actor: ACTOR,
        t: USED,
        j: USED,
    };
    expect_slots(&own, &request, &[(ACTOR, USED, Capability::EMPTY)]);
}

#[test]
fn a_destroyed_object_keeps_no_slot() {
    let mut table = table_of(WR);
    table.record_mut(TARGET).word = 9;
    table.record_mut(TARGET).slots = [OF_TARGET; SLOTS];
    let request = Request::Destroy {
        actor: ACTOR,
        t: USED,
    };
    // Of all else nothing changes: the actor still has its slots, the one over the dead object too.
    let mut expected = table.clone();
    *expected.record_mut(TARGET) = Record {
        status: DEAD,
        kind: ACTIVE,
        word: 0,
        stock: 0,
        slots: [Capability::EMPTY; SLOTS],
        maker: NO_MAKER,
    };
    assert_eq!(done(&table, &request), expected);
}

/// All lists of up to two pairs to the slots `EMPTY` and `FILLED`, from any slots.
fn lists() -> Vec<Vec<Pair>> {
    let pairs: Vec<Pair> = (0..SLOTS as u8)
        .flat_map(|i| [(i, EMPTY), (i, FILLED)])
        .collect();
    let mut lists = vec![vec![]];
    for &first in &pairs {
        lists.push(vec![first]);
        lists.extend(pairs.iter().map(|&second| vec![first, second]));
    }
    lists
}

/// Every read, fetch and store of the actor through its slot `t`, a write, and a send of each of the lists,
/// without a reply and with one in slot `EMPTY`.
fn requests_through(t: u8) -> Vec<Request> {
    let (actor, word) = (ACTOR, 7);
    let mut requests = vec![
        Request::Read { actor, t },
        Request::Write { actor, t, word },
    ];
    for i in 0..SLOTS as u8 {
        for j in 0..SLOTS as u8 {
            requests.push(Request::Fetch { actor, t, i, j });
            requests.push(Request::Store { actor, t, i, j });
        }
    }
    for list in lists() {
        for reply in [EMPTY, NO_REPLY] {
            requests.push(Request::Send {
                actor,
                t,
                word,
                list: list.clone(),
                reply,
            });
        }
    }
    requests
}

/// Allocates of one number with each of the lists; the actor gets all rights over it in its slot 6.
fn allocates() -> Vec<Request> {
    let allocate = |list| Request::Allocate {
        actor: ACTOR,
        n: UNMADE,
        kind: ACTIVE,
        part: 0,
        i: 6,
        list,
    };
    lists().into_iter().map(allocate).collect()
}

/// The actor has all rights over the target in one slot, and over itself in another.
#[test]
fn no_other_request_empties_a_slot_of_an_alive_object() {
    let mut table = table_of(ALL_RIGHTS);
    *slot_mut(&mut table, ACTOR, 1) = Capability::new(ACTOR, ALL_RIGHTS);
    let through = [USED, 1].into_iter().flat_map(requests_through);
    for request in through.chain(allocates()) {
        let after = done(&table, &request);
        for (before, after) in table.records.iter().zip(&after.records) {
            let slots = before.slots.iter().zip(&after.slots);
            for (held, now) in slots {
                assert!(held.is_empty() || !now.is_empty(), "{request:?}");
            }
        }
    }
}
