//! Document 02, 2.4, "An empty copy keeps the destination": "a copy that comes out empty, from an empty slot or
//! from weakening, changes no slot. This holds in fetch, store, send and allocate; revoke alone empties a slot of
//! an alive object." Since 2.8 reclaim does so too. Each request is made in both forms of the step, and the whole table
//! is compared.

mod common;

use captable::{Capability, Pair, PairList, Request, Set, Table};
use captable::{ACTIVE, ALIVE, DEAD, NO_REPLY, PASSIVE, RD, TX, WK, WR};
use common::{cap, set, step_in_both_forms};

/// What the slots of 0, who asks, are: four over 1, one over itself, and one over another object. The last two
/// are empty.
const READS: u8 = 0;
const WEAK: u8 = 1;
const WRITES: u8 = 2;
const SENDS: u8 = 3;
const ITSELF: u8 = 4;
const OTHER: u8 = 5;
const EMPTY: [u8; 2] = [6, 7];

/// Objects 0 to 4. Slots 0 to 5 of 0 and of 1 are filled, and 6 and 7 are empty.
fn rig() -> Table {
    let mut table = Table::unborn();
    for n in 0..=4 {
        table.record_mut(n).status = ALIVE;
        table.record_mut(n).kind = ACTIVE;
    }
    let own = [
        cap(1, RD),
        cap(1, WK),
        cap(1, WR),
        cap(1, TX),
        cap(0, 15),
        cap(3, RD | WR),
    ];
    let of_1 = [
        cap(2, RD),
        cap(2, WR),
        cap(2, TX),
        cap(2, WR | TX),
        cap(4, WK),
        cap(4, 15),
    ];
    for (j, (held, other)) in (0..).zip(own.into_iter().zip(of_1)) {
        *table.slot_mut(0, j) = held;
        *table.slot_mut(1, j) = other;
    }
    table.record_mut(0).stock = set(&[10, 11]);
    assert!(table.is_sound());
    table
}

/// The request is done, and of all the table nothing changes but this.
#[track_caller]
fn becomes(before: &Table, request: &Request, change: impl FnOnce(&mut Table)) {
    let mut expected = before.clone();
    change(&mut expected);
    let (number, after) = step_in_both_forms(before, request.to_bytes().as_slice());
    assert_eq!(number, 0, "{request}");
    assert_eq!(after, expected, "{request}");
}

/// The request is done and changes nothing.
#[track_caller]
fn keeps(before: &Table, request: &Request) {
    becomes(before, request, |_| {});
}

fn fetch(t: u8, i: u8, j: u8) -> Request {
    let actor = 0;
    Request::Fetch { actor, t, i, j }
}

fn store(t: u8, i: u8, j: u8) -> Request {
    let actor = 0;
    Request::Store { actor, t, i, j }
}

fn revoke(t: u8, j: u8) -> Request {
    Request::Revoke { actor: 0, t, j }
}

/// A send of the word 77.
fn send(t: u8, pairs: &[Pair], reply: u8) -> Request {
    Request::Send {
        actor: 0,
        t,
        word: 77,
        list: PairList::try_from(pairs).expect("at most four pairs"),
        reply,
    }
}

/// An allocate of 10 without a part.
fn allocate(i: u8, pairs: &[Pair]) -> Request {
    Request::Allocate {
        actor: 0,
        n: 10,
        kind: PASSIVE,
        part: Set::EMPTY,
        i,
        list: PairList::try_from(pairs).expect("at most four pairs"),
    }
}

/// "Twice this spring a routine cleared its own channel by fetching from an empty slot." No slot is cleared so,
/// the one that is used for it neither, whether the fetch weakens or not.
#[test]
fn a_fetch_from_an_empty_slot_keeps_every_destination() {
    for t in [READS, WEAK, ITSELF] {
        for i in EMPTY {
            for j in 0..8 {
                keeps(&rig(), &fetch(t, i, j));
            }
        }
    }
}

/// "or from weakening": rights 2, 8 and 10 have neither rd nor wk, and are weakened to nothing. All others give wk,
/// and a fetch with rd gives all of them as they are.
#[test]
fn a_fetch_weakened_to_nothing_keeps_every_destination() {
    for j in 0..8 {
        for rights in [2, 8, 10] {
            let mut table = rig();
            *table.slot_mut(1, 0) = cap(2, rights);
            keeps(&table, &fetch(WEAK, 0, j));
        }
        for rights in [1, 3, 4, 5, 6, 7, 9, 11, 12, 13, 14, 15] {
            let mut table = rig();
            *table.slot_mut(1, 0) = cap(2, rights);
            becomes(&table, &fetch(WEAK, 0, j), |table| {
                *table.slot_mut(0, j) = cap(2, WK);
            });
        }
        for rights in 1..=15 {
            let mut table = rig();
            *table.slot_mut(1, 0) = cap(2, rights);
            becomes(&table, &fetch(READS, 0, j), |table| {
                *table.slot_mut(0, j) = cap(2, rights);
            });
        }
    }
}

/// "weakened if rd is absent": wk with wr or tx beside it weakens like wk alone, and with rd beside it not at all.
#[test]
fn what_weakens_is_the_absence_of_rd() {
    for (used, weakens) in [
        (WK | WR, true),
        (WK | TX, true),
        (WK | WR | TX, true),
        (WK | RD, false),
        (15, false),
    ] {
        let mut table = rig();
        *table.slot_mut(0, WEAK) = cap(1, used);
        // Slots 1 to 3 of 1 have rights 2, 8 and 10.
        for i in 1..=3 {
            becomes(&table, &fetch(WEAK, i, OTHER), |table| {
                if !weakens {
                    *table.slot_mut(0, OTHER) = *table.slot(1, i);
                }
            });
        }
    }
}

#[test]
fn a_store_of_an_empty_slot_keeps_every_destination() {
    for t in [WRITES, ITSELF] {
        for i in EMPTY {
            for j in 0..8 {
                keeps(&rig(), &store(t, i, j));
            }
        }
    }
    for j in 0..8 {
        becomes(&rig(), &store(WRITES, OTHER, j), |table| {
            *table.slot_mut(1, j) = cap(3, RD | WR);
        });
    }
}

/// The pairs to one slot and what that slot gets of them, or nothing: "Pairs apply left to right; a later one to
/// the same slot wins", unless it is empty. Slot 5 of 0 is (3, rd and wr), slot 0 is (1, rd).
#[rustfmt::skip]
const TO_ONE_SLOT: [(&[u8], Option<Capability>); 12] = [
    (&[6], None),
    (&[6, 7], None),
    (&[6, 7, 7, 6], None),
    (&[5], Some(Capability { target: 3, rights: RD | WR })),
    (&[5, 6], Some(Capability { target: 3, rights: RD | WR })),
    (&[6, 5], Some(Capability { target: 3, rights: RD | WR })),
    (&[6, 5, 7], Some(Capability { target: 3, rights: RD | WR })),
    (&[5, 6, 7, 6], Some(Capability { target: 3, rights: RD | WR })),
    (&[0, 5], Some(Capability { target: 3, rights: RD | WR })),
    (&[5, 0, 6, 7], Some(Capability { target: 1, rights: RD })),
    (&[5, 6, 0], Some(Capability { target: 1, rights: RD })),
    (&[6, 5, 7, 0], Some(Capability { target: 1, rights: RD })),
];

/// Pairs from these slots of the actor, all to slot j.
fn all_to(j: u8, sources: &[u8]) -> Vec<Pair> {
    sources.iter().map(|&from| (from, j)).collect()
}

#[test]
fn of_pairs_to_one_slot_the_last_that_is_not_empty_wins() {
    for (sources, copied) in TO_ONE_SLOT {
        for j in 0..8 {
            let pairs = all_to(j, sources);
            becomes(&rig(), &send(SENDS, &pairs, NO_REPLY), |table| {
                table.record_mut(1).word = 77;
                if let Some(copied) = copied {
                    *table.slot_mut(1, j) = copied;
                }
            });
        }
    }
}

/// "then, if reply is 0 to 7, that slot of the target gets (actor, tx)", whatever the pairs did there.
#[test]
fn the_reply_slot_comes_on_top_of_empty_and_of_filled_copies() {
    for (sources, copied) in TO_ONE_SLOT {
        for j in 0..8 {
            let pairs = all_to(j, sources);
            becomes(&rig(), &send(SENDS, &pairs, j), |table| {
                table.record_mut(1).word = 77;
                *table.slot_mut(1, j) = cap(0, TX);
            });
            let beside = (j + 1) % 8;
            becomes(&rig(), &send(SENDS, &pairs, beside), |table| {
                table.record_mut(1).word = 77;
                if let Some(copied) = copied {
                    *table.slot_mut(1, j) = copied;
                }
                *table.slot_mut(1, beside) = cap(0, TX);
            });
        }
    }
}

#[test]
fn empty_and_filled_pairs_to_slots_of_their_own() {
    let pairs = [(6, 0), (OTHER, 1), (7, 2), (READS, 6)];
    becomes(&rig(), &send(SENDS, &pairs, NO_REPLY), |table| {
        table.record_mut(1).word = 77;
        *table.slot_mut(1, 1) = cap(3, RD | WR);
        *table.slot_mut(1, 6) = cap(1, RD);
    });
}

/// "Copies in 6 and 7 read the actor's slots as they were before the request." Slot 6 was empty, and so its copy
/// is, though an earlier pair has filled it; slot 5 was filled, and its copy is.
#[test]
fn a_send_to_oneself_copies_the_slots_as_they_were() {
    for j in 0..8 {
        becomes(
            &rig(),
            &send(ITSELF, &[(6, j), (7, j)], NO_REPLY),
            |table| {
                table.record_mut(0).word = 77;
            },
        );
    }
    let pairs = [(READS, 6), (6, OTHER), (6, WEAK), (OTHER, 7)];
    becomes(&rig(), &send(ITSELF, &pairs, NO_REPLY), |table| {
        table.record_mut(0).word = 77;
        *table.slot_mut(0, 6) = cap(1, RD);
        *table.slot_mut(0, 7) = cap(3, RD | WR);
    });
    // The slot that the send uses stays as well, and gets the reply if that is asked for.
    becomes(&rig(), &send(ITSELF, &[(7, ITSELF)], NO_REPLY), |table| {
        table.record_mut(0).word = 77;
    });
    becomes(&rig(), &send(ITSELF, &[(7, ITSELF)], ITSELF), |table| {
        table.record_mut(0).word = 77;
        *table.slot_mut(0, ITSELF) = cap(0, TX);
    });
}

/// 10 as 0 makes it, with nothing in its slots, and held by the actor in slot i.
fn made(table: &mut Table, i: u8) {
    table.record_mut(10).status = ALIVE;
    table.record_mut(10).maker = 0;
    table.record_mut(0).stock = set(&[11]);
    *table.slot_mut(0, i) = cap(10, 15);
}

/// A slot of the new object that gets none but empty copies is empty, and not what the actor has there.
#[test]
fn a_new_object_has_what_filled_copies_bring_and_nothing_else() {
    for (sources, copied) in TO_ONE_SLOT {
        for j in 0..8 {
            for i in [OTHER, 6, j] {
                becomes(&rig(), &allocate(i, &all_to(j, sources)), |table| {
                    made(table, i);
                    *table.slot_mut(10, j) = copied.unwrap_or(Capability::EMPTY);
                });
            }
        }
    }
    let pairs = [(6, 0), (OTHER, 1), (7, 2), (READS, 6)];
    becomes(&rig(), &allocate(7, &pairs), |table| {
        made(table, 7);
        *table.slot_mut(10, 1) = cap(3, RD | WR);
        *table.slot_mut(10, 6) = cap(1, RD);
    });
}

/// "revoke alone empties a slot of an alive object", but for a reclaim: of another one and of the actor itself.
#[test]
fn a_revoke_empties_every_slot() {
    for (t, owner) in [(WRITES, 1), (ITSELF, 0)] {
        for j in 0..8 {
            becomes(&rig(), &revoke(t, j), |table| {
                *table.slot_mut(owner, j) = Capability::EMPTY;
            });
        }
    }
}

/// The dead keep nothing: their slots are empty. What others hold over them stays.
#[test]
fn a_destroy_leaves_the_dead_with_empty_slots() {
    let destroy = Request::Destroy {
        actor: 0,
        t: WRITES,
    };
    becomes(&rig(), &destroy, |table| {
        table.record_mut(1).status = DEAD;
        for j in 0..8 {
            *table.slot_mut(1, j) = Capability::EMPTY;
        }
    });
}

/// The slot that is used is another matter: an empty one is 4, as ever, and the table stays.
#[test]
fn an_empty_slot_that_is_used_is_refused_by_4() {
    for t in EMPTY {
        for request in [
            fetch(t, 6, 0),
            store(t, 6, 0),
            revoke(t, 0),
            send(t, &[(6, 0)], NO_REPLY),
        ] {
            let refused = step_in_both_forms(&rig(), request.to_bytes().as_slice());
            assert_eq!(refused, (4, rig()), "{request}");
        }
    }
}

/// Every request of 0 that copies one slot, and some that copy two.
fn copying_requests() -> Vec<Request> {
    let slots = || (0..8).flat_map(|i| (0..8).map(move |j| (i, j)));
    let mut requests = Vec::new();
    for (i, j) in slots() {
        requests.extend((0..8).flat_map(|t| [fetch(t, i, j), store(t, i, j)]));
        requests.push(allocate(i, &[(j, 0), (i, 0)]));
        for t in [SENDS, ITSELF] {
            for pairs in [[(i, j), (6, j)], [(7, j), (i, j)], [(i, j), (j, i)]] {
                requests.push(send(t, &pairs, NO_REPLY));
                requests.push(send(t, &pairs, j));
            }
        }
    }
    requests
}

/// A filled slot may become another, and never an empty one.
#[test]
fn no_copy_empties_a_slot() {
    let filled = |table: &Table| {
        let places = (0..64).flat_map(|n| (0..8).map(move |j| (n, j)));
        places
            .filter(|&(n, j)| *table.slot(n, j) != Capability::EMPTY)
            .collect::<Vec<_>>()
    };
    let before = filled(&rig());
    let mut done = 0;
    for request in copying_requests() {
        let (number, table) = step_in_both_forms(&rig(), request.to_bytes().as_slice());
        let after = filled(&table);
        assert!(
            before.iter().all(|place| after.contains(place)),
            "{request}"
        );
        done += u32::from(number == 0);
    }
    // Of the eight slots four serve a fetch and three a store; every allocate and every send is done.
    assert_eq!(done, 64 * (4 + 3 + 1 + 2 * 3 * 2));
}
