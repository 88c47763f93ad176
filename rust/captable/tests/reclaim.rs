//! Document 02, 2.8, "Use dead numbers again": each of its sentences that speaks of a request, on tables that are
//! written here by hand. Every reclaim is made in both forms of the step.

mod common;

use captable::{Capability, PairList, Record, Request, StepRefusal, Table, WriteOlderRefusal};
use captable::{ACTIVE, ALIVE, DEAD, NO_MAKER, PASSIVE, RD, TX, WK, WR};
use common::{cap, set, step_in_both_forms};

/// Who asks, through which slot, and for which dead number.
const ACTOR: u8 = 5;
const T: u8 = 2;
const GONE: u8 = 20;

fn reclaim(actor: u8, t: u8) -> Request {
    Request::Reclaim { actor, t }
}

/// 3 and 5 are active and 4 and 6 passive; 20 is dead, was active and was made by 3. 5 holds wr over 20 in slot 2, and
/// 30 in its stock.
fn rig() -> Table {
    let mut table = Table::unborn();
    for (n, kind) in [(3, ACTIVE), (4, PASSIVE), (ACTOR, ACTIVE), (6, PASSIVE)] {
        table.record_mut(n).status = ALIVE;
        table.record_mut(n).kind = kind;
        table.record_mut(n).word = 100 + u32::from(n);
    }
    *table.record_mut(GONE) = Record {
        status: DEAD,
        kind: ACTIVE,
        maker: 3,
        ..Record::UNBORN
    };
    table.record_mut(ACTOR).stock = set(&[30]);
    *table.slot_mut(ACTOR, T) = cap(GONE, WR);
    table
}

/// What the request is answered; a refusal leaves the table.
#[track_caller]
fn answered(table: &Table, request: &Request) -> u8 {
    let (number, after) = step_in_both_forms(table, request.to_bytes().as_slice());
    assert!(number == 0 || after == *table, "{request}");
    number
}

/// The table after a request that has to be done.
#[track_caller]
fn after(table: &Table, request: &Request) -> Table {
    let (number, after) = step_in_both_forms(table, request.to_bytes().as_slice());
    assert_eq!(number, 0, "{request}");
    after
}

/// After the reclaim the table is as it was, but for the changes.
#[track_caller]
fn becomes(table: &Table, changes: impl FnOnce(&mut Table)) {
    let mut expected = table.clone();
    changes(&mut expected);
    assert!(expected.is_sound());
    assert_eq!(after(table, &reclaim(ACTOR, T)), expected);
}

/// What every reclaim of 20 in the rig does.
fn reclaimed(table: &mut Table) {
    *table.record_mut(GONE) = Record::UNBORN;
    table.record_mut(ACTOR).stock = set(&[GONE, 30]);
    *table.slot_mut(ACTOR, T) = Capability::EMPTY;
}

/// "The number becomes unborn and joins the actor's stock": the record is the whole unborn one, kind and maker too.
#[test]
fn the_number_is_unborn_and_in_the_actors_stock() {
    becomes(&rig(), reclaimed);
    let table = after(&rig(), &reclaim(ACTOR, T));
    let record = table.record(GONE);
    assert_eq!((record.status, record.kind, record.word), (0, PASSIVE, 0));
    assert_eq!((record.maker, record.stock), (NO_MAKER, set(&[])));
    assert!((0..8).all(|j| *table.slot(GONE, j) == Capability::EMPTY));
    assert_eq!(table.record(ACTOR).stock, set(&[GONE, 30]));
    assert_eq!(table.record(ACTOR).word, 105);
}

/// "every capability naming it anywhere becomes an empty slot": in every slot of active and passive objects, of
/// the actor too, with every rights value; slots that name others stay.
#[test]
fn every_capability_over_it_is_emptied() {
    for rights in 1..=15 {
        let mut table = rig();
        for n in [3, 4, 6] {
            for j in 0..8 {
                *table.slot_mut(n, j) = cap(GONE, rights);
            }
        }
        for j in (0..8).filter(|&j| j != T) {
            *table.slot_mut(ACTOR, j) = cap(GONE, rights);
        }
        becomes(&table, |table| {
            reclaimed(table);
            for n in [3, 4, ACTOR, 6] {
                for j in 0..8 {
                    *table.slot_mut(n, j) = Capability::EMPTY;
                }
            }
        });
    }
    let mut table = rig();
    *table.slot_mut(3, 0) = cap(4, RD);
    *table.slot_mut(3, 7) = cap(GONE, RD | TX);
    *table.slot_mut(4, 3) = cap(GONE, WK);
    *table.slot_mut(4, 4) = cap(ACTOR, WR);
    *table.slot_mut(6, 0) = cap(GONE, 15);
    *table.slot_mut(ACTOR, 1) = cap(3, TX);
    becomes(&table, |table| {
        reclaimed(table);
        for (n, j) in [(3, 7), (4, 3), (6, 0)] {
            *table.slot_mut(n, j) = Capability::EMPTY;
        }
    });
}

/// "every maker byte naming it becomes 64": of alive and dead objects, of either kind, and the actor's own. Other
/// makers stay.
#[test]
fn every_maker_that_names_it_becomes_64() {
    let mut table = rig();
    for n in [21, 22] {
        table.record_mut(n).status = DEAD;
    }
    for n in [4, ACTOR, 21] {
        table.record_mut(n).maker = GONE;
    }
    table.record_mut(6).maker = ACTOR;
    table.record_mut(22).maker = 21;
    becomes(&table, |table| {
        reclaimed(table);
        for n in [4, ACTOR, 21] {
            table.record_mut(n).maker = NO_MAKER;
        }
    });
    // One that is its own maker.
    let mut table = rig();
    table.record_mut(GONE).maker = GONE;
    becomes(&table, reclaimed);
}

/// 0 is the target of every empty slot too, and the least number; 63 is the last.
#[test]
fn the_first_and_the_last_number_are_reclaimed() {
    for gone in [0, 63] {
        let mut table = rig();
        *table.record_mut(gone) = *rig().record(GONE);
        *table.slot_mut(ACTOR, T) = cap(gone, WR | WK);
        *table.slot_mut(4, 7) = cap(gone, RD);
        *table.slot_mut(4, 0) = cap(GONE, RD);
        table.record_mut(6).maker = gone;
        becomes(&table, |table| {
            *table.record_mut(gone) = Record::UNBORN;
            table.record_mut(ACTOR).stock = set(&[gone, 30]);
            *table.slot_mut(ACTOR, T) = Capability::EMPTY;
            *table.slot_mut(4, 7) = Capability::EMPTY;
            table.record_mut(6).maker = NO_MAKER;
        });
    }
}

/// Every dead number, by every slot, in a table where each of them is dead but those that ask and hold.
#[test]
fn every_number_is_reclaimed_through_every_slot() {
    for gone in (0..64).filter(|n| ![3, ACTOR].contains(n)) {
        for t in 0..8 {
            let mut table = Table::unborn();
            for n in 0..64 {
                table.record_mut(n).status = DEAD;
            }
            for n in [3, ACTOR] {
                table.record_mut(n).status = ALIVE;
                table.record_mut(n).kind = ACTIVE;
                table.record_mut(n).maker = gone;
                for j in 0..8 {
                    *table.slot_mut(n, j) = cap((gone + j) % 64, WR);
                }
            }
            *table.slot_mut(ACTOR, t) = cap(gone, WR);
            let mut expected = table.clone();
            *expected.record_mut(gone) = Record::UNBORN;
            expected.record_mut(ACTOR).stock = set(&[gone]);
            for n in [3, ACTOR] {
                expected.record_mut(n).maker = NO_MAKER;
                *expected.slot_mut(n, 0) = Capability::EMPTY;
            }
            *expected.slot_mut(ACTOR, t) = Capability::EMPTY;
            assert_eq!(after(&table, &reclaim(ACTOR, t)), expected, "{gone}, {t}");
        }
    }
}

/// "It must not depend on who else holds such a capability": whoever else does and whatever was made by it, the
/// reply is the same, and so is the actor's record and the stock.
#[test]
fn other_holders_do_not_matter() {
    let mut seen = rig();
    for n in [3, 4, 6] {
        for j in 0..8 {
            *seen.slot_mut(n, j) = cap(GONE, WR | TX);
        }
        seen.record_mut(n).maker = GONE;
    }
    // And objects that nobody else knows of.
    for n in 40..48 {
        seen.record_mut(n).status = ALIVE;
        *seen.slot_mut(n, n % 8) = cap(GONE, WK);
    }
    let (alone, held) = (
        after(&rig(), &reclaim(ACTOR, T)),
        after(&seen, &reclaim(ACTOR, T)),
    );
    assert_eq!(alone.record(ACTOR), held.record(ACTOR));
    assert!((0..8).all(|j| alone.slot(ACTOR, j) == held.slot(ACTOR, j)));
    assert_eq!(alone.record(GONE), held.record(GONE));
    // Nor do they in what is refused.
    for (rights, status, number) in [(RD, DEAD, 6), (WR, ALIVE, 24), (RD, ALIVE, 24)] {
        for table in [rig(), seen.clone()] {
            let mut table = table;
            table.slot_mut(ACTOR, T).rights = rights;
            table.record_mut(GONE).status = status;
            assert_eq!(answered(&table, &reclaim(ACTOR, T)), number);
        }
    }
}

/// "needs wr": with every value that has it, and by 6 with every one that has not.
#[test]
fn it_needs_wr() {
    for rights in 1..=15 {
        let mut table = rig();
        table.slot_mut(ACTOR, T).rights = rights;
        let expected = if rights & WR != 0 { 0 } else { 6 };
        assert_eq!(
            answered(&table, &reclaim(ACTOR, T)),
            expected,
            "rights {rights}"
        );
    }
}

/// "refusal 5 does not apply to reclaim. Turned away: 24, between 4 and 6, if the target is alive": each refusal
/// comes though all later causes are there too.
#[test]
fn the_order_of_refusals_is_1_2_3_4_24_6() {
    // Slot 0 of 4, which is passive, is over 3, which is alive, and has no wr.
    let mut table = rig();
    *table.slot_mut(4, 0) = cap(3, RD);
    *table.slot_mut(ACTOR, 0) = cap(3, RD | WK | TX);
    let mut unsound = table.clone();
    unsound.record_mut(50).word = 1;
    assert_eq!(answered(&unsound, &reclaim(64, 8)), 1);
    assert_eq!(answered(&unsound, &reclaim(ACTOR, T)), 1);
    for (actor, t) in [(64, 0), (255, 8), (4, 8), (ACTOR, 8), (ACTOR, 255)] {
        assert_eq!(answered(&table, &reclaim(actor, t)), 2, "{actor}, {t}");
    }
    // Passive, unborn and dead actors, with a slot that is filled and with empty ones.
    for (actor, t) in [(4, 0), (4, 1), (40, 0), (GONE, 0)] {
        assert_eq!(answered(&table, &reclaim(actor, t)), 3, "{actor}, {t}");
    }
    assert_eq!(answered(&table, &reclaim(ACTOR, 7)), 4);
    for rights in 1..=15 {
        *table.slot_mut(ACTOR, 0) = cap(3, rights);
        assert_eq!(answered(&table, &reclaim(ACTOR, 0)), 24, "rights {rights}");
        // And of an alive target that is passive, and of the actor itself.
        *table.slot_mut(ACTOR, 0) = cap(4, rights);
        assert_eq!(answered(&table, &reclaim(ACTOR, 0)), 24, "rights {rights}");
        *table.slot_mut(ACTOR, 0) = cap(ACTOR, rights);
        assert_eq!(answered(&table, &reclaim(ACTOR, 0)), 24, "rights {rights}");
    }
    table.slot_mut(ACTOR, T).rights = RD | WK | TX;
    assert_eq!(answered(&table, &reclaim(ACTOR, T)), 6);
    table.slot_mut(ACTOR, T).rights = WR;
    assert_eq!(answered(&table, &reclaim(ACTOR, T)), 0);
}

#[test]
fn each_refusal_has_its_name() {
    let mut table = rig();
    *table.slot_mut(ACTOR, 0) = cap(3, WR);
    let refused = table.step(&reclaim(ACTOR, 0));
    assert_eq!(refused, Err(StepRefusal::TargetAlive));
    assert_eq!(StepRefusal::TargetAlive.number(), 24);
    let told = StepRefusal::TargetAlive.to_string();
    assert_eq!(told, "refused 24: the target is alive");
    // The other requests through the slot of a dead target are refused by 5 as before, and reclaim alone is not.
    for request in [
        Request::Read { actor: ACTOR, t: T },
        Request::Revoke {
            actor: ACTOR,
            t: T,
            j: 0,
        },
        Request::Destroy { actor: ACTOR, t: T },
    ] {
        assert_eq!(table.step(&request), Err(StepRefusal::TargetDead));
    }
    assert_eq!(table.step(&reclaim(ACTOR, T)), Ok(()));
    assert_eq!(
        table.step(&reclaim(ACTOR, T)),
        Err(StepRefusal::SlotEmpty),
        "the slot is empty by then"
    );
}

/// "Codes run to 9 at refusal 2": three bytes, and no other number of them.
#[test]
fn a_reclaim_is_three_bytes() {
    let bytes = [9, ACTOR, T, 0, 0];
    for length in 0..=bytes.len() {
        let (number, table) = step_in_both_forms(&rig(), &bytes[..length]);
        assert_eq!(number, if length == 3 { 0 } else { 2 }, "{length} bytes");
        assert_eq!(table == rig(), length != 3);
    }
    assert_eq!(
        Request::from_bytes(&bytes[..3]),
        Some(reclaim(ACTOR, T)),
        "and decoded as one"
    );
    assert_eq!(Request::from_bytes(&[10, ACTOR, T]), None);
    // Who asks is whom the firmware names: 3 holds nothing.
    let mut table = rig();
    let refused = table.step_as(3, &bytes[..3]);
    assert_eq!(refused, Err(StepRefusal::SlotEmpty));
    assert_eq!(table.step_as(ACTOR, &[9, 3, T]), Ok(()));
}

fn allocate(actor: u8, n: u8, i: u8) -> Request {
    let (part, list) = (set(&[]), PairList::EMPTY);
    Request::Allocate {
        actor,
        n,
        kind: PASSIVE,
        part,
        i,
        list,
    }
}

/// A number goes round: made, destroyed, reclaimed, and made again by another, who then is its maker; who held the old
/// object has nothing over the new one.
#[test]
fn a_number_is_made_again() {
    let mut table = rig();
    *table.slot_mut(3, 0) = cap(GONE, 15);
    *table.slot_mut(3, 1) = cap(ACTOR, TX);
    let mut table = after(&table, &reclaim(ACTOR, T));
    let made = after(&table, &allocate(ACTOR, GONE, 4));
    let expected = Record {
        status: ALIVE,
        kind: PASSIVE,
        maker: ACTOR,
        ..Record::UNBORN
    };
    assert_eq!(*made.record(GONE), expected);
    assert_eq!(made.record(ACTOR).stock, set(&[30]));
    assert_eq!(*made.slot(ACTOR, 4), cap(GONE, 15));
    assert_eq!(answered(&made, &Request::Read { actor: 3, t: 0 }), 4);
    // Only who reclaimed it can make it.
    assert_eq!(answered(&table, &allocate(3, GONE, 4)), 9);
    for turn in 0..3 {
        table = after(&table, &allocate(ACTOR, GONE, T));
        assert_eq!(answered(&table, &reclaim(ACTOR, T)), 24, "turn {turn}");
        table = after(&table, &Request::Destroy { actor: ACTOR, t: T });
        assert_eq!(answered(&table, &allocate(ACTOR, GONE, T)), 9);
        table = after(&table, &reclaim(ACTOR, T));
        assert_eq!(table.record(ACTOR).stock, set(&[GONE, 30]));
    }
}

/// Who reclaims need not be who destroyed or who made: 3 made 20, and 5 takes its number.
#[test]
fn it_joins_the_stock_of_who_asks() {
    let mut table = rig();
    *table.slot_mut(3, 0) = cap(GONE, WR);
    let by_maker = after(&table, &reclaim(3, 0));
    assert_eq!(by_maker.record(3).stock, set(&[GONE]));
    assert_eq!(by_maker.record(ACTOR).stock, set(&[30]));
    assert_eq!(*by_maker.slot(ACTOR, T), Capability::EMPTY);
    let by_other = after(&table, &reclaim(ACTOR, T));
    assert_eq!(by_other.record(3).stock, set(&[]));
    assert_eq!(answered(&by_other, &reclaim(3, 0)), 4);
}

/// A table in which something was made goes back to the older form once its number, or that of its maker, is
/// reclaimed.
#[test]
fn a_table_goes_back_when_its_makers_are_gone() {
    let table = rig();
    assert_eq!(
        table.to_older_image(),
        Err(WriteOlderRefusal::MakerRecorded)
    );
    let without = after(&table, &reclaim(ACTOR, T));
    let older = without.to_older_image().expect("no maker is left");
    assert_eq!(Table::from_image(&older), Ok(without));
    // 20 made 6.
    let mut table = rig();
    table.record_mut(GONE).maker = NO_MAKER;
    table.record_mut(6).maker = GONE;
    assert!(table.to_older_image().is_err());
    assert!(after(&table, &reclaim(ACTOR, T)).to_older_image().is_ok());
}
