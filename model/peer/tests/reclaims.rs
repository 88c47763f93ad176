//! Every number reclaimed through every slot, every rights value over alive and dead targets, and every three bytes that
//! begin with 9 or 10: the archive answers as the model does, and as document 02, 2.8, has it.

use yavrinks_model::set;
use yavrinks_model::step::Request;
use yavrinks_model::table::{Capability, Record, Table};
use yavrinks_model::table::{ACTIVE, ALIVE, DEAD, NO_MAKER, PASSIVE, UNBORN, WR};
use yavrinks_model::wire::{encode, request_in};
use yavrinks_peer::archive::Archive;
use yavrinks_peer::convert::to_model;
use yavrinks_peer::differential::{compare_chain, compare_step, compare_test};
use yavrinks_peer::differential::{Ask, Compared, Twin};
use yavrinks_peer::samples::list_bytes;
use yavrinks_tools::shared::SharedStep;
use yavrinks_tools::shared::{shared_steps_with_reclaims, shared_tests_with_reclaims};

/// The answer, which is the same on both sides.
#[track_caller]
fn compared<T>(answer: Compared<T>) -> T {
    match answer {
        Ok(answer) => answer,
        Err(difference) => panic!("{difference}"),
    }
}

/// The reply to a request and the table after it, which are the same on both sides and in both forms of the step.
#[track_caller]
fn stepped(table: &Table, request: &Request) -> (u8, Table) {
    let ask = Ask {
        bytes: encode(request).into_boxed_slice(),
        request: Some(request.clone()),
    };
    let mut twin = Twin::new(table.clone());
    let reply = compared(compare_step(&Archive, &mut twin, &ask));
    (reply, to_model(&twin.lent))
}

/// 64 objects, all of them alive but one, which made all others and is held by all of them in every slot.
fn all_about(dead: u8, kind: u8) -> Table {
    let mut table = Table::unborn();
    for (n, record) in (0..).zip(&mut table.records) {
        record.status = ALIVE;
        record.kind = n % 2;
        record.word = u32::from(n);
        record.maker = dead;
        record.slots = [Capability::new(dead, WR); 8];
    }
    *table.record_mut(dead) = Record {
        status: DEAD,
        kind,
        maker: dead,
        ..Record::UNBORN
    };
    table
}

/// Each number, asked for by two actors through each slot: nothing is left that names it.
#[test]
fn every_number_through_every_slot() {
    for dead in 0..64 {
        for actor in [(dead + 1) | 1, (dead + 33) | 1].map(|n| n % 64) {
            if actor == dead {
                continue;
            }
            for t in 0..8 {
                let table = all_about(dead, dead / 2 % 2);
                let (reply, after) = stepped(&table, &Request::Reclaim { actor, t });
                assert_eq!(reply, 0);
                let mut expected = Table::unborn();
                for n in (0..64).filter(|&n| n != dead) {
                    let record = expected.record_mut(n);
                    (record.status, record.kind) = (ALIVE, n % 2);
                    record.word = u32::from(n);
                }
                expected.record_mut(actor).stock = set::single(dead);
                assert_eq!(after, expected, "{actor} reclaims {dead} through {t}");
                let again = Request::Reclaim { actor, t };
                assert_eq!(stepped(&after, &again).0, 4);
            }
        }
    }
}

/// Every rights value, over a target of each status and kind: 24 for one that is alive, whatever the rights, 6 for a dead
/// one without wr, never 5. In a sound table nothing names an unborn number: that is 1.
#[test]
fn every_rights_value_over_every_target() {
    for rights in 0..=255 {
        for status in [UNBORN, ALIVE, DEAD] {
            for kind in [PASSIVE, ACTIVE] {
                for target in [0, 2, 63] {
                    let mut table = Table::k();
                    *table.record_mut(target) = Record {
                        status,
                        kind: if status == UNBORN { PASSIVE } else { kind },
                        ..Record::UNBORN
                    };
                    // Nothing but the used slot names it.
                    for record in &mut table.records {
                        for slot in &mut record.slots {
                            if slot.target == target {
                                *slot = Capability::EMPTY;
                            }
                        }
                    }
                    table.record_mut(5).slots[7] = Capability::new(target, rights);
                    let (reply, after) = stepped(&table, &Request::Reclaim { actor: 5, t: 7 });
                    let expected = match (rights, status, target) {
                        (0, _, 0) => 4,
                        (0, ..) | (16.., ..) | (_, UNBORN, _) => 1,
                        (_, ALIVE, _) => 24,
                        (_, _, _) if rights & WR == 0 => 6,
                        _ => 0,
                    };
                    assert_eq!(reply, expected, "{rights} over {target}, {status}");
                    assert_eq!(after == table, reply != 0);
                }
            }
        }
    }
}

/// Every actor and every t, in range and out of it; 10 in the place of 9 is no request.
#[test]
fn every_actor_and_every_slot() {
    let mut table = all_about(20, ACTIVE);
    table.record_mut(7).slots[3] = Capability::EMPTY;
    table.record_mut(7).slots[4] = Capability::new(9, WR);
    for actor in 0..=255 {
        for t in 0..=255 {
            let (reply, _) = stepped(&table, &Request::Reclaim { actor, t });
            let expected = match (actor, t) {
                (64.., _) | (_, 8..) => 2,
                (20, _) => 3,
                (7, 3) => 4,
                (7, 4) => 24,
                (_, _) if actor % 2 == 0 => 3,
                _ => 0,
            };
            assert_eq!(reply, expected, "{actor}, {t}");
        }
    }
    for code in (10..=255).chain([0]) {
        let bytes = [code, 7, 0];
        assert_eq!(request_in(&bytes), None);
        let ask = Ask {
            bytes: Box::new(bytes),
            request: None,
        };
        let mut twin = Twin::new(table.clone());
        assert_eq!(compared(compare_step(&Archive, &mut twin, &ask)), 2);
        assert_eq!(to_model(&twin.lent), table);
    }
}

/// "It must not depend on who else holds such a capability": with one other holder, at every place, and with none the
/// reply and what becomes of the actor are the same.
#[test]
fn no_other_holder_is_seen() {
    let mut table = Table::k();
    table.record_mut(20).status = DEAD;
    table.record_mut(5).slots[7] = Capability::new(20, WR);
    let reclaim = Request::Reclaim { actor: 5, t: 7 };
    let (_, alone) = stepped(&table, &reclaim);
    for holder in 0..64 {
        for j in 0..8 {
            let mut other = table.clone();
            if holder == 5 || holder == 20 {
                continue;
            }
            if other.record(holder).status == UNBORN {
                if set::contains(other.record(5).stock | other.record(4).stock, holder) {
                    continue;
                }
                other.record_mut(holder).status = ALIVE;
            }
            let before = other.record(holder).slots[j];
            other.record_mut(holder).slots[j] = Capability::new(20, 1 + holder % 15);
            other.record_mut(holder).maker = 20;
            let (reply, after) = stepped(&other, &reclaim);
            assert_eq!(reply, 0);
            assert_eq!(after.record(5), alone.record(5));
            assert_eq!(after.record(20), alone.record(20));
            assert_eq!(after.record(holder).maker, NO_MAKER);
            assert!(after.record(holder).slots[j].is_empty(), "{before:?}");
        }
    }
}

/// Each step and test of the shared test vectors of 2.8 is answered as they say.
#[test]
fn the_shared_test_vectors() {
    let steps = shared_steps_with_reclaims();
    assert!(steps.len() >= 100);
    let is_reclaim = |shared: &&SharedStep| matches!(shared.step.request, Request::Reclaim { .. });
    assert!(steps.iter().filter(is_reclaim).count() >= 10);
    for SharedStep { step, answer } in steps {
        assert_eq!(stepped(&step.table, &step.request), answer);
    }
    let tests = shared_tests_with_reclaims();
    assert!(tests.len() >= 40);
    for shared in tests {
        let (case, list) = (&shared.test, list_bytes(&shared.test.list));
        let told = compared(compare_test(&Archive, &case.table, case.members, &list));
        assert_eq!((told.number, told.bound), shared.answer);
        assert!(shared.rounds.is_none_or(|rounds| rounds == told.rounds));
        for object in 0..66 {
            let told = compare_chain(&Archive, &case.table, case.members, &list, object);
            compared(told);
        }
    }
}
