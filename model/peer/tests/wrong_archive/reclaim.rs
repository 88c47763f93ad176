//! Archives that misread 2.8 of document 02: which reclaims are done, which number refuses the others, what is emptied
//! and reset, and which bytes are a reclaim. The comparison finds each of them out.

use captable::raw;
use yavrinks_model::step::{Code, Request};
use yavrinks_model::table::{Capability, Table};
use yavrinks_model::wire::request_in;
use yavrinks_peer::archive::{Archive, Calls};
use yavrinks_peer::convert::{to_model, to_raw};
use yavrinks_peer::differential::{compare_requests, Again, Counts, Line, Tally};
use yavrinks_tools::generate::ReclaimKind;
use yavrinks_tools::misread_reclaim::Misread;

use super::done::{table_is_found, ByValue, Done, Lent};
use super::{is_found, is_found_in, REQUESTS};

/// The steps of an archive that takes a reclaim as this reading does, and all else as it is.
fn misread(reading: Misread) -> impl Fn(&raw::Table, &mut [u8]) -> raw::Outcome {
    move |table, bytes| match request_in(bytes) {
        Some(request @ Request::Reclaim { .. }) => {
            let (number, after) = reading.step(&to_model(table), &request);
            // A refusal leaves the very table, which may be no table of the model's.
            let left = if number == 0 { to_raw(&after) } else { *table };
            raw::Outcome {
                table: left,
                number,
            }
        }
        _ => {
            let mut given = *table;
            Archive.stepped(&mut given, bytes)
        }
    }
}

/// What such an archive first answers otherwise.
fn part(reading: Misread) -> [&'static str; 2] {
    match reading {
        Misread::AliveToo
        | Misread::DeadRefused
        | Misread::RightFirst
        | Misread::WkIsEnough
        | Misread::RdIsEnough
        | Misread::RefusedWhileHeld
        | Misread::RefusedWhileHeldByPassive => ["number", "number"],
        _ => ["table given back", "table left"],
    }
}

/// An alive target reclaimed, 5 for a dead one, 6 before 24, the actor's capabilities alone emptied, passive holders
/// passed over, makers left, the number in no stock, the kind left, a refusal while others hold it, and more.
#[test]
fn every_wrong_reading_is_found() {
    for reading in Misread::ALL {
        println!("{reading:?}");
        let [by_value, lent] = part(reading);
        is_found_in(
            &ByValue(misread(reading)),
            "captable_step_by_value",
            by_value,
        );
        is_found_in(&Lent(misread(reading)), "captable_step", lent);
    }
}

/// Changes the table after a reclaim, told the table before, the actor and the target.
fn reclaimed(done: &mut Done, change: fn(&mut Table, &Table, u8, u8)) {
    if let Request::Reclaim { actor, t } = done.request {
        let target = done.before.record(actor).slots[usize::from(t)].target;
        change(&mut done.after, &done.before, actor, target);
    }
}

/// wk alone stays, since it influences nobody, or all that is without wr.
#[test]
fn capabilities_that_stay_by_their_rights_are_found() {
    fn keep(after: &mut Table, before: &Table, target: u8, stays: fn(&Capability) -> bool) {
        for (record, old) in after.records.iter_mut().zip(&before.records) {
            for (slot, held) in record.slots.iter_mut().zip(&old.slots) {
                if !held.is_empty() && held.target == target && stays(held) {
                    *slot = *held;
                }
            }
        }
    }
    table_is_found(|done| {
        reclaimed(done, |after, before, _, target| {
            keep(after, before, target, |held| held.rights == 4)
        })
    });
    table_is_found(|done| {
        reclaimed(done, |after, before, _, target| {
            keep(after, before, target, |held| held.rights & 2 == 0)
        })
    });
}

/// Slots are emptied in the objects up to the target alone, in all but the last object, or in all slots but the last.
#[test]
fn a_walk_that_ends_too_soon_is_found() {
    table_is_found(|done| {
        reclaimed(done, |after, before, _, target| {
            for n in target + 1..64 {
                after.record_mut(n).slots = before.record(n).slots;
            }
        })
    });
    table_is_found(|done| {
        reclaimed(done, |after, before, _, _| {
            after.record_mut(63).slots = before.record(63).slots
        })
    });
    table_is_found(|done| {
        reclaimed(done, |after, before, _, _| {
            for (record, old) in after.records.iter_mut().zip(&before.records) {
                record.slots[7] = old.slots[7];
            }
        })
    });
}

/// What names number 0 is taken for empty.
#[test]
fn number_0_that_stays_in_slots_is_found() {
    table_is_found(|done| {
        reclaimed(done, |after, before, actor, target| {
            if target == 0 {
                for n in (0..64).filter(|&n| n != actor) {
                    after.record_mut(n).slots = before.record(n).slots;
                }
            }
        })
    });
}

/// The rights go and the target stays.
#[test]
fn slots_that_keep_the_target_are_found() {
    table_is_found(|done| {
        reclaimed(done, |after, before, _, target| {
            for (record, old) in after.records.iter_mut().zip(&before.records) {
                for (slot, held) in record.slots.iter_mut().zip(&old.slots) {
                    if held.target == target {
                        slot.target = target;
                    }
                }
            }
        })
    });
}

/// The maker of a dead object stays, as if nobody asked for it any more.
#[test]
fn makers_of_dead_objects_that_stay_are_found() {
    table_is_found(|done| {
        reclaimed(done, |after, before, _, target| {
            for (n, old) in (0..).zip(&before.records) {
                if old.maker == target && n != target && !old.is_alive() {
                    after.record_mut(n).maker = target;
                }
            }
        })
    });
}

/// A holder is told: its word changes.
#[test]
fn a_holder_that_is_told_is_found() {
    table_is_found(|done| {
        reclaimed(done, |after, before, actor, target| {
            for (n, old) in (0..).zip(&before.records) {
                if n != actor && old.capabilities().any(|held| held.target == target) {
                    after.record_mut(n).word ^= 0x8000_0000;
                }
            }
        })
    });
}

/// The number joins the stock of who made the object, if that is alive, and not the actor's.
#[test]
fn a_number_that_goes_back_to_its_maker_is_found() {
    table_is_found(|done| {
        reclaimed(done, |after, before, actor, target| {
            let maker = before.record(target).maker;
            if maker < 64 && before.record(maker).is_alive() {
                after.record_mut(actor).stock &= !(1 << target);
                after.record_mut(maker).stock |= 1 << target;
            }
        })
    });
}

/// A destroy reclaims at once.
#[test]
fn a_destroy_that_reclaims_is_found() {
    table_is_found(|done| {
        if let Request::Destroy { actor, t } = done.request {
            let again = Request::Reclaim { actor, t };
            yavrinks_model::step::step_in_place(&mut done.after, &again);
        }
    });
}

/// One that empties the used slot before it looks at the target and the right.
#[test]
fn a_refused_reclaim_that_empties_is_found() {
    struct Hasty;
    impl Calls for Hasty {
        fn step(&self, table: &mut raw::Table, request: &mut [u8]) -> u8 {
            let number = Archive.step(table, request);
            if let (24 | 6, [9, actor, t]) = (number, &*request) {
                let used = usize::from(*actor) * 8 + usize::from(*t);
                table.slots[used] = raw::Capability::default();
            }
            number
        }
    }
    is_found(&Hasty, "captable_step", "table left");
}

/// The bytes that an archive takes for these.
type Taken = fn(&[u8]) -> Vec<u8>;

/// Steps by them.
struct Takes(Taken);

impl Calls for Takes {
    fn step(&self, table: &mut raw::Table, request: &mut [u8]) -> u8 {
        Archive.step(table, &mut (self.0)(request))
    }
}

/// As before 2.8, 9 is no code; 10 is one; a reclaim may have a byte more, or lack one.
#[test]
fn wrong_bytes_of_a_reclaim_are_found() {
    let wrong: [Taken; 4] = [
        |bytes| match bytes {
            [9, ..] => vec![99],
            _ => bytes.to_vec(),
        },
        |bytes| match bytes {
            [10..=255, actor, t, ..] => vec![9, *actor, *t],
            _ => bytes.to_vec(),
        },
        |bytes| match bytes {
            [9, actor, t, ..] => vec![9, *actor, *t],
            _ => bytes.to_vec(),
        },
        |bytes| match bytes {
            [9, actor] => vec![9, *actor, 0],
            _ => bytes.to_vec(),
        },
    ];
    for wrong in wrong {
        is_found_in(&Takes(wrong), "captable_step", "number");
    }
}

/// A reclaim that is taken for a destroy, and one through another slot than t.
#[test]
fn another_request_in_its_place_is_found() {
    let wrong: [Taken; 2] = [
        |bytes| match bytes {
            [9, actor, t] => vec![8, *actor, *t],
            _ => bytes.to_vec(),
        },
        |bytes| match bytes {
            [9, actor, t] => vec![9, *actor, *t & 3],
            _ => bytes.to_vec(),
        },
    ];
    for wrong in wrong {
        is_found_in(&Takes(wrong), "captable_step", "number");
    }
}

/// Reclaims are met in every way that is counted, and numbers are made again by who reclaimed them and by others.
#[test]
fn every_kind_of_reclaims_is_met() {
    let mut counts = Counts::default();
    compare_requests(&Archive, 1, REQUESTS, &mut counts).expect("no difference");
    for tally in Tally::all() {
        let met = counts.of_reclaim(tally);
        assert!(met >= 3, "{tally:?}: {met}\n{counts}");
    }
    for kind in ReclaimKind::ALL {
        assert!(counts.of_reclaim(Tally::Kind(kind)) >= 40, "{counts}");
    }
    let done = counts.of_reclaim(Tally::Done);
    assert_eq!(done, counts.of(Line::Code(Code::Reclaim), 0));
    for (tally, least) in [
        (Tally::EmptiedOfOthers, 1000),
        (Tally::EmptiedOfPassive, 400),
        (Tally::MakerReset, 300),
        (Tally::OwnMakerReset, 40),
        (Tally::Again(Again::BySame), 400),
    ] {
        let met = counts.of_reclaim(tally);
        assert!(met >= least, "{tally:?}: {met}\n{counts}");
    }
}
