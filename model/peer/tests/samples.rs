//! What is measured is what it says: every request and every call answers as it should.

use std::collections::BTreeSet;

use yavrinks_model::chain::chain;
use yavrinks_model::confinement::{confinement_test, Tested};
use yavrinks_model::set;
use yavrinks_model::step::step;
use yavrinks_model::table::{Table, NO_MAKER, WK};
use yavrinks_model::take_grant;
use yavrinks_model::wire::decode_list;
use yavrinks_peer::calls::{answer, Call};
use yavrinks_peer::cases::samples;
use yavrinks_peer::samples::{farthest, held_list, imports, keeping, made_table};
use yavrinks_peer::samples::{material_test, own_test};
use yavrinks_peer::samples::{places, reclaims, requests, rows, with_slots_filled};
use yavrinks_tools::empty_kinds::{empty_kinds, EmptyKind};
use yavrinks_tools::generate::without_makers;
use yavrinks_tools::generate::{CONFINEMENT_NUMBERS, IMPORT_NUMBERS, SHOWN_NUMBERS};

#[test]
fn both_tables_have_all_eleven_requests() {
    for place in places() {
        assert!(place.table.is_sound());
        let asked = requests(&place.table);
        let replies: Vec<u8> = asked
            .iter()
            .map(|(_, request)| step(&place.table, request).0)
            .collect();
        assert_eq!(
            replies,
            [0, 0, 0, 0, 0, 0, 0, 0, 6, 24, 2],
            "{}",
            place.name
        );
    }
}

#[test]
fn both_tables_have_an_accepted_test() {
    for place in places() {
        let list = decode_list(&held_list(&place.table, place.member));
        let tested = confinement_test(&place.table, set::single(place.member), &list);
        assert!(tested.is_accepted(), "{}", place.name);
        assert_ne!(tested.bound, 0, "{}", place.name);
    }
}

/// Every slot of its members has wk alone, over 56 objects, far more than a list has room for.
#[test]
fn the_test_with_64_wk_unlisted_is_accepted_with_an_empty_bound() {
    let case = material_test();
    assert!(case.list.is_empty());
    let held: Vec<_> = set::numbers(case.members)
        .flat_map(|member| case.table.record(member).slots)
        .collect();
    assert_eq!(held.len(), 64);
    assert!(held.iter().all(|slot| slot.rights == WK));
    let targets = set::of(held.iter().map(|slot| slot.target));
    assert_eq!(targets, !case.members);
    let found = confinement_test(&case.table, case.members, &case.list);
    assert_eq!(found, Tested::empty(0));
}

/// 64 objects in a row take as many rounds as there can be, also with every slot filled but those of the last one.
#[test]
fn the_tests_of_rows_take_63_rounds() {
    for row in rows() {
        let filled = with_slots_filled(&row);
        let held = filled
            .table
            .records
            .iter()
            .map(|r| r.capabilities().count());
        assert_eq!(held.sum::<usize>(), 63 * 8, "{}", row.name);
        for place in [row, filled] {
            let case = own_test(&place);
            let tested = confinement_test(&case.table, case.members, &case.list);
            assert_eq!(
                tested,
                Tested::accepted(!case.members, 63),
                "{}",
                place.name
            );
        }
    }
}

/// The send copies four empty slots, the first fetch one with rights 10 through wk and tx, the other all rights through
/// the same: its copy is wk, which is what stands there. Each goes to a filled slot.
#[test]
fn the_copies_that_are_measured_keep_every_slot() {
    let kinds = [
        vec![EmptyKind::Send],
        vec![EmptyKind::WeakenedWrTx],
        Vec::new(),
    ];
    assert_eq!(keeping().len(), kinds.len());
    for (case, kinds) in keeping().into_iter().zip(kinds) {
        let (reply, after) = step(&case.table, &case.request);
        assert_eq!(reply, 0, "{}", case.name);
        for n in 0..64 {
            assert_eq!(after.record(n).slots, case.table.record(n).slots);
        }
        assert_eq!(
            empty_kinds(&case.table, &case.request),
            kinds,
            "{}",
            case.name
        );
    }
}

/// Two slots name the number in the small table, all of 63 objects in the second and one in the third, where every slot
/// of an alive object is filled; the second's number made them all. After the reclaim none is left, and nothing
/// else has changed.
#[test]
fn the_reclaims_that_are_measured_empty_so_many_slots() {
    for (case, (named, made, filled)) in
        reclaims()
            .into_iter()
            .zip([(2, 0, 7), (504, 63, 504), (1, 0, 504)])
    {
        let (reply, after) = step(&case.table, &case.request);
        assert_eq!(reply, 0, "{}", case.name);
        let held = |table: &Table| {
            table
                .records
                .iter()
                .flat_map(|r| r.slots)
                .collect::<Vec<_>>()
        };
        let changed = held(&case.table)
            .iter()
            .zip(held(&after))
            .filter(|(before, after)| *before != after)
            .count();
        assert_eq!(changed, named, "{}", case.name);
        let slots = held(&case.table).into_iter();
        assert_eq!(slots.filter(|slot| !slot.is_empty()).count(), filled);
        let makers = case.table.records.iter().filter(|r| r.maker != NO_MAKER);
        assert_eq!((makers.count(), after.has_makers()), (made, false));
        assert_eq!(
            after.born().count_ones() + 1,
            case.table.born().count_ones()
        );
    }
}

/// No object has a longer chain than the one that is measured, and none below it as long a one.
#[test]
fn the_chain_that_is_measured_is_the_longest() {
    for place in places().into_iter().chain(rows()) {
        let case = own_test(&place);
        let links = |object| chain(&case.table, case.members, &case.list, object).1.len();
        let object = farthest(&case).expect("the bound is not empty");
        assert!(links(object) > 0, "{}", place.name);
        assert!((0..object).all(|other| links(other) < links(object)));
        assert!((object..64).all(|other| links(other) <= links(object)));
        let in_a_row = rows().iter().any(|row| row.name == place.name);
        assert_eq!(links(object) == 63, in_a_row);
    }
}

/// The full import has 64 entities with eight capabilities each; both are brought in, with as many objects as
/// they have entities.
#[test]
fn the_imports_that_are_measured_are_brought_in() {
    let [full, small] = imports();
    assert_eq!(full.bytes.len(), 1092);
    for (import, count) in [(full, 64), (small, 3)] {
        assert_eq!(import.bytes[3], count, "{}", import.name);
        let (number, table) = take_grant::import(&import.bytes);
        assert_eq!(number, 0, "{}", import.name);
        assert_eq!(table.born().count_ones(), u32::from(count));
        assert!(table.is_sound());
    }
}

/// Every object of that table has a maker that is born, and none is its own; the filled table has no makers.
#[test]
fn the_table_with_makers_is_the_filled_one_with_every_object_made() {
    let made = made_table();
    assert!(made.is_sound());
    for n in set::numbers(made.born()) {
        let maker = made.record(n).maker;
        assert!(maker != n && made.is_born(maker), "{maker} made {n}");
    }
    assert_eq!(made.born().count_ones(), 63);
    let [_, filled] = places();
    assert!(!filled.table.has_makers());
    assert_eq!(without_makers(&made), filled.table);
}

#[test]
fn these_calls_are_measured_with_every_number() {
    for (call, numbers) in [
        (Call::Step, &[0, 1, 2, 6, 24][..]),
        (Call::Stepped, &[0, 1, 2, 6, 24]),
        (Call::Access, &[0, 1]),
        (Call::AccessByGroups, &[0, 1]),
        (Call::Test, &CONFINEMENT_NUMBERS),
        (Call::TestByGroups, &CONFINEMENT_NUMBERS),
        (Call::Chain, &SHOWN_NUMBERS),
        (Call::Read, &[0, 1, 14, 15]),
        (Call::Import, &IMPORT_NUMBERS),
        (Call::Write, &[0, 1, 16]),
        (Call::WriteOlder, &[0, 1, 16, 23]),
    ] {
        let met: BTreeSet<u8> = samples(call).iter().map(|sample| sample.number).collect();
        assert!(met.iter().eq(numbers), "{}: {met:?}", call.name());
    }
}

#[test]
fn the_archive_answers_every_sample_as_the_model_does() {
    for call in Call::ALL {
        let mut numbers = Vec::new();
        for sample in samples(call) {
            let number = answer(call, &sample);
            assert_eq!(number, sample.number, "{} on {}", call.name(), sample.name);
            numbers.push(number);
        }
        assert!(numbers.contains(&0), "{} is never done", call.name());
        let never = matches!(
            call,
            Call::Import | Call::Confine | Call::Unborn | Call::Version
        );
        assert!(numbers.contains(&1) || never, "{}", call.name());
    }
}
