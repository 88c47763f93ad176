//! The boundary itself: both forms of the step agree, no bytes at all may come with a null pointer, also
//! where they are a list that is accepted, a test has rounds beside its bound, a chain has zeros after its numbers,
//! an import that is refused gives the unborn table, and what `confine` prints leaves the rest of its buffer.

mod common;

use captable::raw::{
    captable_access, captable_access_by_groups, captable_chain, captable_confine, captable_import,
    captable_read, captable_step, captable_step_by_value, captable_test, captable_test_by_groups,
    captable_write, captable_write_older, Finding, Outcome, Shown,
};
use captable::{Table, ACTIVE, ALIVE, WK, WR};
use common::{cap, k, set, step_in_both_forms};
use std::ptr::{null, null_mut};

#[test]
fn both_forms_of_the_step_agree() {
    let write = [2, 4, 0, 0, 0, 0, 7];
    for request in [&write[..], &write[..6], &[99, 0], &[1, 2, 0]] {
        let (number, after) = step_in_both_forms(&k(), request);
        assert_eq!(after == k(), number != 0 || request == [1, 2, 0]);
    }
}

#[test]
fn no_bytes_may_come_with_a_null_pointer() {
    let mut table = k();
    let mut printed = [0xaa; 256];
    // SAFETY: a length of 0 asks for no byte.
    unsafe {
        assert_eq!(captable_step(table.as_raw_mut(), null(), 0), 2);
        assert_eq!(captable_step_by_value(*k().as_raw(), null(), 0).number, 2);
        assert_eq!(
            captable_test(*k().as_raw(), set(&[5]).bits(), null(), 0).number,
            12
        );
        assert_eq!(
            captable_test_by_groups(*k().as_raw(), set(&[5]).bits(), null(), 0).number,
            12
        );
        assert_eq!(
            captable_chain(*k().as_raw(), set(&[5]).bits(), null(), 0, 2).number,
            12
        );
        let refused = captable_read(null(), 0);
        assert_eq!(
            (refused.number, refused.table),
            (14, *Table::unborn().as_raw())
        );
        let refused = captable_import(null(), 0);
        assert_eq!(
            (refused.number, refused.table),
            (20, *Table::unborn().as_raw())
        );
        assert_eq!(captable_write(*k().as_raw(), null_mut(), 0), 16);
        assert_eq!(captable_write_older(*k().as_raw(), null_mut(), 0), 16);
        assert_eq!(captable_confine(null(), 0, &mut printed), 11);
    }
    assert_eq!(table, k());
    assert_eq!(&printed[..11], b"refused 17\n");
    assert_eq!(printed[11..], [0xaa; 245]);
}

/// Example 2 of document 01: "with the list empty, example 2 is accepted too" (document 02, 2.3).
#[test]
fn no_list_at_all_is_enough_for_wk() {
    let mut weak = k();
    *weak.slot_mut(5, 0) = cap(1, WK);
    let members = set(&[5]).bits();
    // SAFETY: a length of 0 asks for no byte.
    let (found, shown) = unsafe {
        (
            captable_test(*weak.as_raw(), members, null(), 0),
            captable_chain(*weak.as_raw(), members, null(), 0, 1),
        )
    };
    let accepted = Finding {
        bound: 0,
        rounds: 0,
        number: 0,
    };
    assert_eq!(found, accepted);
    assert_eq!((shown.number, shown.count), (19, 0));
}

#[test]
fn example_1_is_printed() {
    let mut input = k().to_older_image().expect("K is sound").to_vec();
    input.extend(set(&[5]).bits().to_be_bytes());
    input.extend([1, 1, WR]);
    let mut printed = [0xaa; 256];
    // SAFETY: the input and the buffer are this test's own.
    let length = unsafe { captable_confine(input.as_ptr(), input.len(), &mut printed) };
    assert_eq!(&printed[..length], b"accepted\n0\n1\n2\n");
    assert!(printed[length..].iter().all(|&byte| byte == 0xaa));
}

/// The finding of the test of table K, where 5 is the member; by groups it is the same.
#[track_caller]
fn tested(list: &[u8]) -> Finding {
    let members = set(&[5]).bits();
    // SAFETY: the list is the caller's own.
    let (found, by_groups) = unsafe {
        (
            captable_test(*k().as_raw(), members, list.as_ptr(), list.len()),
            captable_test_by_groups(*k().as_raw(), members, list.as_ptr(), list.len()),
        )
    };
    assert_eq!(found, by_groups, "{list:?}");
    found
}

/// Whoever is asked, an unsound table has no rights in any row.
#[test]
fn an_unsound_table_has_no_rights_by_groups_either() {
    let mut unsound = k();
    unsound.record_mut(63).kind = 2;
    // SAFETY: the calls take a value alone.
    let (refused, by_groups) = unsafe {
        (
            captable_access(*unsound.as_raw()),
            captable_access_by_groups(*unsound.as_raw()),
        )
    };
    assert_eq!((by_groups.number, by_groups.rows), (1, [0; 256]));
    assert_eq!(refused, by_groups);
}

/// 1 comes in round one; 0 and 2, which have a capability over it, in round two.
#[test]
fn a_test_has_its_rounds_beside_its_bound() {
    let expected = Finding {
        bound: 7,
        rounds: 2,
        number: 0,
    };
    assert_eq!(tested(&[1, WR]), expected);
    // After accepted ones too.
    for (list, number) in [(&[1, WR, 1][..], 11), (&[64, WR], 11), (&[6, WR], 12)] {
        let refused = Finding {
            bound: 0,
            rounds: 0,
            number,
        };
        assert_eq!(tested(list), refused, "{list:?}");
        assert_eq!(tested(&[1, WR]), expected);
    }
}

/// What is shown of an object of table K, where 5 is the member.
fn shown(list: &[u8], object: u8) -> Shown {
    let members = set(&[5]).bits();
    // SAFETY: the list is the caller's own.
    unsafe { captable_chain(*k().as_raw(), members, list.as_ptr(), list.len(), object) }
}

#[test]
fn a_chain_has_zeros_after_its_numbers() {
    let mut numbers = [0; 63];
    numbers[..2].copy_from_slice(&[1, 2]);
    let expected = Shown {
        numbers,
        count: 2,
        number: 0,
    };
    assert_eq!(shown(&[1, WR], 2), expected);
}

#[test]
fn a_chain_that_is_refused_has_no_numbers() {
    // Bytes of odd length are no list.
    for (list, object, number) in [
        (&[1, WR][..], 5, 18),
        (&[1, WR], 66, 18),
        (&[1, WR], 3, 19),
        (&[1, WR, 1], 2, 11),
        (&[1], 255, 11),
        (&[], 2, 12),
    ] {
        let expected = Shown {
            numbers: [0; 63],
            count: 0,
            number,
        };
        assert_eq!(shown(list, object), expected, "{list:?}, {object}");
    }
}

/// What is brought in of bytes that are lent to be changed, and are as they were.
fn imported(bytes: &[u8]) -> Outcome {
    let mut lent = bytes.to_vec();
    // SAFETY: the bytes are this test's own.
    let outcome = unsafe { captable_import(lent.as_mut_ptr(), lent.len()) };
    assert_eq!(lent, bytes);
    outcome
}

#[test]
fn an_import_gives_its_table_and_leaves_its_bytes() {
    let mut expected = Table::unborn();
    for n in 0..2 {
        expected.record_mut(n).status = ALIVE;
        expected.record_mut(n).kind = ACTIVE;
    }
    *expected.slot_mut(1, 1) = cap(1, WR);
    let outcome = imported(&[0, 10, 1, 2, 0, 2, 0, 8, 1, 2]);
    assert_eq!((outcome.number, outcome.table), (0, *expected.as_raw()));
}

/// The offence stands after an entity that is in order, and nothing of that is left.
#[test]
fn an_import_that_is_refused_gives_the_unborn_table() {
    for (bytes, number) in [
        (&[0, 9, 1, 2, 1, 1, 31, 0][..], 20), // nine, and there are eight
        (&[0, 8, 2, 2, 1, 1, 31, 0], 21),
        (&[0, 8, 1, 65, 1, 1, 31, 0], 22),
        (&[0, 8, 1, 3, 1, 1, 31, 0], 20),
        (&[0, 9, 1, 2, 1, 1, 31, 0, 0], 20),
        (&[0, 8, 1, 2, 1, 1, 31, 9], 22),
        (&[0, 10, 1, 2, 1, 1, 31, 1, 2, 0], 22),
        (&[0, 10, 1, 2, 1, 1, 31, 1, 1, 32], 22),
    ] {
        let outcome = imported(bytes);
        assert_eq!(outcome.number, number, "{bytes:?}");
        assert_eq!(outcome.table, *Table::unborn().as_raw(), "{bytes:?}");
    }
}
