//! The examples of document 01, through the wrapper; example 2 as document 02, 2.3, amends it, and example 12 on the
//! version of 2.7 that it is about.

mod common;

use captable::{
    AccessRefusal, PairList, ReadRefusal, Request, Right, StepRefusal, Table, TestRefusal,
    WriteRefusal, ACTIVE, ALIVE, IMAGE_BYTES, WK, WR,
};
use common::{cap, found, k, set};

#[test]
fn the_test_of_examples_1_to_5() {
    let example_1 = k().test(set(&[5]), &[cap(1, WR)]);
    assert_eq!(example_1, Ok(found(&[0, 1, 2], 2)));
    let mut weak = k();
    *weak.slot_mut(5, 0) = cap(1, WK);
    assert_eq!(weak.test(set(&[5]), &[cap(1, WK)]), Ok(found(&[], 0)));
    assert_eq!(weak.test(set(&[5]), &[]), Ok(found(&[], 0)));
    assert_eq!(k().test(set(&[5]), &[]), Err(TestRefusal::RightUnlisted));
    let mut held = k();
    *held.slot_mut(0, 1) = cap(5, WK);
    assert_eq!(
        held.test(set(&[5]), &[cap(1, WR)]),
        Err(TestRefusal::MemberHeld)
    );
    assert_eq!(k().test(set(&[]), &[]), Err(TestRefusal::MembersInvalid));
    assert_eq!(k().test(set(&[10]), &[]), Err(TestRefusal::MembersInvalid));
}

#[test]
fn allocates_of_examples_6_and_7() {
    let mut table = k();
    let ask = |n| Request::Allocate {
        actor: 5,
        n,
        kind: ACTIVE,
        part: set(&[11]),
        i: 7,
        list: PairList::EMPTY,
    };
    assert_eq!(table.step(&ask(10)), Ok(()));
    assert_eq!(table.record(10).status, ALIVE);
    assert_eq!(table.record(10).stock, set(&[11]));
    assert_eq!(table.record(5).stock, set(&[]));
    assert_eq!(*table.slot(5, 7), cap(10, 15));
    assert_eq!(k().step(&ask(12)), Err(StepRefusal::NotInStock));
}

/// Slot 5 of 2 is empty, and is left so where weakening gives an empty copy.
#[test]
fn fetches_weaken_as_in_example_8() {
    for (held, weakened) in [(1, cap(6, 4)), (15, cap(6, 4)), (10, cap(0, 0))] {
        let mut table = k();
        *table.slot_mut(1, 3) = cap(6, held);
        let fetch = Request::Fetch {
            actor: 2,
            t: 0,
            i: 3,
            j: 5,
        };
        assert_eq!(table.step(&fetch), Ok(()));
        assert_eq!(*table.slot(2, 5), weakened);
    }
}

#[test]
fn writes_and_refusals_of_examples_9_and_10() {
    let mut table = k();
    let write = |actor| Request::Write {
        actor,
        t: 0,
        word: 7,
    };
    assert_eq!(table.step(&write(4)), Ok(()));
    assert_eq!(table.record(3).word, 7);
    let before = table.clone();
    assert_eq!(table.step(&write(2)), Err(StepRefusal::RightAbsent));
    let read = |actor, t| Request::Read { actor, t };
    assert_eq!(table.step(&read(1, 8)), Err(StepRefusal::FieldInvalid));
    assert_eq!(table.step(&read(1, 0)), Err(StepRefusal::ActorUnfit));
    assert_eq!(table.step(&read(0, 5)), Err(StepRefusal::SlotEmpty));
    assert_eq!(table, before);
}

#[test]
fn potential_access_of_example_11() {
    let relation = k().potential_access().expect("K is sound");
    for right in [Right::Rd, Right::Wr, Right::Wk, Right::Tx] {
        assert!(relation.has(5, right, 0));
        assert_eq!(relation.has(2, right, 1), right == Right::Wk);
        assert!(!relation.has(1, right, 2));
        // 5 writes to 1, which 0 reads: by the rules each of the three has all rights over each.
        for holder in [0, 1, 5] {
            assert_eq!(relation.over(holder, right), set(&[0, 1, 5]));
        }
    }
    assert_eq!(relation.over(10, Right::Rd), set(&[]));
}

#[test]
fn images_of_example_12_and_back() {
    let image = k().to_older_image().expect("K is sound");
    assert_eq!(image[..3], [0x07, 0x83, 0x01]);
    assert_eq!(Table::from_image(&image), Ok(k()));
    assert_eq!(
        Table::from_image(&image[..1922]),
        Err(ReadRefusal::LengthWrong)
    );
    let mut old = image;
    old[2] = 0;
    assert_eq!(Table::from_image(&old), Err(ReadRefusal::VersionWrong));
    let mut unsound = image;
    unsound[3] = 3; // object 0's status
    assert_eq!(Table::from_image(&unsound), Err(ReadRefusal::TableUnsound));
}

#[test]
fn buffers_are_filled_or_left() {
    let image = k().to_image().expect("K is sound");
    let mut long = [0xaa; IMAGE_BYTES + 5];
    assert_eq!(k().write_image(&mut long), Ok(()));
    assert_eq!(long[..IMAGE_BYTES], image);
    assert_eq!(long[IMAGE_BYTES..], [0xaa; 5]);
    let mut short = [0xaa; IMAGE_BYTES - 1];
    assert_eq!(k().write_image(&mut short), Err(WriteRefusal::BufferShort));
    assert_eq!(short, [0xaa; IMAGE_BYTES - 1]);
    let mut unsound = k();
    unsound.record_mut(0).kind = 2;
    let mut kept = [0xaa; IMAGE_BYTES];
    assert_eq!(
        unsound.write_image(&mut kept),
        Err(WriteRefusal::TableUnsound)
    );
    assert_eq!(kept, [0xaa; IMAGE_BYTES]);
}

#[test]
fn an_unsound_table_is_refused_by_every_call() {
    let mut unsound = k();
    unsound.record_mut(20).word = 1; // an unborn record with a word
    let before = unsound.clone();
    assert!(!unsound.is_sound());
    let read = Request::Read { actor: 0, t: 0 };
    assert_eq!(unsound.step(&read), Err(StepRefusal::TableUnsound));
    assert_eq!(unsound, before);
    assert_eq!(unsound.potential_access(), Err(AccessRefusal::TableUnsound));
    assert_eq!(
        unsound.test(set(&[5]), &[cap(1, WR)]),
        Err(TestRefusal::TableUnsound)
    );
    assert!(k().is_sound());
    assert!(Table::unborn().is_sound());
}
