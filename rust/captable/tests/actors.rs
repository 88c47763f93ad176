//! Who asks: a step whose actor the firmware names, whatever the bytes say.

mod common;

use captable::{Request, StepRefusal, ALIVE, REQUEST_BYTES};
use common::k;

/// "4 writes 7 through slot 0: 3's word is 7."
const FOUR_WRITES: [u8; 7] = [2, 4, 0, 0, 0, 0, 7];

#[test]
fn a_mailbox_that_lies_about_its_actor_is_not_believed() {
    // 2's routine runs, and its mailbox says that 4 asks. "2 does so: 6."
    let mut table = k();
    let refused = table.step_as(2, &FOUR_WRITES);
    assert_eq!(refused, Err(StepRefusal::RightAbsent));
    assert_eq!(table, k());
    // The same bytes are done where they are believed.
    assert_eq!(table.step_bytes(&FOUR_WRITES), Ok(()));
    assert_eq!(table.record(3).word, 7);
}

#[test]
fn the_named_actor_asks() {
    for claimed in [4, 2, 63, 64, 255] {
        let mut mailbox = FOUR_WRITES;
        mailbox[1] = claimed;
        let mut table = k();
        assert_eq!(table.step_as(4, &mailbox), Ok(()));
        assert_eq!(table.record(3).word, 7);
        assert_eq!(mailbox[1], claimed); // the mailbox is as it was
    }
    // Allocate and send have their actor in the same place. Example 6: 5 allocates 10.
    let mut table = k();
    let allocate = [7, 0, 10, 1, 0, 0, 0, 0, 0, 0, 8, 0, 7, 0];
    assert_eq!(table.step_as(5, &allocate), Ok(()));
    assert_eq!(table.record(10).status, ALIVE);
}

#[test]
fn an_actor_that_is_nobody_is_refused() {
    let mut table = k();
    let mut step = |actor| table.step_as(actor, &FOUR_WRITES);
    assert_eq!(step(64), Err(StepRefusal::FieldInvalid));
    assert_eq!(step(255), Err(StepRefusal::FieldInvalid));
    assert_eq!(step(10), Err(StepRefusal::ActorUnfit)); // unborn
    assert_eq!(step(3), Err(StepRefusal::ActorUnfit)); // passive
    assert_eq!(table, k());
}

#[test]
fn bytes_of_any_length_that_are_no_request_are_refused_by_2_after_1() {
    // A read of three bytes, and zeros after it: of all its lengths three alone is a request.
    let mut bytes = [0; REQUEST_BYTES + 1000];
    bytes[0] = 1;
    let mut unsound = k();
    unsound.record_mut(20).word = 1; // an unborn record with a word
    for length in (0..64).chain([bytes.len()]).filter(|&length| length != 3) {
        let mut table = k();
        let refused = table.step_as(0, &bytes[..length]);
        assert_eq!(refused, Err(StepRefusal::FieldInvalid), "{length} bytes");
        assert_eq!(table, k());
        let mut table = unsound.clone();
        let refused = table.step_as(0, &bytes[..length]);
        assert_eq!(refused, Err(StepRefusal::TableUnsound), "{length} bytes");
        assert_eq!(table, unsound);
    }
    assert_eq!(k().step_as(0, &bytes[..3]), Ok(()));
}

#[test]
fn a_request_of_the_greatest_length_fits() {
    let mut table = k();
    let four = Request::Allocate {
        actor: 5,
        n: 10,
        kind: 0,
        part: captable::Set::EMPTY,
        i: 7,
        list: [(0, 0), (0, 1), (0, 2), (0, 3)].into(),
    };
    let mut bytes = four.to_bytes().as_slice().to_vec();
    assert_eq!(bytes.len(), REQUEST_BYTES);
    bytes[1] = 4; // which has no 10 in its stock
    assert_eq!(table.step_as(5, &bytes), Ok(()));
    assert_eq!(*table.slot(10, 3), common::cap(1, captable::WR));
    bytes.push(0);
    assert_eq!(k().step_as(5, &bytes), Err(StepRefusal::FieldInvalid));
}
