//! A request's bytes, and every refusal of a step with its number: the table is as it was after each.

mod common;

use captable::{PairList, Request, Set, StepRefusal, ACTIVE, DEAD, NO_REPLY, RD, TX, WR};
use common::{cap, k, set};

#[test]
fn the_bytes_are_the_fields_in_order() {
    let bytes = |request: Request| request.to_bytes().as_slice().to_vec();
    assert_eq!(bytes(Request::Read { actor: 9, t: 2 }), [1, 9, 2]);
    let word = 0x0102_0304;
    assert_eq!(
        bytes(Request::Write {
            actor: 9,
            t: 2,
            word
        }),
        [2, 9, 2, 1, 2, 3, 4]
    );
    let (actor, t, i, j) = (9, 2, 5, 6);
    assert_eq!(bytes(Request::Fetch { actor, t, i, j }), [3, 9, 2, 5, 6]);
    assert_eq!(bytes(Request::Store { actor, t, i, j }), [4, 9, 2, 5, 6]);
    assert_eq!(bytes(Request::Revoke { actor, t, j }), [5, 9, 2, 6]);
    let send = Request::Send {
        actor,
        t,
        word,
        list: [(1, 2), (3, 4)].into(),
        reply: 7,
    };
    assert_eq!(bytes(send), [6, 9, 2, 1, 2, 3, 4, 2, 1, 2, 3, 4, 7]);
    let allocate = Request::Allocate {
        actor,
        n: 40,
        kind: 1,
        part: Set::from_bits(0x0102_0304_0506_0708),
        i,
        list: [(3, 4)].into(),
    };
    assert_eq!(
        bytes(allocate),
        [7, 9, 40, 1, 1, 2, 3, 4, 5, 6, 7, 8, 5, 1, 3, 4]
    );
    assert_eq!(bytes(Request::Destroy { actor, t }), [8, 9, 2]);
    assert_eq!(bytes(Request::Reclaim { actor, t }), [9, 9, 2]);
}

#[test]
fn a_list_of_five_pairs_is_refused() {
    let mut table = k();
    assert!(PairList::try_from(&[(0, 0); 4][..]).is_ok());
    assert!(PairList::try_from(&[(0, 0); 5][..]).is_err());
    let mut bytes = vec![7, 5, 10, 1, 0, 0, 0, 0, 0, 0, 0, 0, 7, 5];
    bytes.extend([0; 10]);
    assert_eq!(table.step_bytes(&bytes), Err(StepRefusal::FieldInvalid));
    assert_eq!(table, k());
}

#[test]
fn bytes_that_are_no_request_are_refused() {
    let right = [2, 4, 0, 0, 0, 0, 7];
    let mut table = k();
    for cut in 0..right.len() {
        assert_eq!(
            table.step_bytes(&right[..cut]),
            Err(StepRefusal::FieldInvalid)
        );
    }
    let mut long = right.to_vec();
    long.push(0);
    assert_eq!(table.step_bytes(&long), Err(StepRefusal::FieldInvalid));
    for code in (10..=255).chain([0]) {
        let refused = table.step_bytes(&[code, 4, 0]);
        assert_eq!(refused, Err(StepRefusal::FieldInvalid), "code {code}");
    }
    assert_eq!(table, k());
    assert_eq!(table.step_bytes(&right), Ok(()));
}

#[test]
fn each_refusal_has_its_number_and_leaves_the_table() {
    let mut table = k();
    table.record_mut(6).status = DEAD;
    *table.slot_mut(5, 1) = cap(3, TX);
    *table.slot_mut(5, 2) = cap(5, WR);
    *table.slot_mut(5, 3) = cap(2, RD);
    let before = table.clone();
    let send = Request::Send {
        actor: 5,
        t: 1,
        word: 1,
        list: PairList::EMPTY,
        reply: NO_REPLY,
    };
    let allocate = Request::Allocate {
        actor: 5,
        n: 10,
        kind: ACTIVE,
        part: set(&[10]),
        i: 0,
        list: PairList::EMPTY,
    };
    for (request, number) in [
        (Request::Read { actor: 64, t: 0 }, 2),
        (Request::Read { actor: 3, t: 0 }, 3),
        (Request::Read { actor: 5, t: 7 }, 4),
        (Request::Read { actor: 2, t: 1 }, 5),
        (
            Request::Write {
                actor: 5,
                t: 3,
                word: 1,
            },
            6,
        ),
        (send, 7),
        (Request::Destroy { actor: 5, t: 2 }, 8),
        (allocate, 9),
        (Request::Reclaim { actor: 5, t: 3 }, 24),
    ] {
        let refusal = table.step(&request).expect_err("each is refused");
        assert_eq!(refusal.number(), number, "{request:?}");
        assert!(refusal
            .to_string()
            .starts_with(&format!("refused {number}: ")));
        assert_eq!(table, before);
    }
}

#[test]
fn a_send_copies_pairs_and_leaves_a_reply_slot() {
    let mut table = k();
    *table.slot_mut(5, 1) = cap(2, TX);
    let send = Request::Send {
        actor: 5,
        t: 1,
        word: 77,
        list: [(0, 6), (1, 6), (0, 5)].into(),
        reply: 4,
    };
    assert_eq!(table.step(&send), Ok(()));
    assert_eq!(table.record(2).word, 77);
    assert_eq!(*table.slot(2, 6), cap(2, TX));
    assert_eq!(*table.slot(2, 5), cap(1, WR));
    assert_eq!(*table.slot(2, 4), cap(5, TX));
}
