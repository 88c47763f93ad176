//! Requests and lists as bytes: what each byte is, and that bytes that are no request make one without
//! fields.

use yavrinks_model::step::Request;
use yavrinks_model::wire::{decode, decode_list, encode, NOBODY};

/// Each request with its bytes.
fn requests() -> Vec<(Request, Vec<u8>)> {
    let (actor, t, i, j) = (9, 2, 5, 6);
    let word = 0x0102_0304;
    let send = Request::Send {
        actor,
        t,
        word,
        list: vec![(1, 2), (3, 4)],
        reply: 7,
    };
    let allocate = Request::Allocate {
        actor,
        n: 40,
        kind: 1,
        part: 0x0102_0304_0506_0708,
        i,
        list: vec![(3, 4)],
    };
    vec![
        (Request::Read { actor, t }, vec![1, 9, 2]),
        (Request::Write { actor, t, word }, vec![2, 9, 2, 1, 2, 3, 4]),
        (Request::Fetch { actor, t, i, j }, vec![3, 9, 2, 5, 6]),
        (Request::Store { actor, t, i, j }, vec![4, 9, 2, 5, 6]),
        (Request::Revoke { actor, t, j }, vec![5, 9, 2, 6]),
        (send, vec![6, 9, 2, 1, 2, 3, 4, 2, 1, 2, 3, 4, 7]),
        (
            allocate,
            vec![7, 9, 40, 1, 1, 2, 3, 4, 5, 6, 7, 8, 5, 1, 3, 4],
        ),
        (Request::Destroy { actor, t }, vec![8, 9, 2]),
        (Request::Reclaim { actor, t }, vec![9, 9, 2]),
    ]
}

#[test]
fn every_field_has_its_place() {
    for (request, bytes) in requests() {
        assert_eq!(encode(&request), bytes);
        assert_eq!(decode(&bytes), request);
    }
}

#[test]
fn a_byte_less_or_more_makes_a_request_without_fields() {
    for (request, mut bytes) in requests() {
        let without = Request::Unknown {
            code: request.code(),
            actor: request.actor(),
        };
        bytes.push(0);
        assert_eq!(decode(&bytes), without);
        bytes.truncate(bytes.len() - 2);
        assert_eq!(decode(&bytes), without);
    }
}

#[test]
fn other_bytes_make_a_request_without_fields() {
    let without = |code, actor| Request::Unknown { code, actor };
    assert_eq!(decode(&[]), without(0, NOBODY));
    assert_eq!(decode(&[7]), without(7, NOBODY));
    assert_eq!(decode(&[1, 9]), without(1, 9));
    assert_eq!(decode(&[9, 9]), without(9, 9));
    assert_eq!(decode(&[10, 9, 2]), without(10, 9));
    let mut five_pairs = vec![6, 9, 2, 1, 2, 3, 4, 5];
    five_pairs.extend([0; 11]);
    assert_eq!(decode(&five_pairs), without(6, 9));
}

#[test]
fn a_list_is_two_bytes_for_each_entry() {
    assert_eq!(decode_list(&[]), []);
    assert_eq!(decode_list(&[1, 2, 3, 4]), [(1, 2), (3, 4)]);
    assert_eq!(decode_list(&[1, 2, 3]).len(), 9);
}
