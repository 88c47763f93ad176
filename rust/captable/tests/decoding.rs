//! Requests from bytes and as lines: the bytes are written here by hand, and where a request is decoded
//! is held to what the archive takes for one.

mod common;

use captable::{PairList, Request, Set, StepRefusal, NO_REPLY};
use common::{k, set};

/// A request of each kind with every field in range, its bytes, and its line.
fn each() -> Vec<(Request, Vec<u8>, &'static str)> {
    let (actor, t, i, j) = (5, 2, 3, 6);
    let send = |list: PairList, reply| Request::Send {
        actor,
        t,
        word: 77,
        list,
        reply,
    };
    let allocate = |kind, part, list: PairList| Request::Allocate {
        actor,
        n: 10,
        kind,
        part,
        i: 7,
        list,
    };
    vec![
        (
            Request::Read { actor, t },
            vec![1, 5, 2],
            "5 reads through slot 2",
        ),
        (
            Request::Write {
                actor,
                t,
                word: 0x0102_0304,
            },
            vec![2, 5, 2, 1, 2, 3, 4],
            "5 writes 16909060 through slot 2",
        ),
        (
            Request::Fetch { actor, t, i, j },
            vec![3, 5, 2, 3, 6],
            "5 fetches the target's slot 3 through slot 2 into its own slot 6",
        ),
        (
            Request::Store { actor, t, i, j },
            vec![4, 5, 2, 3, 6],
            "5 stores its own slot 3 through slot 2 into the target's slot 6",
        ),
        (
            Request::Revoke { actor, t, j },
            vec![5, 5, 2, 6],
            "5 revokes the target's slot 6 through slot 2",
        ),
        (
            send(PairList::EMPTY, NO_REPLY),
            vec![6, 5, 2, 0, 0, 0, 77, 0, 8],
            "5 sends 77 through slot 2, no reply slot",
        ),
        (
            send([(0, 6), (1, 5)].into(), 4),
            vec![6, 5, 2, 0, 0, 0, 77, 2, 0, 6, 1, 5, 4],
            "5 sends 77 through slot 2, copies slot 0 to 6, 1 to 5, reply slot 4",
        ),
        (
            allocate(1, set(&[11]), PairList::EMPTY),
            vec![7, 5, 10, 1, 0, 0, 0, 0, 0, 0, 8, 0, 7, 0],
            "5 allocates 10, active, stock {11}, held in slot 7",
        ),
        (
            allocate(0, Set::EMPTY, [(0, 1), (0, 2), (0, 3), (0, 4)].into()),
            vec![
                7, 5, 10, 0, 0, 0, 0, 0, 0, 0, 0, 0, 7, 4, 0, 1, 0, 2, 0, 3, 0, 4,
            ],
            "5 allocates 10, passive, stock {}, held in slot 7, copies slot 0 to 1, 0 to 2, 0 to 3, 0 to 4",
        ),
        (
            Request::Destroy { actor, t },
            vec![8, 5, 2],
            "5 destroys through slot 2",
        ),
        (
            Request::Reclaim { actor, t },
            vec![9, 5, 2],
            "5 reclaims through slot 2",
        ),
    ]
}

#[test]
fn each_request_is_decoded_from_its_bytes() {
    for (request, bytes, _) in each() {
        assert_eq!(Request::from_bytes(&bytes), Some(request));
        assert_eq!(request.to_bytes().as_slice(), bytes);
    }
    // Fields out of range are fields all the same: the step refuses them.
    let out_of_range = Request::Read { actor: 255, t: 200 };
    assert_eq!(Request::from_bytes(&[1, 255, 200]), Some(out_of_range));
}

#[test]
fn each_request_is_one_line() {
    for (request, _, line) in each() {
        assert_eq!(request.to_string(), line);
    }
    let odd = Request::from_bytes(&[7, 99, 70, 3, 0, 0, 0, 0, 0, 0, 0, 0, 9, 0]);
    let line = "99 allocates 70, kind 3, stock {}, held in slot 9";
    assert_eq!(odd.expect("a request").to_string(), line);
}

/// With every other field in range, the archive refuses by 2 what is no request, and nothing else.
#[test]
fn bytes_are_a_request_where_the_archive_says_so() {
    let mut tried = Vec::new();
    for (_, bytes, _) in each() {
        for cut in 0..bytes.len() {
            tried.push(bytes[..cut].to_vec());
        }
        for longer in 1..12 {
            let mut long = bytes.clone();
            long.resize(bytes.len() + longer, 0);
            tried.push(long);
        }
        // Every code with these bytes after it, and every count in a send and in an allocate.
        for byte in 0..=255 {
            for place in [0, 7, 13] {
                let mut changed = bytes.clone();
                if changed.get(place).is_some() && !(place == 7 && bytes[0] == 7) {
                    changed[place] = byte;
                    tried.push(changed);
                }
            }
        }
        tried.push(bytes);
    }
    // Codes change places, and with them a word may stand where a slot is: those are left out below.
    let in_range = |request: &Request| match *request {
        Request::Read { t, .. } | Request::Write { t, .. } => t < 8,
        Request::Destroy { t, .. } | Request::Reclaim { t, .. } => t < 8,
        Request::Fetch { t, i, j, .. } | Request::Store { t, i, j, .. } => t < 8 && i < 8 && j < 8,
        Request::Revoke { t, j, .. } => t < 8 && j < 8,
        Request::Send { t, list, reply, .. } => t < 8 && reply <= 8 && slots(&list),
        Request::Allocate {
            n, kind, i, list, ..
        } => n < 64 && kind < 2 && i < 8 && slots(&list),
    };
    let (mut requests, mut others) = (0, 0);
    for bytes in tried {
        let answer = k().step_bytes(&bytes);
        match Request::from_bytes(&bytes) {
            None => {
                assert_eq!(answer, Err(StepRefusal::FieldInvalid), "{bytes:?}");
                others += 1;
            }
            Some(request) if in_range(&request) => {
                assert_ne!(answer, Err(StepRefusal::FieldInvalid), "{bytes:?}");
                requests += 1;
            }
            Some(_) => {}
        }
    }
    assert!(requests >= 20 && others >= 2000, "{requests}, {others}");
}

fn slots(list: &PairList) -> bool {
    list.as_slice().iter().all(|&(from, to)| from < 8 && to < 8)
}
