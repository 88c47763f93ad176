//! A run of requests, the objects that are clean along it, what these ask and what they are answered, and what of
//! their records is the same in two runs.

use crate::set;
use crate::step::{step_in_place, Request};
use crate::table::{Record, Table, NO_MAKER};

/// A run: each request gets the table that the one before it left. The replies are in order.
pub fn run(start: &Table, requests: &[Request]) -> (Vec<u8>, Table) {
    let mut table = start.clone();
    let replies = requests
        .iter()
        .map(|request| step_in_place(&mut table, request))
        .collect();
    (replies, table)
}

/// The clean objects at the start of a run: the born non-members outside the bound.
pub fn clean_at_start(table: &Table, members: u64, bound: u64) -> u64 {
    table.born() & !members & !bound
}

/// Whether a request comes from a clean object. That goes by its actor when the request is made:
/// an unborn number is nobody, and so is an actor above 63.
pub fn is_from_clean(clean: u64, request: &Request) -> bool {
    set::contains(clean, request.actor())
}

/// The clean objects after a request that got the reply on the table before it. Clean goes by the latest making: an
/// allocate that is answered 0 makes its n clean if its actor is clean, and not clean if it is not; a reclaimed
/// number is unborn, and so nobody. A clean object that dies stays clean.
pub fn clean_after(before: &Table, clean: u64, request: &Request, reply: u8) -> u64 {
    match made_or_reclaimed(before, request, reply) {
        Some(Number::Made(n)) if is_from_clean(clean, request) => clean | set::single(n),
        Some(Number::Made(n) | Number::Reclaimed(n)) => clean & !set::single(n),
        None => clean,
    }
}

/// The clean objects at the start whose maker the equal records include: those whose maker then is clean, and those
/// that have none, since 64 stays 64.
pub fn compared_at_start(table: &Table, clean: u64) -> u64 {
    let of_clean = |&n: &u8| {
        let maker = table.record(n).maker;
        maker == NO_MAKER || set::contains(clean, maker)
    };
    set::of(set::numbers(clean).filter(of_clean))
}

/// The same after a request, with the objects that are clean before it: what a clean object makes is among them, and
/// what is reclaimed or made by another is not.
pub fn compared_after(
    before: &Table,
    clean: u64,
    compared: u64,
    request: &Request,
    reply: u8,
) -> u64 {
    match made_or_reclaimed(before, request, reply) {
        Some(Number::Made(n)) if is_from_clean(clean, request) => compared | set::single(n),
        Some(Number::Made(n) | Number::Reclaimed(n)) => compared & !set::single(n),
        None => compared,
    }
}

/// A number that a request makes an object, or unborn again.
enum Number {
    Made(u8),
    Reclaimed(u8),
}

fn made_or_reclaimed(before: &Table, request: &Request, reply: u8) -> Option<Number> {
    match request {
        Request::Allocate { n, .. } if reply == 0 => Some(Number::Made(*n)),
        Request::Reclaim { actor, t } if reply == 0 => {
            let used = before.record(*actor).slots[usize::from(*t)];
            Some(Number::Reclaimed(used.target))
        }
        _ => None,
    }
}

/// What the clean objects have of a run.
#[derive(Clone, Debug, PartialEq, Eq)]
pub struct CleanPart {
    /// The clean objects at its end.
    pub clean: u64,
    /// Those among them whose maker the equal records include.
    pub compared: u64,
    /// The requests that came from clean objects, in order.
    pub requests: Vec<Request>,
    /// The replies to these.
    pub replies: Vec<u8>,
}

/// The clean objects' part of a run that starts with the given ones.
pub fn clean_part(start: &Table, clean: u64, requests: &[Request]) -> CleanPart {
    let mut table = start.clone();
    let mut part = CleanPart {
        clean,
        compared: compared_at_start(start, clean),
        requests: Vec::new(),
        replies: Vec::new(),
    };
    for request in requests {
        let before = table.clone();
        let reply = step_in_place(&mut table, request);
        if is_from_clean(part.clean, request) {
            part.requests.push(request.clone());
            part.replies.push(reply);
        }
        part.compared = compared_after(&before, part.clean, part.compared, request, reply);
        part.clean = clean_after(&before, part.clean, request, reply);
    }
    part
}

/// What the equal-records claim speaks of in a clean object's record: all of it, but for the maker of one that is
/// not among the compared.
pub fn claimed_record(table: &Table, compared: u64, n: u8) -> Record {
    let mut record = *table.record(n);
    if !set::contains(compared, n) {
        record.maker = NO_MAKER;
    }
    record
}
