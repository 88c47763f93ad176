//! A chain of requests at the edges: every field at its highest value and beyond it, lists of every
//! length and every code that means nothing. But for that, each request would be done.

use super::{Chain, Part};
use crate::generate::{bounded_fields, likely_request, sound_table, Shape};
use crate::rng::Rng;
use yavrinks_model::step::{step, step_in_place, Request, MAX_PAIRS};
use yavrinks_model::table::Table;

/// Values around the limits of slots, replies, kinds and numbers.
const VALUES: [u8; 9] = [0, 1, 2, 7, 8, 9, 63, 64, 255];
/// Values around the limit of a slot, for the pairs of a list.
const PAIR_VALUES: [u8; 3] = [7, 8, 255];

/// The seed of the chain. A test asks that each request is done three times, and not every seed gives that: with
/// 0xED6E9, the seed before 2.8, only one reclaim is done.
const SEED: u64 = 0xED70A;

/// The chain. It starts with a table on which every request can be done.
pub fn edges() -> Chain {
    let mut rng = Rng::new(SEED);
    let shape = Shape {
        born: 16,
        dead_percent: 0,
        active_percent: 90,
        stocked_percent: 100,
        filled_percent: 80,
        weak_percent: 5,
        made_percent: 40,
    };
    let start = sound_table(&mut rng, &shape);
    let mut requests = Requests {
        table: start.clone(),
        asked: Vec::new(),
    };
    for code in [7, 6] {
        add_lengths(&mut rng, &mut requests, code);
    }
    for code in 1..=9 {
        add_values(&mut rng, &mut requests, code);
    }
    for code in (0..=255).filter(|code| !(1..=9).contains(code)) {
        let actor = requests.done(&mut rng, 1).actor();
        requests.ask(Request::Unknown { code, actor });
    }
    Chain {
        start,
        requests: requests.asked,
    }
}

/// The requests so far, and the table that they left.
struct Requests {
    table: Table,
    asked: Vec<Request>,
}

impl Requests {
    fn ask(&mut self, request: Request) {
        step_in_place(&mut self.table, &request);
        self.asked.push(request);
    }

    /// A request with the given code that would be done. An allocate keeps the stock with its
    /// actor, so that there is some for all of the chain.
    fn done(&self, rng: &mut Rng, code: u8) -> Request {
        for _ in 0..100_000 {
            let mut request = likely_request(rng, &self.table);
            if let Request::Allocate { part, .. } = &mut request {
                *part = 0;
            }
            if request.code() == code && step(&self.table, &request).0 == 0 {
                return request;
            }
        }
        panic!("the table has come to grant no request with code {code}");
    }
}

/// Lists of every length that a count of one byte can say.
fn add_lengths(rng: &mut Rng, requests: &mut Requests, code: u8) {
    for length in 0..=255 {
        let mut request = requests.done(rng, code);
        set_list(rng, &mut request, length);
        requests.ask(request);
    }
}

/// Every field at every value, those of a full list's pairs too.
fn add_values(rng: &mut Rng, requests: &mut Requests, code: u8) {
    let mut request = requests.done(rng, code);
    set_list(rng, &mut request, MAX_PAIRS);
    let all = bounded_fields(&mut request).len();
    let singles = match &request {
        Request::Send { .. } | Request::Allocate { .. } => all - 2 * MAX_PAIRS,
        _ => all,
    };
    for field in 0..singles {
        for value in VALUES {
            let mut request = requests.done(rng, code);
            *bounded_fields(&mut request)[field].0 = value;
            requests.ask(request);
        }
    }
    for field in singles..all {
        for value in PAIR_VALUES {
            let mut request = requests.done(rng, code);
            set_list(rng, &mut request, MAX_PAIRS);
            *bounded_fields(&mut request)[field].0 = value;
            requests.ask(request);
        }
    }
}

fn set_list(rng: &mut Rng, request: &mut Request, length: usize) {
    if let Request::Send { list, .. } | Request::Allocate { list, .. } = request {
        *list = (0..length)
            .map(|_| (rng.byte(0, 7), rng.byte(0, 7)))
            .collect();
    }
}

pub fn part() -> Part {
    let heading = "edges of fields and lists, on one table: case, number, table after";
    Part::of_chain("edges", heading, &edges(), &mut Rng::new(0xED6E6))
}
