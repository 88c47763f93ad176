//! A chain of requests on one table: each gets the table that the one before it left.
//! Most requests are done, so that an early error shows in every later line.

use super::{digest, layout, Part};
use crate::generate::{likely_request, sound_table, Shape};
use crate::rng::Rng;
use yavrinks_model::step::{step, step_in_place, Request};
use yavrinks_model::table::Table;

/// How many requests the chain has.
const LENGTH: usize = 2000;

/// The seed of the chain. A test asks for ten of some kinds of empty copies, and not every seed gives that.
const SEED: u64 = 0xC4A1F;

/// The table at the start and the requests.
pub struct Chain {
    pub start: Table,
    pub requests: Vec<Request>,
}

/// The chain. It starts with few objects and large stocks.
pub fn chain() -> Chain {
    let mut rng = Rng::new(SEED);
    let shape = Shape {
        born: 12,
        dead_percent: 0,
        active_percent: 90,
        stocked_percent: 95,
        filled_percent: 70,
        weak_percent: 10,
        made_percent: 40,
    };
    let start = sound_table(&mut rng, &shape);
    let mut table = start.clone();
    let mut requests = Vec::new();
    while requests.len() < LENGTH {
        let request = next_request(&mut rng, &table);
        step_in_place(&mut table, &request);
        requests.push(request);
    }
    Chain { start, requests }
}

/// Mostly a request that is done. Births, deaths and lost rights are rare, so that they last for
/// the chain.
fn next_request(rng: &mut Rng, table: &Table) -> Request {
    loop {
        let request = likely_request(rng, table);
        let (reply, after) = step(table, &request);
        let kept = match request.code() {
            _ if reply != 0 => 10,
            7 => 20,
            8 => 12,
            9 => 70,
            _ if held_rights(&after) < held_rights(table) => 20,
            _ => 100,
        };
        if rng.percent(kept) {
            return request;
        }
    }
}

/// How many rights all slots together have.
fn held_rights(table: &Table) -> u32 {
    let slots = table.records.iter().flat_map(|record| record.slots);
    slots.map(|slot| slot.rights.count_ones()).sum()
}

pub fn part() -> Part {
    under("chain on one table: case, number, table after")
}

/// The same file once more, for the form of a step that is lent its table.
pub fn lent_part() -> Part {
    under("the same chain, the table lent: case, number, table after")
}

fn under(heading: &'static str) -> Part {
    Part::of_chain("chain", heading, &chain(), &mut Rng::new(0xC4A15))
}

impl Part {
    /// A file with a table and requests, each on the table that the one before it left.
    pub(super) fn of_chain(
        file: &'static str,
        heading: &'static str,
        chain: &Chain,
        rng: &mut Rng,
    ) -> Part {
        let mut part = Part::new(file, heading);
        let mut table = chain.start.clone();
        part.data = layout::table(&table);
        for request in &chain.requests {
            let reply = step_in_place(&mut table, request);
            let digest = digest::text(digest::of_table(&table));
            let bytes = layout::request(rng, request);
            part.add(&bytes, format!("{reply} {digest}"));
        }
        part
    }
}
