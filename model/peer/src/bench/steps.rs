//! The step by value and lent. Requests and their bytes are made ready before the time is taken.

use std::hint::black_box;

use captable::raw;
use yavrinks_model::step::{step, step_in_place, Request};
use yavrinks_model::table::{Table, SLOTS};
use yavrinks_model::wire::encode;

use super::measure::{in_turn, Figures};
use crate::archive::{Archive, Calls};
use crate::convert::to_raw;
use crate::samples::changed_numbers;

/// Table in, table out.
pub fn by_value(table: &Table, request: &Request) -> Figures {
    let (mut given, mut bytes) = (to_raw(table), encode(request));
    in_turn(
        || {
            let outcome = Archive.stepped(black_box(&mut given), black_box(&mut bytes));
            black_box(&outcome);
        },
        || {
            let outcome = step(black_box(table), black_box(request));
            black_box(&outcome);
        },
    )
}

/// On a table lent to be changed.
pub fn lent(table: &Table, request: &Request) -> Figures {
    let mut proved = Lent::new(table, request);
    let (mut model, back) = (table.clone(), proved.back.clone());
    in_turn(
        || proved.step(),
        || {
            black_box(step_in_place(black_box(&mut model), black_box(request)));
            for &n in &back {
                model.records[usize::from(n)] = table.records[usize::from(n)];
            }
        },
    )
}

/// The lent step against one soundness scan of the same table in C.
pub fn lent_against_scan(table: &Table, request: &Request) -> Figures {
    let mut proved = Lent::new(table, request);
    let scanned = to_raw(table);
    in_turn(
        || proved.step(),
        || {
            black_box(Archive.scan(black_box(&scanned)));
        },
    )
}

/// A lent table on which one request is made again and again.
struct Lent {
    table: raw::Table,
    start: raw::Table,
    bytes: Vec<u8>,
    /// The records that are put back after each request; none if it can be made again as it is.
    back: Vec<u8>,
}

impl Lent {
    fn new(table: &Table, request: &Request) -> Lent {
        let mut after = table.clone();
        let reply = step_in_place(&mut after, request);
        let again = step_in_place(&mut after, request) == reply;
        Lent {
            table: to_raw(table),
            start: to_raw(table),
            bytes: encode(request),
            back: if again {
                Vec::new()
            } else {
                changed_numbers(table, request)
            },
        }
    }

    fn step(&mut self) {
        black_box(Archive.step(black_box(&mut self.table), black_box(&mut self.bytes)));
        for &n in &self.back {
            let n = usize::from(n);
            let slots = n * SLOTS..(n + 1) * SLOTS;
            self.table.records[n] = self.start.records[n];
            self.table.slots[slots.clone()].copy_from_slice(&self.start.slots[slots]);
        }
    }
}
