//! Table K of document 01, what a test finds, and a step in both of its forms.
#![allow(dead_code)] // each test is a program of its own and uses some of this

use captable::raw::{captable_step, captable_step_by_value};
use captable::{Capability, Finding, Set, Table, ACTIVE, ALIVE, RD, WK, WR};

/// The set of some numbers.
pub fn set(numbers: &[u8]) -> Set {
    Set::of(numbers)
}

/// An entry or a slot's content.
pub fn cap(target: u8, rights: u8) -> Capability {
    Capability { target, rights }
}

/// What an accepted test finds: the bound, and the rounds that it took.
pub fn found(bound: &[u8], rounds: u8) -> Finding {
    Finding {
        bound: set(bound),
        rounds,
    }
}

/// "K: alive 0 to 6; active 0, 2, 4, 5. Slot 0 of 0 is (1, rd), of 2 (1, wk), of 4 (3, wr), of 5 (1, wr);
/// slot 1 of 2 is (6, wk). Stocks: 5 has {10, 11}, 4 has {12}."
pub fn k() -> Table {
    let mut table = Table::unborn();
    for n in 0..=6 {
        table.record_mut(n).status = ALIVE;
    }
    for n in [0, 2, 4, 5] {
        table.record_mut(n).kind = ACTIVE;
    }
    *table.slot_mut(0, 0) = cap(1, RD);
    *table.slot_mut(2, 0) = cap(1, WK);
    *table.slot_mut(4, 0) = cap(3, WR);
    *table.slot_mut(5, 0) = cap(1, WR);
    *table.slot_mut(2, 1) = cap(6, WK);
    table.record_mut(5).stock = set(&[10, 11]);
    table.record_mut(4).stock = set(&[12]);
    table
}

/// What the bytes are answered, and the table after them: on a table that is lent and on one by value, which
/// have to agree.
#[track_caller]
pub fn step_in_both_forms(before: &Table, request: &[u8]) -> (u8, Table) {
    let mut lent = before.clone();
    // SAFETY: the table and the bytes are the test's own.
    let (number, outcome) = unsafe {
        (
            captable_step(lent.as_raw_mut(), request.as_ptr(), request.len()),
            captable_step_by_value(*before.as_raw(), request.as_ptr(), request.len()),
        )
    };
    assert_eq!(outcome.number, number);
    assert_eq!(outcome.table, *lent.as_raw());
    (number, lent)
}
