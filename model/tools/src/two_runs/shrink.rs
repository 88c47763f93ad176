//! Makes a case that breaks the claim small enough to read: whatever can be left out, with the
//! claim still broken, is left out.

use super::rules::Rules;
use super::runs::{Difference, Move, Start, TwoRuns};
use super::trial::Case;
use yavrinks_model::set;
use yavrinks_model::step::Request;
use yavrinks_model::table::{Capability, Record, Table, NO_MAKER, OBJECTS, SLOTS};

/// The case with nothing left that it can do without, one thing at a time.
pub fn shrink(rules: &Rules, case: &Case) -> Case {
    let mut smallest = case.clone();
    let mut size = usize::MAX;
    // A thing that was needed may be needed no more once others are gone.
    while measure(&smallest) < size {
        size = measure(&smallest);
        drop_moves(rules, &mut smallest);
        simplify_moves(rules, &mut smallest);
        drop_entries(rules, &mut smallest);
        for n in 0..OBJECTS as u8 {
            simplify_object(rules, &mut smallest, n);
        }
    }
    smallest
}

/// Falls with everything that is left out.
fn measure(case: &Case) -> usize {
    let in_table = |table: &Table| -> usize {
        let of_record = |record: &Record| {
            usize::from(record.is_born())
                + usize::from(record.word != 0)
                + usize::from(record.maker != NO_MAKER)
                + record.stock.count_ones() as usize
                + record.capabilities().count()
        };
        table.records.iter().map(of_record).sum()
    };
    let start = &case.start;
    case.moves.len() + start.list.len() + in_table(&start.first) + in_table(&start.second)
}

/// The difference that the moves lead to. None if they lead to none, or are not two runs of
/// which the claim speaks.
pub fn replay(rules: &Rules, start: &Start, moves: &[Move]) -> Option<Difference> {
    let mut runs = match TwoRuns::begin(rules, start)? {
        Ok(runs) => runs,
        Err(difference) => return Some(difference),
    };
    for next in moves {
        if !runs.allows(next) {
            return None;
        }
        if let Err(difference) = runs.take(next) {
            return Some(difference);
        }
    }
    None
}

/// Takes over the change if the claim is still broken.
fn attempt(rules: &Rules, case: &mut Case, change: impl FnOnce(&mut Start, &mut Vec<Move>)) {
    let mut start = case.start.clone();
    let mut moves = case.moves.clone();
    change(&mut start, &mut moves);
    if start == case.start && moves == case.moves {
        return;
    }
    if let Some(difference) = replay(rules, &start, &moves) {
        *case = Case {
            start,
            moves,
            difference,
        };
    }
}

fn drop_moves(rules: &Rules, case: &mut Case) {
    for k in (0..case.moves.len()).rev() {
        attempt(rules, case, |_, moves| {
            moves.remove(k);
        });
    }
}

/// Empties lists and parts of requests.
fn simplify_moves(rules: &Rules, case: &mut Case) {
    for k in 0..case.moves.len() {
        attempt(rules, case, |_, moves| {
            let (Move::First(request) | Move::Second(request) | Move::Both(request)) =
                &mut moves[k];
            match request {
                Request::Send { list, .. } => list.clear(),
                Request::Allocate { list, part, .. } => {
                    list.clear();
                    *part = 0;
                }
                _ => {}
            }
        });
    }
}

fn drop_entries(rules: &Rules, case: &mut Case) {
    for k in (0..case.start.list.len()).rev() {
        attempt(rules, case, |start, _| {
            start.list.remove(k);
        });
    }
}

/// The start tables in which a record is changed.
#[derive(Clone, Copy, PartialEq, Eq)]
enum Tables {
    First,
    Second,
    Both,
}

fn change_record(start: &mut Start, tables: Tables, n: u8, change: impl Fn(&mut Record)) {
    if tables != Tables::Second {
        change(start.first.record_mut(n));
    }
    if tables != Tables::First {
        change(start.second.record_mut(n));
    }
}

/// Unmakes the object, or else empties what it holds. A member may hold something in one table
/// alone; of a non-member both tables must stay equal.
fn simplify_object(rules: &Rules, case: &mut Case, n: u8) {
    attempt(rules, case, |start, _| {
        start.members &= !set::single(n);
        change_record(start, Tables::Both, n, |record| *record = Record::UNBORN);
    });
    simplify_record(rules, case, Tables::Both, n);
    if set::contains(case.start.members, n) {
        attempt(rules, case, |start, _| {
            *start.second.record_mut(n) = *start.first.record(n);
        });
        simplify_record(rules, case, Tables::First, n);
        simplify_record(rules, case, Tables::Second, n);
    }
}

/// Empties word, maker, stock and slots of number n, each by itself.
fn simplify_record(rules: &Rules, case: &mut Case, tables: Tables, n: u8) {
    attempt(rules, case, |start, _| {
        change_record(start, tables, n, |record| record.word = 0);
    });
    attempt(rules, case, |start, _| {
        change_record(start, tables, n, |record| record.maker = NO_MAKER);
    });
    for m in 0..OBJECTS as u8 {
        attempt(rules, case, |start, _| {
            change_record(start, tables, n, |record| record.stock &= !set::single(m));
        });
    }
    for k in 0..SLOTS {
        attempt(rules, case, |start, _| {
            change_record(start, tables, n, |record| {
                record.slots[k] = Capability::EMPTY
            });
        });
    }
}
