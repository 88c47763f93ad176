//! Archives with one row of the rights values altered in one column, in one form of the step or in the other. The sheet
//! finds each of them out, and so does the comparison.

use captable::raw;
use yavrinks_model::step::{landed, Code};
use yavrinks_model::table::{Capability, RD, WK};
use yavrinks_model::wire::{encode, request_in};
use yavrinks_peer::archive::{Archive, Calls};
use yavrinks_peer::calls::Call;
use yavrinks_peer::convert::{to_model, to_raw};
use yavrinks_peer::rights::sheet_fault;
use yavrinks_tools::copies::Copied;
use yavrinks_tools::rights::{
    all_cells, asked, first_fault, is_shown, sheet, with_altered, Column,
};

use super::done::{outcome, ByValue, Done, Lent};
use super::first_difference;

/// The cells that a step shows.
fn shown_cells() -> impl Iterator<Item = (u8, Column)> {
    all_cells().filter(|&(value, column)| is_shown(value, column))
}

/// The steps of an archive where that cell is the other way round.
fn steps(value: u8, column: Column) -> impl Fn(&raw::Table, &mut [u8]) -> raw::Outcome {
    move |table, bytes| match column {
        Column::Weakened => outcome(|done| weakened_otherwise(value, done), table, bytes),
        _ => met_otherwise(value, column, table, bytes),
    }
}

/// Of this value alone, wk where a weakened copy is empty, and nothing where it is wk.
fn weakened_otherwise(value: u8, done: &mut Done) {
    done.land_by(|held, copied: &Copied| {
        let altered = copied.weakened && copied.found.rights == value;
        let copy = match (altered, copied.is_empty()) {
            (false, _) => copied.copy(),
            (true, true) => Capability::new(copied.found.target, WK),
            (true, false) => Capability::EMPTY,
        };
        landed(held, copy)
    });
}

/// A request of the column through a slot of this value is refused by 6 if the slot has what it needs; if not, the
/// slot is taken for one that has it.
fn met_otherwise(value: u8, column: Column, table: &raw::Table, bytes: &mut [u8]) -> raw::Outcome {
    let mut given = *table;
    let right = Archive.stepped(&mut given, bytes);
    let used = used_slot(column, bytes).filter(|&(at, _)| table.slots[at].rights == value);
    match (used, right.number) {
        (Some(_), 0 | 7 | 8) => raw::Outcome {
            table: *table,
            number: 6,
        },
        (Some((at, missing)), 6) => {
            given.slots[at].rights |= missing;
            let mut outcome = Archive.stepped(&mut given, bytes);
            if outcome.table.slots[at] == given.slots[at] {
                outcome.table.slots[at].rights = value;
            }
            outcome
        }
        _ => right,
    }
}

/// The place of the slot that a request of the column uses, and a right that it needs: not rd, with which a fetch
/// would not be weakened.
fn used_slot(column: Column, bytes: &[u8]) -> Option<(usize, u8)> {
    let request = request_in(bytes)?;
    let (t, needed) = request.used_slot()?;
    let is_of_column = Code::of(request.code()).is_some_and(|code| column.codes().contains(&code));
    let in_range = request.actor() < 64 && t < 8;
    let at = usize::from(request.actor()) * 8 + usize::from(t);
    (is_of_column && in_range).then_some((at, needed & !RD))
}

/// Each wrong archive does what the rows with that cell altered say, and differs from the sheet in its own form of
/// the step.
#[test]
fn the_sheet_finds_every_altered_row() {
    let rows = sheet().expect("the sheet is in docs");
    let right = asked(&rows);
    for (value, column) in shown_cells() {
        let wrong = steps(value, column);
        let altered = asked(&with_altered(&rows, value, column));
        let fault = first_fault(&altered, |table, request| {
            let outcome = wrong(&to_raw(table), &mut encode(request));
            (outcome.number, to_model(&outcome.table))
        });
        assert_eq!(fault, None, "{value} {column:?}");
        let call = |fault: Option<(Call, _)>| fault.map(|(call, _)| call);
        let by_value = call(sheet_fault(&ByValue(&wrong), &right));
        assert_eq!(by_value, Some(Call::Stepped), "{value} {column:?}");
        let lent = call(sheet_fault(&Lent(&wrong), &right));
        assert_eq!(lent, Some(Call::Step), "{value} {column:?}");
    }
    assert_eq!(shown_cells().count(), 61);
}

#[test]
fn the_comparison_finds_every_altered_row() {
    for (value, column) in shown_cells() {
        let wrong = steps(value, column);
        let by_value = first_difference(&ByValue(&wrong)).map(|found| found.call);
        assert_eq!(by_value, Some(Call::Stepped.name()), "{value} {column:?}");
        let lent = first_difference(&Lent(&wrong)).map(|found| found.call);
        assert_eq!(lent, Some(Call::Step.name()), "{value} {column:?}");
    }
}
