//! Document 02, 2.5: the sixteen rows of `docs/RIGHTS.md` say what the model's sentences say and what its steps do. A
//! cell that is altered is noticed.

use yavrinks_model::step::{step, step_in_place, Code, Request};
use yavrinks_model::table::{Capability, Table};
use yavrinks_tools::rights::{
    all_cells, asked, asked_above, first_fault, is_shown, rows_of_model, sheet, with_altered,
    Asked, Column,
};

/// Where there is no repository, there is no sheet to be held to anything.
#[test]
fn the_sheet_says_what_the_sentences_say() {
    if let Some(rows) = sheet() {
        assert_eq!(rows, rows_of_model());
    }
}

/// What the rows say of steps is what the model does, in both forms.
#[test]
fn the_models_steps_are_as_the_rows_say() {
    let lent = |table: &Table, request: &Request| {
        let mut after = table.clone();
        let reply = step_in_place(&mut after, request);
        (reply, after)
    };
    let rows = sheet().unwrap_or(rows_of_model());
    for asked in [asked(&rows), asked_above()] {
        assert_eq!(first_fault(&asked, step), None);
        assert_eq!(first_fault(&asked, lent), None);
    }
}

/// That nothing is left out: every request but allocate goes through a slot of every value, and a fetch finds every
/// value. It is to be answered 0 where a column says yes, 6 where it says no, 4 where the slot is empty.
#[test]
fn every_value_is_asked_for_with_every_request() {
    let rows = rows_of_model();
    let all = asked(&rows);
    assert_eq!(all.len(), 16 * (7 + 2 * 16));
    for row in &rows {
        for code in Code::ALL {
            let replies = all
                .iter()
                .filter(|one| one.used == row.value && one.request.code() == code.number())
                .map(|one| one.reply);
            let column = Column::ALL.into_iter().find(|c| c.codes().contains(&code));
            let expected = match column {
                None => continue,
                Some(_) if row.value == 0 => 4,
                Some(column) if row.says(column) => 0,
                Some(_) => 6,
            };
            let replies: Vec<u8> = replies.collect();
            let times = if code == Code::Fetch { 32 } else { 1 };
            assert_eq!(replies, vec![expected; times], "{} {code:?}", row.value);
        }
    }
    assert_eq!(asked_above().len(), 240 * 10);
}

/// The rights in the slots that a request changes.
fn changed(one: &Asked) -> Vec<u8> {
    let slots = |table: &Table| -> Vec<Capability> {
        let records = table.records.iter();
        records.flat_map(|record| record.slots).collect()
    };
    let (before, after) = (slots(&one.table), slots(&one.after));
    let both = before.iter().zip(&after).filter(|(held, now)| held != now);
    both.map(|(_, now)| now.rights).collect()
}

/// Without rd a fetch takes wk or changes nothing; with rd it takes what it finds. Each comes twice, to a filled slot
/// and to an empty one.
#[test]
fn every_value_is_fetched_with_rd_and_without() {
    for one in asked(&rows_of_model()) {
        if one.request.code() != Code::Fetch.number() {
            continue;
        }
        let taken = match (one.used, one.found) {
            (0 | 2 | 8 | 10, _) | (_, 0) => vec![],
            (4 | 6 | 12 | 14, 2 | 8 | 10) => vec![],
            (4 | 6 | 12 | 14, _) => vec![4],
            (_, found) => vec![found],
        };
        assert_eq!(changed(&one), taken, "{} {}", one.used, one.found);
    }
}

/// The eight requests that use a slot stand in one column each, beside others that need the same.
#[test]
fn every_request_that_uses_a_slot_has_its_column() {
    for code in Code::ALL {
        let columns = Column::ALL
            .into_iter()
            .filter(|c| c.codes().contains(&code));
        let columns: Vec<Column> = columns.collect();
        assert_eq!(columns.len(), usize::from(code != Code::Allocate));
        for other in columns.iter().flat_map(|column| column.codes()) {
            assert_eq!(other.needs(), code.needs());
        }
    }
}

/// Of the 64 cells each is noticed when it is altered: by the sentences, and by the steps too but for the three of
/// an empty slot, through which every request is answered 4.
#[test]
fn every_altered_cell_is_noticed() {
    let rows = rows_of_model();
    for (value, column) in all_cells() {
        let altered = with_altered(&rows, value, column);
        let fault = first_fault(&asked(&altered), step).is_some();
        assert_eq!(fault, is_shown(value, column), "{value} {column:?}");
    }
    assert_eq!(all_cells().count(), 64);
}
