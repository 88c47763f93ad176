//! Document 02, 2.5: every row of `docs/RIGHTS.md` is asked of the archive, request by request and in both forms of the
//! step, but for what value 0 may do, which no request shows. Where a row says yes the request is done, where it says
//! no it is answered 6, and what a fetch without rd leaves is as the row says of what it finds.

use yavrinks_peer::archive::Archive;
use yavrinks_peer::rights::sheet_fault;
use yavrinks_tools::rights::{all_cells, asked, asked_above, is_shown, sheet, with_altered, Row};

/// The rows of the sheet that is delivered.
fn rows() -> Vec<Row> {
    sheet().expect("the sheet is in docs")
}

#[test]
fn the_archive_does_what_every_row_says() {
    let asked = asked(&rows());
    assert_eq!(sheet_fault(&Archive, &asked), None);
    // Of the 16 values 12 may read and fetch, 8 write, store, revoke, destroy and reclaim, 8 send; 32 fetches go
    // through each. Through the empty slot all is answered 4.
    let (done, empty) = (12 * (1 + 32) + 8 * 5 + 8, 7 + 32);
    let count = |reply| asked.iter().filter(|one| one.reply == reply).count();
    assert_eq!((count(0), count(4)), (done, empty));
    assert_eq!(count(6), 16 * (7 + 32) - done - empty);
}

/// Every request is answered 1 where a slot has a value from 16 to 255, and the table is left as it was.
#[test]
fn no_value_above_15_gets_through() {
    assert_eq!(sheet_fault(&Archive, &asked_above()), None);
}

/// With any one cell altered, the sheet is not what the archive does. Only what is said of requests through an empty
/// slot cannot be asked of it: they are answered 4 before.
#[test]
fn every_altered_cell_is_noticed() {
    for (value, column) in all_cells() {
        let altered = asked(&with_altered(&rows(), value, column));
        let noticed = sheet_fault(&Archive, &altered).is_some();
        assert_eq!(noticed, is_shown(value, column), "{value} {column:?}");
    }
}
