//! Requests that are done.

use yavrinks_model::step::{step, step_in_place, Request};
use yavrinks_model::table::Table;

/// The table after a request that is done, which both forms of the step give.
pub fn done(table: &Table, request: &Request) -> Table {
    let (reply, after) = step(table, request);
    assert_eq!(reply, 0, "{request:?}");
    let mut lent = table.clone();
    assert_eq!(step_in_place(&mut lent, request), 0);
    assert_eq!(lent, after);
    after
}
