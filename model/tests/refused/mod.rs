//! Tests that are refused.

use yavrinks_model::confinement::Entry;
use yavrinks_model::set;
use yavrinks_model::table::{Capability, Table, UNBORN, WK, WR};

/// A test that is refused, for each of the test's numbers. But for one offence it is example 1 of document 01.
pub fn refused_tests() -> [(u8, Table, u64, Vec<Entry>); 5] {
    let k = Table::k();
    let mut unsound = Table::k();
    unsound.record_mut(3).status = UNBORN;
    let mut naming = Table::k();
    naming.record_mut(0).slots[1] = Capability::new(5, WK);
    let list = vec![(1, WR)];
    [
        (1, unsound, set::of([5]), list.clone()),
        (10, k.clone(), set::of([5, 10]), list.clone()),
        (11, k.clone(), set::of([5]), vec![(1, WR), (10, WR)]),
        (12, k, set::of([5]), vec![]),
        (13, naming, set::of([5]), list),
    ]
}
