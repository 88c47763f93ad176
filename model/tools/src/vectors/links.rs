//! Links on the cases of the confinement tests: those of the table, those between the born
//! non-members with a holder of the list at the lowest member's number, and what that holder reaches in how many
//! rounds.

use super::{digest, verdicts, Part};
use crate::generate::ConfinementCase;
use yavrinks_model::confinement::MAX_ENTRIES;
use yavrinks_model::links::Links;
use yavrinks_model::set;
use yavrinks_model::table::Capability;

/// The number that holds the list: the lowest member, 64 if there is none.
fn holder(case: &ConfinementCase) -> u8 {
    set::numbers(case.members).next().unwrap_or(64)
}

/// The links among the born non-members, and those of the holder's entries that name one of them. A
/// list that is too long has none.
pub fn test_links(case: &ConfinementCase) -> Links {
    let outside = case.table.born() & !case.members;
    let mut links = Links::among(&case.table, outside);
    let holder = holder(case);
    if holder < 64 && case.list.len() <= MAX_ENTRIES {
        for &(target, rights) in &case.list {
            if set::contains(outside, target) {
                links.add(holder, Capability::new(target, rights));
            }
        }
    }
    links
}

/// What the holder of the list reaches.
pub fn test_reach(case: &ConfinementCase) -> u64 {
    test_links(case).reached(holder(case))
}

/// How many rounds from the holder of the list add a number.
pub fn test_rounds(case: &ConfinementCase) -> u8 {
    test_links(case).rounds(holder(case))
}

/// The file of the tests once more, for their links.
pub fn part() -> Part {
    let heading =
        "links of the same: case, table's links, with the list's holder, rounds, what it reaches";
    verdicts::under(heading, |case| {
        let whole = digest::text(digest::of_links(&Links::of_table(&case.table)));
        let held = digest::text(digest::of_links(&test_links(case)));
        let (rounds, reach) = (test_rounds(case), test_reach(case));
        format!("{whole} {held} {rounds} {reach:016x}")
    })
}
