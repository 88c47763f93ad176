//! Archives that report wrong rounds and are right in all else. The comparison finds each of them out, by the rounds
//! of a test alone.

use std::cell::Cell;

use captable::raw::{Finding, Table};
use yavrinks_model::confinement::Entry;
use yavrinks_model::set;
use yavrinks_model::table::{RD, TX, WK, WR};
use yavrinks_model::wire::decode_list;
use yavrinks_peer::archive::{Archive, Calls};
use yavrinks_peer::convert::{to_model, to_raw};
use yavrinks_peer::differential::{compare_requests, Counts};
use yavrinks_peer::samples::{list_bytes, own_test, rows};
use yavrinks_tools::generate::ConfinementCase;
use yavrinks_tools::misread_rounds::{Misreading, MISREADINGS};

use super::{is_found, REQUESTS};

/// Reports the rounds of a wrong reading.
struct Misread(Misreading);

impl Calls for Misread {
    fn test(&self, table: &mut Table, members: u64, list: &mut [u8]) -> Finding {
        let case = ConfinementCase {
            table: to_model(table),
            members,
            list: decode_list(list),
        };
        Finding {
            rounds: self.0.rounds(&case),
            ..Archive.test(table, members, list)
        }
    }
}

#[test]
fn every_wrong_reading_is_found() {
    for reading in MISREADINGS {
        println!("{}", reading.name);
        is_found(&Misread(reading), "captable_test", "rounds");
    }
}

/// Reports on a refusal the rounds of the accepted test before it.
#[derive(Default)]
struct Kept(Cell<u8>);

impl Calls for Kept {
    fn test(&self, table: &mut Table, members: u64, list: &mut [u8]) -> Finding {
        let mut found = Archive.test(table, members, list);
        match found.number {
            0 => self.0.set(found.rounds),
            _ => found.rounds = self.0.get(),
        }
        found
    }
}

#[test]
fn rounds_kept_from_the_test_before_are_found() {
    is_found(&Kept::default(), "captable_test", "rounds");
}

/// Reports the rounds of an accepted test on top of those of all accepted tests before it.
#[derive(Default)]
struct Summed(Cell<u8>);

impl Calls for Summed {
    fn test(&self, table: &mut Table, members: u64, list: &mut [u8]) -> Finding {
        let mut found = Archive.test(table, members, list);
        if found.number == 0 {
            self.0.set(self.0.get().wrapping_add(found.rounds));
            found.rounds = self.0.get();
        }
        found
    }
}

#[test]
fn rounds_that_are_never_set_back_are_found() {
    is_found(&Summed::default(), "captable_test", "rounds");
}

/// Few rounds and many are met, and the most that there can be.
#[test]
fn tests_of_few_rounds_and_of_many_are_met() {
    let mut counts = Counts::default();
    compare_requests(&Archive, 1, REQUESTS, &mut counts).expect("no difference");
    for rounds in 0..=6 {
        let met = counts.of_rounds(rounds);
        assert!(met >= 1, "{rounds}: {met}\n{counts}");
    }
    let many: u64 = (7..=63).map(|rounds| counts.of_rounds(rounds)).sum();
    assert!(many >= 8 && counts.of_rounds(63) >= 2, "{counts}");
    let told = counts.to_string();
    let head = |line: &&str| line.starts_with("accepted tests by rounds");
    let after_head = told.lines().skip_while(|line| !head(line)).nth(1);
    assert!(
        after_head.is_some_and(|line| line.ends_with(" 63")),
        "{told}"
    );
}

/// What an archive with a wrong reading finds for table K, where 4 and 5 are members and the list is as given.
fn found_of_k(calls: &impl Calls, list: &[Entry]) -> (u8, u64, u8) {
    let mut table = to_raw(&yavrinks_model::table::Table::k());
    let members = set::of([4, 5]);
    let found = calls.test(&mut table, members, &mut list_bytes(list));
    (found.number, found.bound, found.rounds)
}

/// The archive itself, by hand. 5 holds wr over 1 and 4 wr over 3, which nobody else holds; 0 has rd over 1, and 2 has
/// wk over 1 and 6. So 1, 3 and 6 come in round one where they are listed, and 0 and 2 in round two: 2 by way of 1 or
/// of 6.
#[test]
fn the_linked_archive_reports_the_rounds_of_table_k() {
    let (one, three) = ((1, WR), (3, WR));
    for (list, expected) in [
        (&[one, three][..], (0, set::of([0, 1, 2, 3]), 2)),
        (&[one, three, (6, WK)], (0, set::of([0, 1, 2, 3]), 2)),
        (&[one, three, (6, TX)], (0, set::of([0, 1, 2, 3, 6]), 2)),
        (
            &[one, three, (0, RD), (2, RD)],
            (0, set::of([0, 1, 2, 3]), 1),
        ),
        (&[one, three, (7, RD)], (11, 0, 0)),
        (&[one], (12, 0, 0)),
    ] {
        assert_eq!(found_of_k(&Archive, list), expected, "{list:?}");
    }
}

/// And of 64 objects in a row, upwards and downwards.
#[test]
fn the_linked_archive_reports_63_rounds_of_a_row() {
    for row in rows() {
        let case = own_test(&row);
        let mut table = to_raw(&case.table);
        let found = Archive.test(&mut table, case.members, &mut list_bytes(&case.list));
        let expected = Finding {
            bound: !case.members,
            rounds: 63,
            number: 0,
        };
        assert_eq!(found, expected, "{}", row.name);
    }
}
