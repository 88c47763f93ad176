//! Archives whose way by groups is a wrong reading of 2.9, and that are right in all else. The comparison finds each of
//! them out, by the rows of potential access or by the bound of a test.

use captable::raw::{Finding, Relation, Table};
use yavrinks_model::set;
use yavrinks_model::table::Table as Model;
use yavrinks_model::wire::decode_list;
use yavrinks_peer::archive::{Archive, Calls};
use yavrinks_peer::convert::{to_model, to_raw};
use yavrinks_peer::differential::{compare_requests, Counts, Line, Way};
use yavrinks_tools::misread_groups::{access_read, test_read, Misread};
use yavrinks_tools::rows::rows;

use super::{is_found, REQUESTS};

/// Answers potential access by groups as a reading has it; none is the right one.
struct Access(Option<Misread>);

impl Calls for Access {
    fn access_by_groups(&self, table: &mut Table) -> Relation {
        let (number, access) = access_read(self.0, &to_model(table), 0);
        let mut relation = Relation {
            rows: [0; 256],
            number,
        };
        relation.rows.copy_from_slice(&rows(&access));
        relation
    }
}

/// Answers the test by groups as a reading has it.
struct Tests(Option<Misread>);

impl Calls for Tests {
    fn test_by_groups(&self, table: &mut Table, members: u64, list: &mut [u8]) -> Finding {
        let tested = test_read(self.0, &to_model(table), members, &decode_list(list));
        Finding {
            bound: tested.bound,
            rounds: tested.rounds,
            number: tested.number,
        }
    }
}

/// The readings that say nothing wrong of potential access, where no members are given.
const OF_MEMBERS: [Misread; 3] = [
    Misread::MembersLeftOut,
    Misread::MembersInBound,
    Misread::MembersForList,
];

#[test]
fn every_wrong_reading_of_potential_access_is_found() {
    for reading in Misread::ALL.into_iter().filter(|r| !OF_MEMBERS.contains(r)) {
        println!("{reading:?}");
        is_found(&Access(Some(reading)), "captable_access_by_groups", "rows");
    }
}

/// The readings that give another bound for some accepted test, wk that joins and members let into it among them.
const OF_BOUNDS: [Misread; 10] = [
    Misread::WkJoins,
    Misread::MembersInBound,
    Misread::MembersForList,
    Misread::RdAsWk,
    Misread::TxOneWay,
    Misread::WkAmongOthers,
    Misread::OwnGroupAlone,
    Misread::DeadLeftOut,
    Misread::LinksOut,
    Misread::OnePass,
];

#[test]
fn every_wrong_reading_of_the_bound_is_found() {
    for reading in OF_BOUNDS {
        println!("{reading:?}");
        is_found(&Tests(Some(reading)), "captable_test_by_groups", "bound");
    }
}

/// What is found of the wrong readings is theirs: the right one has no difference.
#[test]
fn the_right_reading_is_not_found() {
    let mut counts = Counts::default();
    assert!(compare_requests(&Access(None), 1, REQUESTS, &mut counts).is_ok());
    assert!(compare_requests(&Tests(None), 1, REQUESTS, &mut counts).is_ok());
}

/// Counts no rounds, as if groups had none.
struct NoRounds;

impl Calls for NoRounds {
    fn test_by_groups(&self, table: &mut Table, members: u64, list: &mut [u8]) -> Finding {
        Finding {
            rounds: 0,
            ..Archive.test_by_groups(table, members, list)
        }
    }
}

#[test]
fn a_test_by_groups_without_rounds_is_found() {
    is_found(&NoRounds, "captable_test_by_groups", "rounds");
}

/// Leaves rights of a table that is not sound.
struct LeftRights;

impl Calls for LeftRights {
    fn access_by_groups(&self, table: &mut Table) -> Relation {
        let mut relation = Archive.access_by_groups(table);
        if relation.number == 1 {
            relation.rows[63] = 1;
        }
        relation
    }
}

#[test]
fn rights_with_a_refusal_are_found() {
    is_found(&LeftRights, "captable_access_by_groups", "rows");
}

/// Leaves the listed targets as the bound of a test that is refused.
struct LeftBound;

impl Calls for LeftBound {
    fn test_by_groups(&self, table: &mut Table, members: u64, list: &mut [u8]) -> Finding {
        let mut found = Archive.test_by_groups(table, members, list);
        if found.number == 13 {
            found.bound = set::of(decode_list(list).into_iter().map(|entry| entry.0));
        }
        found
    }
}

#[test]
fn a_bound_with_a_refusal_is_found() {
    is_found(&LeftBound, "captable_test_by_groups", "bound");
}

/// Writes into the list that it may only read.
struct TouchedList;

impl Calls for TouchedList {
    fn test_by_groups(&self, table: &mut Table, members: u64, list: &mut [u8]) -> Finding {
        let found = Archive.test_by_groups(table, members, list);
        if let (0, Some(last)) = (found.number, list.last_mut()) {
            *last ^= 128;
        }
        found
    }
}

#[test]
fn a_list_that_changes_is_found() {
    is_found(&TouchedList, "captable_test_by_groups", "list");
}

/// The version for speed, with wr over all that there is wk over.
struct WrongForSpeed;

impl Calls for WrongForSpeed {
    fn fast_access(&self, table: &Table) -> Relation {
        let mut relation = Archive.fast_access(table);
        relation.rows.copy_within(128..192, 64);
        relation
    }
}

#[test]
fn a_wrong_version_for_speed_is_found() {
    is_found(&WrongForSpeed, "access for speed", "rows");
}

/// Tables of one group, of few, of some and of many are compared, in both calls, most of them with wk between groups.
#[test]
fn tables_of_few_groups_and_of_many_are_met() {
    let mut counts = Counts::default();
    compare_requests(&Archive, 1, REQUESTS, &mut counts).expect("no difference");
    for way in [Way::Access, Way::Test] {
        for (groups, least) in [(1..=1, 3), (2..=7, 30), (8..=31, 30), (32..=64, 30)] {
            let met = counts.groups().of(way, groups.clone());
            assert!(met >= least, "{way:?}, {groups:?}: {met}\n{counts}");
        }
        let wk = counts.groups().of_wk_between(way);
        assert!(wk >= 100, "{way:?}: {wk}\n{counts}");
    }
    for (line, numbers) in [
        (Line::AccessByGroups, &[0, 1][..]),
        (Line::TestByGroups, &[0, 1, 10, 11, 12, 13]),
    ] {
        for &number in numbers {
            assert!(counts.of(line, number) >= 3, "{line:?}, {number}\n{counts}");
        }
    }
}

/// The linked archive by hand, on table K: 0, 1 and 5 are one group by rd and wr over 1, 3 and 4 another; 2 has wk
/// over 1 and over 6, and so over the first group and 6.
#[test]
fn the_linked_archive_answers_table_k_by_groups() {
    let relation = Archive.access_by_groups(&mut to_raw(&Model::k()));
    let four = |n: usize| [0, 1, 2, 3].map(|right: usize| relation.rows[64 * right + n]);
    let (first, second, own) = (set::of([0, 1, 5]), set::of([3, 4]), set::single(2));
    for n in [0, 1, 5] {
        assert_eq!(four(n), [first; 4]);
    }
    for n in [3, 4] {
        assert_eq!(four(n), [second; 4]);
    }
    assert_eq!(four(2), [own, own, first | set::of([2, 6]), own]);
    assert_eq!(four(6), [set::single(6); 4]);
    assert_eq!(four(7), [0; 4]);
}
