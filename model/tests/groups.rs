//! Document 02, 2.9, clause by clause, each on a small table, and that no wrong reading gives the same answers. All
//! groups, rights and bounds are worked by hand; the rules have to give them too.

mod held;
mod misread_groups;
mod refused;

use held::{table_with, Held};
use misread_groups::Misread;
use refused::refused_tests;
use yavrinks_model::access::{potential_access, Access};
use yavrinks_model::confinement::{confinement_test, Entry, Tested};
use yavrinks_model::groups::{access_by_groups, group_of, test_by_groups};
use yavrinks_model::set;
use yavrinks_model::table::{Capability, Table};
use yavrinks_model::table::{ALL_RIGHTS, DEAD, RD, SLOTS, TX, WK, WR};

/// The member of most tests here. It holds nothing unless a test says so.
const MEMBER: u8 = 60;

/// Potential access of a table, which the rules give too.
fn access(table: &Table) -> Access {
    let (number, access) = access_by_groups(table);
    assert_eq!(number, 0);
    assert_eq!((number, access.clone()), potential_access(table));
    access
}

/// The rights that x has over y.
fn rights(table: &Table, x: u8, y: u8) -> u8 {
    access(table).rights[usize::from(x)][usize::from(y)]
}

/// All rights that somebody has over another, as (holder, target, rights), in ascending order.
fn over_others(table: &Table) -> Vec<Held> {
    let access = access(table);
    let pairs = (0..64).flat_map(|x| (0..64).map(move |y| (x, y)));
    pairs
        .filter(|(x, y)| x != y)
        .map(|(x, y)| (x, y, access.rights[usize::from(x)][usize::from(y)]))
        .filter(|&(_, _, rights)| rights != 0)
        .collect()
}

/// The test, which gives the same bound the other way.
fn tested(table: &Table, members: u64, list: &[Entry]) -> Tested {
    let tested = test_by_groups(table, members, list);
    assert_eq!(tested, confinement_test(table, members, list));
    tested
}

/// The test where the member is alone, with all that is listed alive.
fn bound_of(held: &[Held], list: &[Entry]) -> Tested {
    let listed = list.iter().map(|&(target, _)| target);
    let alive: Vec<u8> = listed.chain([MEMBER]).collect();
    tested(&table_with(&alive, held), set::single(MEMBER), list)
}

/// All rights values but wk alone.
fn joining() -> impl Iterator<Item = u8> {
    (1..=ALL_RIGHTS).filter(|&rights| rights != WK)
}

fn with_dead(mut table: Table, n: u8) -> Table {
    table.record_mut(n).status = DEAD;
    assert!(table.is_sound());
    table
}

// Objects joined by held rd, wr or tx, in either direction and through others, form one group.

#[test]
fn rd_wr_and_tx_join_holder_and_target() {
    for rights in joining() {
        let table = table_with(&[], &[(1, 2, rights)]);
        assert_eq!(group_of(&table, 1), set::of([1, 2]), "{rights}");
        assert_eq!(group_of(&table, 2), set::of([1, 2]), "{rights}");
        let all = [(1, 2, ALL_RIGHTS), (2, 1, ALL_RIGHTS)];
        assert_eq!(over_others(&table), all, "{rights}");
    }
}

#[test]
fn wk_does_not_join() {
    let table = table_with(&[], &[(1, 2, WK), (2, 3, WK), (3, 1, WK)]);
    for n in [1, 2, 3] {
        assert_eq!(group_of(&table, n), set::single(n));
    }
    // Round the ring everybody has wk over everybody, and nothing more.
    assert!(over_others(&table).iter().all(|held| held.2 == WK));
    assert_eq!(over_others(&table).len(), 6);
}

/// Whoever has wk over the other beside what joins them: in the group there is no wk alone.
#[test]
fn wk_within_a_group_is_all_four() {
    for other in [RD, WR, TX] {
        let table = table_with(&[], &[(1, 2, WK), (2, 1, other)]);
        let all = [(1, 2, ALL_RIGHTS), (2, 1, ALL_RIGHTS)];
        assert_eq!(over_others(&table), all);
    }
}

/// 1 and 3 do not name one another: both hold something over 2, or 2 does over both.
#[test]
fn a_join_goes_in_either_direction() {
    for one in joining() {
        for other in joining() {
            for held in [
                [(1, 2, one), (3, 2, other)],
                [(2, 1, one), (2, 3, other)],
                [(1, 2, one), (2, 3, other)],
            ] {
                let table = table_with(&[], &held);
                assert_eq!(group_of(&table, 1), set::of([1, 2, 3]), "{held:?}");
                assert_eq!(rights(&table, 1, 3), ALL_RIGHTS, "{held:?}");
                assert_eq!(rights(&table, 3, 1), ALL_RIGHTS, "{held:?}");
            }
        }
    }
}

/// All 64 numbers, each joined to another number by rd, wr or tx in turn; every second join is held from behind.
#[test]
fn a_group_goes_through_any_number_of_others() {
    let line: Vec<u8> = (0..64).map(|k| k * 37 % 64).collect();
    let ends = line.windows(2).zip([RD, WR, TX].into_iter().cycle());
    let held: Vec<Held> = ends
        .zip([false, true].into_iter().cycle())
        .map(|((ends, rights), behind)| match behind {
            false => (ends[0], ends[1], rights),
            true => (ends[1], ends[0], rights),
        })
        .collect();
    let whole = table_with(&[], &held);
    assert!(line.iter().all(|&n| group_of(&whole, n) == u64::MAX));
    assert_eq!(access(&whole).rights, [[ALL_RIGHTS; 64]; 64]);
    // Without the join in the middle there are two groups, with no right over one another.
    let two = [&held[..31], &held[32..]].concat();
    let two = table_with(&[], &two);
    let (first, second) = (set::of(&line[..32]), set::of(&line[32..]));
    assert_eq!(group_of(&two, line[0]), first);
    assert_eq!(group_of(&two, line[63]), second);
    assert_eq!(over_others(&two).len(), 2 * 32 * 31);
}

/// 5 and 6, 1 and 2, then 2 and 5: whoever holds it, and whatever numbers the four have, so that in the table each of
/// the joins comes first, second and last.
#[test]
fn a_join_that_comes_late_is_found() {
    for numbers in [[5, 6, 1, 2], [1, 9, 3, 2], [1, 2, 9, 63], [63, 0, 62, 1]] {
        let [a, b, c, d] = numbers;
        for behind in 0..8 {
            let held: Vec<Held> = [(a, b), (c, d), (d, a)]
                .into_iter()
                .enumerate()
                .map(|(k, (one, other))| match behind >> k & 1 {
                    0 => (one, other, WR),
                    _ => (other, one, RD),
                })
                .collect();
            let table = table_with(&[], &held);
            for n in numbers {
                assert_eq!(group_of(&table, n), set::of(numbers), "{held:?}");
            }
            assert_eq!(over_others(&table).len(), 12, "{held:?}");
        }
    }
}

/// The last slots of the table make one group of two.
#[test]
fn a_join_in_the_last_slots_is_found() {
    let mut table = table_with(&[63], &[(1, 2, WR), (5, 6, TX)]);
    assert_eq!(group_of(&table, 1), set::of([1, 2]));
    table.record_mut(63).slots[6] = Capability::new(5, RD);
    assert_eq!(group_of(&table, 1), set::of([1, 2]));
    assert_eq!(group_of(&table, 63), set::of([5, 6, 63]));
    table.record_mut(63).slots[7] = Capability::new(2, RD);
    for n in [1, 2, 5, 6, 63] {
        assert_eq!(group_of(&table, n), set::of([1, 2, 5, 6, 63]));
    }
    assert_eq!(rights(&table, 1, 6), ALL_RIGHTS);
}

#[test]
fn who_is_joined_to_nobody_is_a_group_alone() {
    // 3 names itself, and 4 is named by wk alone.
    let table = table_with(&[2], &[(3, 3, TX), (3, 4, WK)]);
    for n in [2, 3, 4] {
        assert_eq!(group_of(&table, n), set::single(n));
        assert_eq!(rights(&table, n, n), ALL_RIGHTS);
    }
    assert_eq!(over_others(&table), [(3, 4, WK)]);
}

/// An unborn number is in no group, has no right and none is held over it; so everywhere in the wholly unborn table.
#[test]
fn an_unborn_number_is_in_no_group() {
    let table = table_with(&[], &[(1, 2, WR)]);
    assert_eq!(group_of(&table, 3), 0);
    let access = access(&table);
    assert_eq!(access.rights[3], [0; 64]);
    assert!(access.rights.iter().all(|row| row[3] == 0));
    assert_eq!(access_by_groups(&Table::unborn()), (0, Access::none()));
}

/// What is held over a dead object is held still, and joins the holders.
#[test]
fn a_dead_object_joins() {
    for (one, other) in [(RD, RD), (RD, WR), (TX, RD), (WR, TX)] {
        let table = with_dead(table_with(&[], &[(1, 2, one), (3, 2, other)]), 2);
        for n in [1, 2, 3] {
            assert_eq!(group_of(&table, n), set::of([1, 2, 3]));
        }
        assert_eq!(over_others(&table).len(), 6);
    }
}

// x has all four rights over its group, and wk alone over any born object outside its group from which links as in
// 2.1 lead to x.

#[test]
fn wk_is_over_the_target_alone_and_not_back() {
    let table = table_with(&[], &[(1, 2, WK)]);
    assert_eq!(over_others(&table), [(1, 2, WK)]);
}

/// 1 and 2 are a group, and 2 has wk over 3.
#[test]
fn the_whole_group_has_wk() {
    let table = table_with(&[], &[(1, 2, WR), (2, 3, WK)]);
    let expected = [
        (1, 2, ALL_RIGHTS),
        (1, 3, WK),
        (2, 1, ALL_RIGHTS),
        (2, 3, WK),
    ];
    assert_eq!(over_others(&table), expected);
}

/// 3 and 4 are a group, and 2 has wk over 3: links lead from 4 to 3, and on to 2.
#[test]
fn wk_is_over_the_whole_group() {
    for held in [(3, 4, TX), (4, 3, RD)] {
        let table = table_with(&[], &[(2, 3, WK), held]);
        let expected = [
            (2, 3, WK),
            (2, 4, WK),
            (3, 4, ALL_RIGHTS),
            (4, 3, ALL_RIGHTS),
        ];
        assert_eq!(over_others(&table), expected);
    }
}

/// Links lead from 4 to 3, to 2, to 1, and none of them back.
#[test]
fn wk_goes_on_through_others() {
    let table = table_with(&[], &[(1, 2, WK), (2, 3, WK), (3, 4, WK)]);
    let expected = [
        (1, 2, WK),
        (1, 3, WK),
        (1, 4, WK),
        (2, 3, WK),
        (2, 4, WK),
        (3, 4, WK),
    ];
    assert_eq!(over_others(&table), expected);
}

/// Two groups, and wk in one direction: 1 and 2 over 5 and 6, and these over 9. Then wk in the other direction too.
#[test]
fn links_lead_to_x_and_not_out_of_it() {
    let mut held = vec![(1, 2, RD), (5, 6, RD), (2, 6, WK), (5, 9, WK)];
    let table = table_with(&[], &held);
    for (x, y) in [
        (1, 5),
        (1, 6),
        (2, 5),
        (2, 6),
        (1, 9),
        (2, 9),
        (5, 9),
        (6, 9),
    ] {
        assert_eq!(rights(&table, x, y), WK, "{x} over {y}");
        assert_eq!(rights(&table, y, x), 0, "{y} over {x}");
    }
    held.push((6, 1, WK));
    let table = table_with(&[], &held);
    for (x, y) in [(1, 5), (1, 6), (2, 5), (2, 6)] {
        assert_eq!(rights(&table, x, y), WK, "{x} over {y}");
        assert_eq!(rights(&table, y, x), WK, "{y} over {x}");
    }
    assert_eq!(rights(&table, 9, 1), 0);
    assert_eq!(group_of(&table, 1), set::of([1, 2]));
}

/// 1 is dead and wk is held over it; 3 is dead and two groups meet in it.
#[test]
fn wk_is_over_dead_objects_and_goes_through_them() {
    let table = with_dead(table_with(&[], &[(2, 1, WK)]), 1);
    assert_eq!(over_others(&table), [(2, 1, WK)]);
    assert_eq!(rights(&table, 1, 1), ALL_RIGHTS);
    let table = with_dead(table_with(&[], &[(4, 3, RD), (2, 3, WK)]), 3);
    let expected = [
        (2, 3, WK),
        (2, 4, WK),
        (3, 4, ALL_RIGHTS),
        (4, 3, ALL_RIGHTS),
    ];
    assert_eq!(over_others(&table), expected);
}

/// Table K: 0, 1 and 5 are a group, 3 and 4 another. 2 has wk over 1, and so over its group, and over 6. Of these are
/// the three answers of example 11.
#[test]
fn table_k() {
    let mut expected = Vec::new();
    for group in [[0, 1, 5].as_slice(), &[3, 4]] {
        let pairs = group
            .iter()
            .flat_map(|&x| group.iter().map(move |&y| (x, y)));
        let others = pairs.filter(|(x, y)| x != y);
        expected.extend(others.map(|(x, y)| (x, y, ALL_RIGHTS)));
    }
    expected.extend([0, 1, 5, 6].map(|y| (2, y, WK)));
    expected.sort_unstable();
    assert_eq!(over_others(&Table::k()), expected);
    assert_eq!(rights(&Table::k(), 5, 0), ALL_RIGHTS);
    assert_eq!(rights(&Table::k(), 2, 1), WK);
    assert_eq!(rights(&Table::k(), 1, 2), 0);
}

// Here every capability held in the table gives a link, members' included. For the bound, the holders are the
// non-members and the stand-in.

/// The member holds wr over 1, which is listed, and wk over 2, which needs no entry. In potential access 1 has wk over
/// 2 by that, and 3, which has wk over 1, over all of them. In the bound are 1 and 3.
#[test]
fn what_members_hold_counts_for_potential_access_alone() {
    let held = [(MEMBER, 1, WR), (MEMBER, 2, WK), (3, 1, WK)];
    let table = table_with(&[], &held);
    let expected = [
        (1, 2, WK),
        (1, MEMBER, ALL_RIGHTS),
        (3, 1, WK),
        (3, 2, WK),
        (3, MEMBER, WK),
        (MEMBER, 1, ALL_RIGHTS),
        (MEMBER, 2, WK),
    ];
    assert_eq!(over_others(&table), expected);
    let expected = Tested::accepted(set::of([1, 3]), 2);
    assert_eq!(tested(&table, set::single(MEMBER), &[(1, WR)]), expected);
}

/// Two members join 1 and 2 in potential access. In the bound neither is joined by them: 2 has wk over 4, and is
/// listed by wk alone.
#[test]
fn members_join_nobody_in_the_bound() {
    let held = [
        (60, 61, RD),
        (60, 1, WR),
        (61, 2, WK),
        (5, 1, WK),
        (2, 4, WK),
    ];
    let table = table_with(&[], &held);
    assert_eq!(group_of(&table, 60), set::of([1, 60, 61]));
    let list = [(1, WR), (2, WK)];
    let expected = Tested::accepted(set::of([1, 5]), 2);
    assert_eq!(tested(&table, set::of([60, 61]), &list), expected);
}

/// The bound is the same where members hold nothing of what is listed.
#[test]
fn the_stand_in_holds_the_list() {
    let line = [(1, 2, TX), (3, 2, WK)];
    let list = [(1, RD)];
    let expected = Tested::accepted(set::of([1, 2, 3]), 3);
    assert_eq!(bound_of(&line, &list), expected);
    let held = [&line[..], &[(MEMBER, 1, RD)]].concat();
    assert_eq!(bound_of(&held, &list), expected);
}

#[test]
fn the_members_are_not_in_the_bound() {
    // Links lead from 1 to the members, by what these hold.
    let held = [(60, 1, WR), (61, 1, WK), (61, 60, RD)];
    let table = table_with(&[], &held);
    let expected = Tested::accepted(set::single(1), 1);
    assert_eq!(tested(&table, set::of([60, 61]), &[(1, WR)]), expected);
}

#[test]
fn the_stand_in_is_in_the_group_of_what_is_listed() {
    for rights in joining() {
        let held = [(2, 1, RD), (1, 3, WK), (4, 2, WK)];
        let expected = Tested::accepted(set::of([1, 2, 4]), 3);
        assert_eq!(bound_of(&held, &[(1, rights)]), expected, "{rights}");
    }
    let held = [(2, 1, RD), (4, 2, WK)];
    assert_eq!(bound_of(&held, &[(1, WK)]), Tested::empty(0));
}

/// 1 and 2 are a group, 5 and 6 another, and both are listed. 7 has wk over the one, the other has wk over 8.
#[test]
fn the_stand_in_joins_two_groups() {
    let held = [(1, 2, WR), (6, 5, RD), (7, 6, WK), (2, 8, WK), (9, 8, TX)];
    let found = bound_of(&held, &[(1, TX), (5, WR)]);
    assert_eq!(found, Tested::accepted(set::of([1, 2, 5, 6, 7]), 3));
    // Wk over what is listed by wk alone: 7 gets nothing from the stand-in.
    let found = bound_of(&held, &[(1, TX), (5, WK)]);
    assert_eq!(found, Tested::accepted(set::of([1, 2]), 2));
}

#[test]
fn a_dead_object_is_in_the_bound() {
    let table = table_with(&[MEMBER], &[(1, 2, WR), (3, 2, WK)]);
    let table = with_dead(table, 2);
    let expected = Tested::accepted(set::of([1, 2, 3]), 3);
    assert_eq!(tested(&table, set::single(MEMBER), &[(1, WR)]), expected);
    // The dead object itself is listed.
    let expected = Tested::accepted(set::of([1, 2, 3]), 2);
    assert_eq!(tested(&table, set::single(MEMBER), &[(2, RD)]), expected);
}

#[test]
fn example_1() {
    let expected = Tested::accepted(set::of([0, 1, 2]), 2);
    assert_eq!(tested(&Table::k(), set::single(5), &[(1, WR)]), expected);
}

/// All numbers but the member's in one line, from the far end of which links lead by wk alone.
#[test]
fn the_bound_can_take_sixty_three_rounds() {
    let held: Vec<Held> = (0..62).map(|n| (n + 1, n, WK)).collect();
    let table = table_with(&[63], &held);
    let members = set::single(63);
    let expected = Tested::accepted(!members, 63);
    assert_eq!(tested(&table, members, &[(0, WR)]), expected);
    let expected = Tested::accepted(set::single(62), 1);
    assert_eq!(tested(&table, members, &[(62, WR)]), expected);
}

// Turned away: no new number; potential access refuses only by 1, the bound as the test does.

#[test]
fn the_bound_is_refused_as_the_test_is() {
    for (number, table, members, list) in refused_tests() {
        assert_eq!(tested(&table, members, &list), Tested::empty(number));
        let (refusal, access) = access_by_groups(&table);
        match number {
            1 => assert_eq!((refusal, access), (1, Access::none())),
            _ => assert_eq!(refusal, 0),
        }
    }
}

/// Targets that are no object, and other values that no sound table has.
#[test]
fn an_unsound_table_gets_1_and_no_rights() {
    let mut tables = vec![];
    for target in [7, 63, 64, 65, 127, 128, 255] {
        let mut table = Table::k();
        table.record_mut(0).slots[SLOTS - 1] = Capability::new(target, RD);
        tables.push(table);
    }
    for rights in [0, 16, 255] {
        let mut table = Table::k();
        table.record_mut(0).slots[3] = Capability::new(1, rights);
        tables.push(table);
    }
    let mut table = Table::k();
    table.record_mut(9).status = 3;
    tables.push(table);
    for table in tables {
        assert_eq!(access_by_groups(&table), (1, Access::none()));
        assert_eq!(potential_access(&table), (1, Access::none()));
        let refused = test_by_groups(&table, set::single(5), &[(1, WR)]);
        assert_eq!(refused, Tested::empty(1));
    }
}

// Wrong readings.

/// What is right of a small table, and what a wrong reading has in its place.
enum Told {
    /// The group of an object.
    Group(u8, &'static [u8], &'static [u8]),
    /// The rights of an object over another.
    Rights(u8, u8, u8, u8),
    /// The bound with a list.
    Bound(&'static [Entry], &'static [u8], &'static [u8]),
}

/// What the member holds in two of the tables.
const OF_MEMBER: &[Held] = &[(MEMBER, 1, WR), (MEMBER, 2, WK)];
/// In the table 1 and 10 are joined first, then 2 and 3, then 10 and 3.
const LATE: &[Held] = &[(1, 10, WR), (2, 3, WR), (10, 3, WR)];
/// Two objects meet in 9, which is dead.
const IN_DEAD: &[Held] = &[(1, 9, RD), (2, 9, RD)];

/// Every wrong reading on tables that tell it apart.
#[rustfmt::skip]
const TOLD_APART: [(Misread, &[Held], Told); 33] = [
    (Misread::WkJoins,          &[(1, 2, WK)],             Told::Group(1, &[1], &[1, 2])),
    (Misread::WkJoins,          &[(1, 2, WK)],             Told::Rights(2, 1, 0, ALL_RIGHTS)),
    (Misread::WkJoins,          &[(1, 2, WK)],             Told::Bound(&[(1, WR)], &[1], &[1, 2])),
    (Misread::RdAsWk,           &[(1, 2, RD)],             Told::Group(1, &[1, 2], &[1])),
    (Misread::RdAsWk,           &[(1, 2, RD)],             Told::Rights(1, 2, ALL_RIGHTS, WK)),
    (Misread::RdAsWk,           &[(1, 2, RD)],             Told::Bound(&[(1, WR)], &[1, 2], &[1])),
    (Misread::RdJoinsOneWay,    &[(1, 2, RD)],             Told::Group(2, &[1, 2], &[2])),
    (Misread::RdJoinsOneWay,    &[(1, 2, RD)],             Told::Rights(2, 1, ALL_RIGHTS, 0)),
    (Misread::TxOneWay,         &[(1, 2, TX)],             Told::Group(1, &[1, 2], &[1])),
    (Misread::TxOneWay,         &[(1, 2, TX)],             Told::Rights(2, 1, ALL_RIGHTS, WK)),
    (Misread::TxOneWay,         &[(1, 2, TX)],             Told::Bound(&[(2, WR)], &[1, 2], &[2])),
    (Misread::WkAmongOthers,    &[(1, 2, WK | WR)],        Told::Group(1, &[1, 2], &[1])),
    (Misread::WkAmongOthers,    &[(1, 2, WK | WR)],        Told::Rights(2, 1, ALL_RIGHTS, 0)),
    (Misread::WkAmongOthers,    &[(1, 2, WK | WR)],        Told::Bound(&[(1, WR)], &[1, 2], &[1])),
    (Misread::OwnGroupAlone,    &[(1, 2, WK)],             Told::Rights(1, 2, WK, 0)),
    (Misread::OwnGroupAlone,    &[(2, 1, WK)],             Told::Bound(&[(1, WR)], &[1, 2], &[1])),
    (Misread::DeadLeftOut,      IN_DEAD,                   Told::Group(1, &[1, 2, 9], &[1])),
    (Misread::DeadLeftOut,      &[(1, 9, WK)],             Told::Rights(1, 9, WK, 0)),
    (Misread::DeadLeftOut,      &[(1, 9, WK)],             Told::Rights(9, 9, ALL_RIGHTS, 0)),
    (Misread::DeadLeftOut,      IN_DEAD,                   Told::Bound(&[(1, WR)], &[1, 2, 9], &[1])),
    (Misread::LinksOut,         &[(1, 2, WK)],             Told::Rights(2, 1, 0, WK)),
    (Misread::LinksOut,         &[(1, 2, WK)],             Told::Bound(&[(1, WR)], &[1], &[1, 2])),
    (Misread::OneLink,          &[(1, 2, WK), (2, 3, WK)], Told::Rights(1, 3, WK, 0)),
    (Misread::WkLinksAlone,     &[(1, 2, WK), (2, 3, WR)], Told::Rights(1, 3, WK, 0)),
    (Misread::MembersLeftOut,   OF_MEMBER,                 Told::Rights(1, 2, WK, 0)),
    (Misread::MembersInBound,   OF_MEMBER,                 Told::Bound(&[(1, WR)], &[1], &[1, MEMBER])),
    (Misread::MembersForList,   OF_MEMBER,                 Told::Bound(&[(1, WR), (2, TX)], &[1, 2], &[1])),
    (Misread::OnePass,          LATE,                      Told::Group(2, &[1, 2, 3, 10], &[2])),
    (Misread::OnePass,          LATE,                      Told::Rights(1, 2, ALL_RIGHTS, 0)),
    (Misread::OnePass,          LATE,                      Told::Bound(&[(1, WR)], &[1, 2, 3, 10], &[1, 3, 10])),
    (Misread::NotThroughOthers, &[(1, 2, WR), (2, 3, WR)], Told::Rights(1, 3, ALL_RIGHTS, WK)),
    (Misread::AloneIsNoGroup,   &[(1, 2, WK)],             Told::Rights(1, 1, ALL_RIGHTS, 0)),
    (Misread::UnbornTakePart,   &[(1, 2, WK)],             Told::Rights(5, 5, 0, ALL_RIGHTS)),
];

#[test]
fn every_wrong_reading_is_wrong_in_its_own_way() {
    let members = set::single(MEMBER);
    for (misread, held, told) in TOLD_APART {
        let mut table = table_with(&[MEMBER], held);
        if table.is_born(9) {
            table = with_dead(table, 9);
        }
        let place = format!("{misread:?}, {held:?}");
        match told {
            Told::Group(x, right, wrong) => {
                assert_eq!(group_of(&table, x), set::of(right), "{place}");
                assert_eq!(misread.group(&table, members, x), set::of(wrong), "{place}");
            }
            Told::Rights(x, y, right, wrong) => {
                assert_eq!(rights(&table, x, y), right, "{place}");
                let (_, misread) = misread.access(&table, members);
                let found = misread.rights[usize::from(x)][usize::from(y)];
                assert_eq!(found, wrong, "{place}");
            }
            Told::Bound(list, right, wrong) => {
                let found = tested(&table, members, list);
                assert_eq!((found.number, found.bound), (0, set::of(right)), "{place}");
                let found = misread.test(&table, members, list);
                assert_eq!((found.number, found.bound), (0, set::of(wrong)), "{place}");
            }
        }
    }
    let told = |misread: &Misread| TOLD_APART.iter().any(|(one, _, _)| one == misread);
    assert!(Misread::ALL.iter().all(told));
}
