//! Document 02, 2.1, sentence by sentence, each on a small table.

mod held;
mod refused;

use held::{table_with, Held};
use refused::refused_tests;
use yavrinks_model::chain::chain;
use yavrinks_model::confinement::{confinement_test, Entry};
use yavrinks_model::set;
use yavrinks_model::table::{Capability, Table};
use yavrinks_model::table::{ALIVE, ALL_RIGHTS, DEAD, RD, SLOTS, TX, WK, WR};

/// The member of most tests here. It holds nothing unless a test says so.
const MEMBER: u8 = 60;

/// A table with the member, all holders and all targets alive.
fn table_of(held: &[Held]) -> Table {
    table_with(&[MEMBER], held)
}

/// What is shown of an object where the member is alone and the list is `list`.
fn shown(table: &Table, list: &[Entry], object: u8) -> (u8, Vec<u8>) {
    chain(table, set::single(MEMBER), list, object)
}

/// Table K with the member 5 and the list (1, wr), whose bound is 0, 1 and 2.
fn shown_of_k(object: u8) -> (u8, Vec<u8>) {
    chain(&Table::k(), set::single(5), &[(1, WR)], object)
}

// A maker sees object 2 in the bound and wants to know how. The answer is the chain's object numbers in
// turn, the stand-in left out.

#[test]
fn the_chain_to_object_2_of_table_k_goes_over_1() {
    assert_eq!(shown_of_k(2), (0, vec![1, 2]));
    assert_eq!(shown_of_k(0), (0, vec![1, 0]));
}

#[test]
fn the_chain_to_a_listed_object_is_that_object() {
    assert_eq!(shown_of_k(1), (0, vec![1]));
}

// For an accepted test and one object, give a shortest chain of links.

#[test]
fn a_longer_chain_is_not_given_though_its_numbers_come_first() {
    let table = table_of(&[(1, 2, WR), (2, 3, WR), (3, 9, WR), (1, 8, WR), (8, 9, WR)]);
    assert_eq!(shown(&table, &[(1, WR)], 9), (0, vec![1, 8, 9]));
    assert_eq!(shown(&table, &[(1, WR), (9, WR)], 9), (0, vec![9]));
}

// Each link is one capability held by a non-member or listed.

#[test]
fn rd_wr_and_tx_are_taken_either_way() {
    for rights in [RD, WR, TX, RD | WK, WR | WK, TX | WK, ALL_RIGHTS] {
        for held in [(1, 2, rights), (2, 1, rights)] {
            let table = table_of(&[held]);
            assert_eq!(shown(&table, &[(1, rights)], 2), (0, vec![1, 2]));
        }
    }
}

#[test]
fn wk_is_taken_from_target_to_holder() {
    let table = table_of(&[(2, 1, WK)]);
    assert_eq!(shown(&table, &[(1, WR)], 2), (0, vec![1, 2]));
}

#[test]
fn wk_is_not_taken_from_holder_to_target() {
    let table = table_of(&[(1, 2, WK)]);
    assert_eq!(shown(&table, &[(1, WR)], 2), (19, vec![]));
    // From 1 to 3 it would be the shorter chain.
    let table = table_of(&[(1, 3, WK), (1, 2, WR), (2, 3, WR)]);
    assert_eq!(shown(&table, &[(1, WR)], 3), (0, vec![1, 2, 3]));
}

#[test]
fn a_listed_wk_does_not_lead_to_its_target() {
    let table = table_of(&[(1, 2, WR)]);
    assert_eq!(shown(&table, &[(2, WK)], 2), (19, vec![]));
    assert_eq!(shown(&table, &[(1, WR), (2, WK)], 2), (0, vec![1, 2]));
    assert_eq!(shown(&table, &[(2, WK), (2, RD)], 2), (0, vec![2]));
}

/// The member 60 holds 1 and 3, and 61 holds 60 and 3. Their slots are not gone through, whatever is in
/// them, and a chain that would go over a member is none.
#[test]
fn a_chain_does_not_go_through_the_slots_of_members() {
    let held = [
        (60, 1, WR),
        (60, 3, RD),
        (61, 60, ALL_RIGHTS),
        (61, 3, WK),
        (1, 2, WR),
        (2, 3, WR),
        (3, 4, WK),
    ];
    let members = set::of([60, 61]);
    let list = [(1, WR), (3, RD | WK)];
    let full = table_of(&held);
    let mut bare = full.clone();
    for member in [60, 61] {
        bare.record_mut(member).slots = [Capability::EMPTY; SLOTS];
    }
    for table in [full, bare] {
        assert_eq!(chain(&table, members, &list, 2), (0, vec![1, 2]));
        assert_eq!(chain(&table, members, &list, 3), (0, vec![3]));
        assert_eq!(chain(&table, members, &list, 4), (19, vec![]));
    }
}

#[test]
fn chains_go_by_the_list_and_not_by_what_members_hold() {
    let table = table_of(&[(MEMBER, 1, WK), (1, 2, WR)]);
    assert_eq!(shown(&table, &[(1, WK)], 2), (19, vec![]));
    assert_eq!(shown(&table, &[(1, WK), (2, TX)], 1), (0, vec![2, 1]));
}

// Among equal lengths, the chain whose numbers come first, compared from the stand-in's end, is given.

#[test]
fn a_shortest_chain_that_is_not_first_is_not_given() {
    let table = table_of(&[(1, 5, WR), (5, 9, WR), (1, 4, WR), (4, 9, WR)]);
    assert_eq!(shown(&table, &[(1, WR)], 9), (0, vec![1, 4, 9]));
    let table = table_of(&[(5, 9, WR), (4, 9, WR)]);
    let list = [(5, WR), (4, WR)];
    assert_eq!(shown(&table, &list, 9), (0, vec![4, 9]));
}

/// Of 2, 9, 20 and 3, 4, 20 the second comes first from the object's end.
#[test]
fn chains_are_compared_from_the_end_of_the_stand_in() {
    let table = table_of(&[(2, 9, WR), (9, 20, WR), (3, 4, WR), (4, 20, WR)]);
    let list = [(3, WR), (2, WR)];
    assert_eq!(shown(&table, &list, 20), (0, vec![2, 9, 20]));
}

/// From 1 the lowest number is 2, and 3 has no link to 9; from the stand-in it is 0, which leads nowhere.
#[test]
fn low_numbers_that_do_not_lead_to_the_object_are_passed_over() {
    let mut table = table_of(&[(1, 2, WR), (2, 3, WR), (1, 7, WR), (7, 8, WR), (8, 9, WR)]);
    table.record_mut(0).status = ALIVE;
    let list = [(0, WR), (1, WR)];
    assert_eq!(shown(&table, &list, 9), (0, vec![1, 7, 8, 9]));
}

/// 10 and 40 are compared as numbers, not digit by digit; 9 comes before both.
#[test]
fn numbers_are_compared_as_numbers() {
    let table = table_of(&[(40, 50, RD), (10, 50, RD), (9, 50, RD)]);
    let all = [(40, RD), (10, RD), (9, RD)];
    assert_eq!(shown(&table, &all, 50), (0, vec![9, 50]));
    assert_eq!(shown(&table, &all[..2], 50), (0, vec![10, 50]));
}

// Every link shown must be there, and a chain must exist for each bound object and no other.

#[test]
fn chains_exist_for_the_bound_and_for_nothing_else() {
    let bound = confinement_test(&Table::k(), set::single(5), &[(1, WR)]).bound;
    for object in 0..=255 {
        let (number, chain) = shown_of_k(object);
        assert_eq!(number == 0, set::contains(bound, object));
        assert_eq!(chain.is_empty(), !set::contains(bound, object));
    }
}

#[test]
fn a_dead_object_in_the_bound_has_its_chain() {
    let mut table = table_of(&[(1, 2, WR), (3, 2, RD), (4, 5, RD)]);
    for dead in [2, 5] {
        table.record_mut(dead).status = DEAD;
    }
    let list = [(1, WR)];
    assert_eq!(shown(&table, &list, 2), (0, vec![1, 2]));
    assert_eq!(shown(&table, &list, 3), (0, vec![1, 2, 3]));
    assert_eq!(shown(&table, &list, 5), (19, vec![]));
}

/// All numbers but the member's in one line, upwards and downwards.
#[test]
fn a_chain_of_63_numbers() {
    let upwards: Vec<u8> = (0..63).collect();
    let downwards: Vec<u8> = (1..64).rev().collect();
    for (line, member) in [(upwards, 63), (downwards, 0)] {
        let mut table = Table::unborn();
        for record in &mut table.records {
            record.status = ALIVE;
        }
        for pair in line.windows(2) {
            table.record_mut(pair[0]).slots[7] = Capability::new(pair[1], TX);
        }
        let list = [(line[0], RD)];
        let shown = chain(&table, set::single(member), &list, line[62]);
        assert_eq!(shown, (0, line));
    }
}

// Turned away: after the test's own refusals, 18 if the number is above 63, unborn or a member; 19 if it
// is outside the bound.

#[test]
fn numbers_above_63_unborn_numbers_and_members_are_18() {
    let mut table = Table::k();
    table.record_mut(6).status = DEAD;
    table.record_mut(2).slots = [Capability::EMPTY; SLOTS];
    let members = set::of([4, 5]);
    let list = [(1, WR), (3, WR)];
    assert!(confinement_test(&table, members, &list).is_accepted());
    // 64 + 1 and 128 + 1 are 1 in their low bits, 10 is in the stock of a member.
    for object in [64, 65, 129, 255, 7, 10, 63, 4, 5] {
        assert_eq!(chain(&table, members, &list, object), (18, vec![]));
    }
    for object in [2, 6] {
        assert_eq!(chain(&table, members, &list, object), (19, vec![]));
    }
}

#[test]
fn the_refusals_of_the_test_come_first() {
    for (number, table, members, list) in refused_tests() {
        for object in 0..=255 {
            let shown = chain(&table, members, &list, object);
            assert_eq!(shown, (number, vec![]), "object {object}");
        }
    }
}
