//! Document 02, 2.6, sentence by sentence, each on a small table. All numbers of rounds are worked by hand.

mod held;
mod input;
mod refused;

use held::{table_with, Held};
use input::input_of;
use refused::refused_tests;
use yavrinks_model::chain::chain;
use yavrinks_model::confine::confine;
use yavrinks_model::confinement::{confinement_test, Entry, Tested};
use yavrinks_model::image::{encode, Version};
use yavrinks_model::rounds::rounds;
use yavrinks_model::set;
use yavrinks_model::table::{Capability, Table};
use yavrinks_model::table::{ALL_RIGHTS, DEAD, RD, SLOTS, TX, WK, WR};

/// The member of most tests here. It holds nothing unless a test says so.
const MEMBER: u8 = 60;

/// A table with the member, all holders, all targets and all that is listed alive.
fn table_of(held: &[Held], list: &[Entry]) -> Table {
    let listed = list.iter().map(|&(target, _)| target);
    let alive: Vec<u8> = listed.chain([MEMBER]).collect();
    table_with(&alive, held)
}

/// The test where the member is alone.
fn tested(held: &[Held], list: &[Entry]) -> Tested {
    confinement_test(&table_of(held, list), set::single(MEMBER), list)
}

/// What is there after each round, where the member is alone.
fn there(held: &[Held], list: &[Entry]) -> Vec<u64> {
    rounds(&table_of(held, list), set::single(MEMBER), list)
}

/// Each number of the line holds the next one with these rights.
fn line_of(numbers: &[u8], rights: u8) -> Vec<Held> {
    let pairs = numbers.windows(2);
    pairs.map(|two| (two[0], two[1], rights)).collect()
}

/// The same links, held from the far end.
fn held_from_behind(numbers: &[u8], rights: u8) -> Vec<Held> {
    let pairs = numbers.windows(2);
    pairs.map(|two| (two[1], two[0], rights)).collect()
}

// Report with the bound the number of rounds that added an object.

/// Example 1: 1 is listed, and 0 and 2 have a capability over it.
#[test]
fn table_k_takes_two_rounds() {
    let (table, members) = (Table::k(), set::single(5));
    let bound = set::of([0, 1, 2]);
    let found = confinement_test(&table, members, &[(1, WR)]);
    assert_eq!(found, Tested::accepted(bound, 2));
    let after_each = rounds(&table, members, &[(1, WR)]);
    assert_eq!(after_each, [set::single(1), bound]);
}

/// The second round, which adds nothing, is not counted. A link leads back from the object to the stand-in, which
/// is no object.
#[test]
fn a_round_that_adds_nothing_is_not_counted() {
    for rights in (1..=ALL_RIGHTS).filter(|&rights| rights != WK) {
        let list = [(1, rights)];
        assert_eq!(tested(&[], &list), Tested::accepted(set::single(1), 1));
        // A loop and a second way lead to what is there.
        let held = [(1, 1, rights), (2, 1, rights), (1, 2, rights)];
        assert_eq!(tested(&held, &list), Tested::accepted(set::of([1, 2]), 2));
    }
}

/// The eight objects of a full list come in one round, and what they hold in the next.
#[test]
fn many_objects_can_come_in_one_round() {
    let list: Vec<Entry> = (0..8).map(|n| (n, TX)).collect();
    assert_eq!(tested(&[], &list), Tested::accepted(set::of(0..8), 1));
    let fan: Vec<Held> = (0..8).map(|k| (9, 10 + k, RD)).collect();
    let bound = set::of([9]) | set::of(10..18);
    assert_eq!(tested(&fan, &[(9, WR)]), Tested::accepted(bound, 2));
}

// Round one adds the objects one link from the stand-in, as links are described in 2.1.

#[test]
fn rd_wr_and_tx_lead_either_way() {
    for rights in (1..=ALL_RIGHTS).filter(|&rights| rights != WK) {
        for held in [(1, 2, rights), (2, 1, rights)] {
            let found = tested(&[held], &[(1, rights)]);
            assert_eq!(found, Tested::accepted(set::of([1, 2]), 2), "{held:?}");
        }
    }
}

#[test]
fn wk_leads_from_target_to_holder_alone() {
    let list = [(1, WR)];
    assert_eq!(tested(&[(2, 1, WK)], &list).rounds, 2);
    assert_eq!(tested(&[(1, 2, WK)], &list).rounds, 1);
    // From 1 to 3 it would be the shorter way, of two rounds in the place of three.
    let held = [(1, 3, WK), (1, 2, WR), (2, 3, WR)];
    let bound = set::of([1, 2, 3]);
    assert_eq!(tested(&held, &list), Tested::accepted(bound, 3));
    // The same line held by wk alone: from the far end it leads on, from the near end it does not.
    let numbers = [1, 2, 3, 4];
    let behind = held_from_behind(&numbers, WK);
    assert_eq!(tested(&behind, &list).rounds, 4);
    assert_eq!(tested(&line_of(&numbers, WK), &list).rounds, 1);
}

#[test]
fn a_listed_wk_leads_nowhere() {
    assert_eq!(tested(&[(1, 2, WR)], &[(1, WK)]), Tested::empty(0));
    // 3 is listed with wk alone, so that it comes in round three still.
    let held = line_of(&[1, 2, 3], WR);
    assert_eq!(tested(&held, &[(1, RD), (3, WK)]).rounds, 3);
    assert_eq!(tested(&held, &[(1, RD), (3, WK | RD)]).rounds, 2);
}

/// Two entries for one object are no more than their union, and another list's order changes nothing.
#[test]
fn entries_count_once() {
    let held = line_of(&[1, 2, 3], TX);
    for list in [
        &[(1, WR)][..],
        &[(1, WR), (1, WR)],
        &[(1, WK), (1, RD), (2, WK)],
    ] {
        assert_eq!(tested(&held, list).rounds, 3);
    }
}

/// Of the line from 1 to 5 both ends are listed, and 3 is in the middle.
#[test]
fn the_nearest_entry_decides() {
    let held = line_of(&[1, 2, 3, 4, 5], WR);
    let list = [(5, WR), (1, WR)];
    let after_each = [set::of([1, 5]), set::of([1, 2, 4, 5]), set::of(1..6)];
    assert_eq!(there(&held, &list), after_each);
    assert_eq!(tested(&held, &list), Tested::accepted(set::of(1..6), 3));
    assert_eq!(tested(&held, &list[..1]).rounds, 5);
}

// Each later round adds those one link from what is there.

/// An object that a round has added leads on in the next one alone, whichever way its numbers are gone through.
#[test]
fn what_is_added_leads_on_in_the_next_round() {
    let up = [10, 20, 30, 40];
    let down = [40, 30, 20, 10];
    let zigzag = [20, 40, 10, 30];
    for numbers in [up, down, zigzag] {
        let list = [(numbers[0], WR)];
        let after_each: Vec<u64> = (1..=4).map(|k| set::of(&numbers[..k])).collect();
        for held in [
            line_of(&numbers, RD),
            held_from_behind(&numbers, TX),
            held_from_behind(&numbers, WK),
        ] {
            assert_eq!(there(&held, &list), after_each);
            let expected = Tested::accepted(set::of(numbers), 4);
            assert_eq!(tested(&held, &list), expected);
        }
    }
}

/// In a ring of six 1 is listed, and 4 lies opposite: it is reached from both sides in round four.
#[test]
fn a_ring_is_gone_round_from_both_sides() {
    let ring = line_of(&[1, 2, 3, 4, 5, 6, 1], WR);
    let after_each = [
        set::of([1]),
        set::of([1, 2, 6]),
        set::of([1, 2, 3, 5, 6]),
        set::of(1..7),
    ];
    assert_eq!(there(&ring, &[(1, WR)]), after_each);
}

#[test]
fn a_dead_object_counts_and_can_be_on_the_way() {
    let list = [(1, WR)];
    let mut table = table_of(&[(1, 2, WR), (3, 2, RD)], &list);
    table.record_mut(2).status = DEAD;
    let found = confinement_test(&table, set::single(MEMBER), &list);
    assert_eq!(found, Tested::accepted(set::of([1, 2, 3]), 3));
}

/// The members hold wk over the line, what is listed, and one another. Were their slots links, the round after the
/// last would add a member, and the one after that another.
#[test]
fn no_round_goes_through_a_member() {
    let line = line_of(&[1, 2, 3], WR);
    let of_members = [
        (60, 1, WR),
        (60, 3, WK),
        (60, 61, ALL_RIGHTS),
        (61, 62, TX),
        (62, 2, WK),
    ];
    let full = table_with(&[], &[&line[..], &of_members].concat());
    let mut bare = full.clone();
    for member in [60, 61, 62] {
        bare.record_mut(member).slots = [Capability::EMPTY; SLOTS];
    }
    let expected = Tested::accepted(set::of([1, 2, 3]), 3);
    for table in [full, bare] {
        let found = confinement_test(&table, set::of([60, 61, 62]), &[(1, WR)]);
        assert_eq!(found, expected);
    }
}

/// What a member holds with wk alone needs no entry (2.3), and is none.
#[test]
fn rounds_go_by_the_list_and_not_by_what_members_hold() {
    let line = line_of(&[1, 2, 3], WR);
    let weak: Vec<Held> = (1..4).map(|n| (MEMBER, n, WK)).collect();
    let both = [line, weak].concat();
    assert_eq!(tested(&both, &[]), Tested::empty(0));
    assert_eq!(tested(&both, &[(1, WR)]).rounds, 3);
    assert_eq!(tested(&both, &[(2, WR)]).rounds, 2);
    // The member holds one of the two that are listed; in the second table there is nothing that it holds.
    let held = [(1, 2, WR), (MEMBER, 2, RD)];
    assert_eq!(tested(&held, &[(1, WR), (2, RD)]).rounds, 1);
    assert_eq!(tested(&held[..1], &[(1, WR)]).rounds, 2);
}

// The number equals the most links in any of 2.1's chains, 0 for an empty bound, and is at most 63.

/// A chain of k numbers has k links, since the first leads from the stand-in. 9 is the farthest: neither the highest
/// number nor the lowest, nor that of the longest way.
#[test]
fn the_number_is_that_of_the_longest_of_the_shortest_chains() {
    let mut held = line_of(&[3, 20, 9], WR);
    held.extend([(3, 0, WR), (3, 40, WR), (0, 20, TX), (40, 20, RD)]);
    let list = [(3, WR)];
    let table = table_of(&held, &list);
    let bound = set::of([0, 3, 9, 20, 40]);
    let found = confinement_test(&table, set::single(MEMBER), &list);
    assert_eq!(found, Tested::accepted(bound, 3));
    let chains = set::numbers(bound).map(|n| chain(&table, set::single(MEMBER), &list, n));
    let lengths: Vec<usize> = chains.map(|(_, chain)| chain.len()).collect();
    // Of 0, 3, 9, 20 and 40.
    assert_eq!(lengths, [2, 1, 3, 2, 2]);
}

#[test]
fn an_empty_bound_takes_no_round() {
    let held = line_of(&[1, 2, 3], WR);
    for list in [&[][..], &[(1, WK)], &[(1, WK), (2, WK), (3, WK)]] {
        assert_eq!(tested(&held, list), Tested::empty(0));
    }
}

/// All numbers but the member's in one line of 63, upwards and downwards; then of 62, with one beside it.
#[test]
fn sixty_three_rounds_are_the_most() {
    let upwards: Vec<u8> = (0..63).collect();
    let downwards: Vec<u8> = (1..64).rev().collect();
    for (line, member) in [(upwards, 63), (downwards, 0)] {
        let list = [(line[0], RD)];
        let members = set::single(member);
        for held in [line_of(&line, TX), held_from_behind(&line, WK)] {
            let table = table_with(&[member], &held);
            let found = confinement_test(&table, members, &list);
            assert_eq!(found, Tested::accepted(!members, 63));
            let (_, shown) = chain(&table, members, &list, line[62]);
            assert_eq!(shown, line);
        }
        let mut held = line_of(&line[..62], WR);
        held.push((line[60], line[62], WR));
        let table = table_with(&[member], &held);
        let found = confinement_test(&table, members, &list);
        assert_eq!(found, Tested::accepted(!members, 62));
    }
}

// `confine` prints as before.

#[test]
fn confine_prints_the_bound_and_no_rounds() {
    let held = line_of(&[1, 2, 3], WR);
    for (list, text) in [
        (&[(1, WR)][..], "accepted\n1\n2\n3\n"),
        (&[(1, WK)], "accepted\n"),
        (&[(1, 0)], "refused 11\n"),
    ] {
        let image = encode(Version::One, &table_of(&held, list));
        let input = input_of(&image, set::single(MEMBER), list);
        assert_eq!(confine(&input), text);
    }
}

// Turned away: no new number.

/// Nothing of what a refused test would have come to is reported, nor what came before it.
#[test]
fn a_refused_test_has_no_rounds() {
    for (number, table, members, list) in refused_tests() {
        let accepted = confinement_test(&Table::k(), set::single(5), &[(1, WR)]);
        assert_eq!(accepted.rounds, 2);
        let found = confinement_test(&table, members, &list);
        assert_eq!(found, Tested::empty(number));
    }
}
