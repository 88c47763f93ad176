//! Document 02, 2.3, sentence by sentence, each on a small table.

mod held;

use held::{table_with, Held};
use yavrinks_model::chain::chain;
use yavrinks_model::confinement::{confinement_test, passes, Entry, Tested, MAX_ENTRIES};
use yavrinks_model::set;
use yavrinks_model::table::{Capability, Table};
use yavrinks_model::table::{ACTIVE, ALIVE, ALL_RIGHTS, DEAD, PASSIVE, RD, SLOTS, TX, WK, WR};

/// The member of most tests here.
const MEMBER: u8 = 60;
/// A non-member that it holds something over, and one that it does not.
const TARGET: u8 = 20;
const OTHER: u8 = 21;

/// A table with the member, both non-members, all holders and all targets alive.
fn table_of(held: &[Held]) -> Table {
    table_with(&[MEMBER, TARGET, OTHER], held)
}

/// The test where the member is alone.
fn tested(held: &[Held], list: &[Entry]) -> Tested {
    confinement_test(&table_of(held), set::single(MEMBER), list)
}

// Makers' routines read dozens of material tables through wk alone and the list of eight is too short.

#[test]
fn a_member_may_read_more_targets_than_a_list_has_room_for() {
    let members = [58, 59, 60];
    let mut table = table_of(&[]);
    for (k, &member) in members.iter().enumerate() {
        table.record_mut(member).status = ALIVE;
        for slot in 0..SLOTS {
            let target = (k * SLOTS + slot) as u8;
            table.record_mut(target).status = ALIVE;
            table.record_mut(member).slots[slot] = Capability::new(target, WK);
        }
    }
    assert!(members.len() * SLOTS > MAX_ENTRIES);
    let members = set::of(members);
    let found = confinement_test(&table, members, &[]);
    assert_eq!(found, Tested::empty(0));
    // The list is free for what members do more with.
    let list: Vec<Entry> = (30..38).map(|n| (n, WR)).collect();
    for &(target, rights) in &list {
        table.record_mut(target).status = ALIVE;
        table.record_mut(58).slots[usize::from(target - 30)] = Capability::new(target, rights);
    }
    let found = confinement_test(&table, members, &list);
    assert_eq!(found, Tested::accepted(set::of(30..38), 1));
}

// The rule is now that a member's capability whose rights are exactly wk passes the test unlisted.

#[test]
fn of_fifteen_rights_values_only_wk_passes_unlisted() {
    for rights in 1..=ALL_RIGHTS {
        let expected = if rights == WK { 0 } else { 12 };
        let held = [(MEMBER, TARGET, rights)];
        assert_eq!(tested(&held, &[]), Tested::empty(expected), "{rights}");
        // Another target's entry is none of its own.
        let other = [(OTHER, ALL_RIGHTS & !WK)];
        assert_eq!(tested(&held, &other).number, expected, "{rights}");
        assert_eq!(passes(&[], Capability::new(TARGET, rights)), expected == 0);
    }
}

/// With wk among several rights, wk has to be listed like the others.
#[test]
fn wk_among_other_rights_has_to_be_listed() {
    for rights in (1..=ALL_RIGHTS).filter(|&rights| rights != WK) {
        let held = [(MEMBER, TARGET, rights)];
        let all_but_wk = [(TARGET, rights & !WK)];
        let expected = if rights & WK == 0 { 0 } else { 12 };
        assert_eq!(tested(&held, &all_but_wk).number, expected, "{rights}");
        let all = [(TARGET, rights & !WK), (TARGET, WK)];
        assert_eq!(tested(&held, &all).number, 0, "{rights}");
    }
}

/// Each other right has to be listed as well, whether wk is listed or not.
#[test]
fn each_right_of_several_has_to_be_listed() {
    for rights in 1..=ALL_RIGHTS {
        for missing in [RD, WR, WK, TX] {
            let listed = rights & !missing;
            if rights & missing != 0 && listed != 0 {
                let held = [(MEMBER, TARGET, rights)];
                let found = tested(&held, &[(TARGET, listed)]);
                assert_eq!(found, Tested::empty(12), "{rights}");
            }
        }
    }
}

#[test]
fn wk_passes_beside_another_capability_over_the_same_target() {
    let both = [(MEMBER, TARGET, WK), (MEMBER, TARGET, RD)];
    let turned = [(MEMBER, TARGET, RD), (MEMBER, TARGET, WK)];
    for held in [both, turned] {
        // The rd needs its entry, the wk beside it needs none.
        assert_eq!(tested(&held, &[]), Tested::empty(12));
        assert_eq!(tested(&held, &[(TARGET, WK)]), Tested::empty(12));
        let found = tested(&held, &[(TARGET, RD)]);
        assert_eq!(found, Tested::accepted(set::single(TARGET), 1));
    }
    // In one slot the same rights are not exactly wk.
    let one_slot = [(MEMBER, TARGET, RD | WK)];
    assert_eq!(tested(&one_slot, &[(TARGET, RD)]), Tested::empty(12));
    // Nor does another member's wk count for it.
    let table = table_of(&[(59, TARGET, WK), (MEMBER, TARGET, RD | WK)]);
    let members = set::of([59, MEMBER]);
    let found = confinement_test(&table, members, &[(TARGET, RD)]);
    assert_eq!(found, Tested::empty(12));
}

#[test]
fn wk_passes_in_every_slot_of_every_member() {
    for member in 0..64 {
        let target = (member + 1) % 64;
        for slot in 0..SLOTS {
            let mut table = Table::unborn();
            for (n, kind) in [(member, ACTIVE), (target, PASSIVE)] {
                table.record_mut(n).status = ALIVE;
                table.record_mut(n).kind = kind;
            }
            table.record_mut(member).slots[slot] = Capability::new(target, WK);
            let tested = |table: &Table| confinement_test(table, set::single(member), &[]);
            assert_eq!(tested(&table), Tested::empty(0));
            table.record_mut(member).slots[slot].rights |= RD;
            assert_eq!(tested(&table), Tested::empty(12));
        }
    }
}

#[test]
fn wk_over_a_dead_object_passes_too() {
    for (rights, number) in [(WK, 0), (RD, 12), (RD | WK, 12)] {
        let mut table = table_of(&[(MEMBER, TARGET, rights)]);
        table.record_mut(TARGET).status = DEAD;
        let tested = confinement_test(&table, set::single(MEMBER), &[]);
        assert_eq!(tested, Tested::empty(number), "{rights}");
    }
}

// The bound is still worked from the list alone.

/// 22 writes to the target and 23 reads it: with an entry of rd, wr or tx for it they would be in the bound.
#[test]
fn wk_that_passes_unlisted_adds_nothing_to_the_bound() {
    let outside = [(22, TARGET, WR), (23, TARGET, WK), (OTHER, 24, WR)];
    let weak = [&outside[..], &[(MEMBER, TARGET, WK), (MEMBER, 22, WK)]].concat();
    for list in [&[][..], &[(OTHER, WR)], &[(OTHER, WR), (24, TX)]] {
        let found = tested(&outside, list);
        assert!(found.is_accepted());
        assert_eq!(found.bound & set::of([TARGET, 22, 23]), 0);
        assert_eq!(tested(&weak, list), found);
    }
}

#[test]
fn entries_with_wk_change_neither_verdict_nor_bound() {
    let held = [
        (MEMBER, TARGET, WK),
        (MEMBER, OTHER, WR),
        (22, OTHER, RD),
        (TARGET, 23, WR),
        (23, 24, WK),
    ];
    let expected = Tested::accepted(set::of([OTHER, 22]), 2);
    let mut list = vec![(OTHER, WR)];
    assert_eq!(tested(&held, &list), expected);
    for target in [TARGET, OTHER, 22, 23, 24, TARGET, OTHER] {
        list.push((target, WK));
        assert_eq!(tested(&held, &list), expected);
    }
    assert_eq!(list.len(), MAX_ENTRIES);
    // They are entries still, and count as such.
    list.push((TARGET, WK));
    assert_eq!(tested(&held, &list), Tested::empty(11));
    for unfit in [30, MEMBER] {
        let list = [(OTHER, WR), (unfit, WK)];
        assert_eq!(tested(&held, &list), Tested::empty(11));
    }
}

/// Links are those of what non-members hold and of what is listed.
#[test]
fn no_chain_leads_to_what_is_only_held_unlisted() {
    let table = table_of(&[(MEMBER, TARGET, WK), (22, TARGET, WR), (OTHER, 23, WR)]);
    let shown = |list: &[Entry], object| chain(&table, set::single(MEMBER), list, object);
    for object in [TARGET, 22] {
        assert_eq!(shown(&[(OTHER, WR)], object), (19, vec![]));
        assert_eq!(shown(&[], object), (19, vec![]));
    }
    assert_eq!(shown(&[(OTHER, WR)], 23), (0, vec![OTHER, 23]));
}

// Refusal 12 and example 2 of document 01 are amended. Example 2 is in `examples.rs`; the other refusals
// stay, in their order.

#[test]
fn a_non_members_wk_over_a_member_is_13() {
    for rights in 1..=ALL_RIGHTS {
        for kind in [ACTIVE, PASSIVE] {
            let mut table = table_of(&[(MEMBER, TARGET, WK), (22, MEMBER, rights)]);
            table.record_mut(22).kind = kind;
            for list in [&[][..], &[(TARGET, WK)], &[(22, WK)]] {
                let tested = confinement_test(&table, set::single(MEMBER), list);
                assert_eq!(tested, Tested::empty(13), "{rights}");
            }
        }
    }
}

#[test]
fn members_may_hold_anything_over_one_another() {
    for rights in 1..=ALL_RIGHTS {
        let table = table_of(&[(MEMBER, 59, rights), (59, MEMBER, rights)]);
        let members = set::of([59, MEMBER]);
        let together = confinement_test(&table, members, &[]);
        assert_eq!(together, Tested::empty(0));
        // Where 59 is no member, its capability names one, and only wk gets that far.
        let number = if rights == WK { 13 } else { 12 };
        let alone = confinement_test(&table, set::single(MEMBER), &[]);
        assert_eq!(alone, Tested::empty(number), "{rights}");
    }
}

#[test]
fn the_earlier_refusals_come_first() {
    let held = [(MEMBER, TARGET, WK)];
    let mut unsound = table_of(&held);
    unsound.record_mut(MEMBER).slots[1] = Capability::new(TARGET, 0);
    let members = set::single(MEMBER);
    let found = confinement_test(&unsound, members, &[]);
    assert_eq!(found, Tested::empty(1));
    let table = table_of(&held);
    assert_eq!(confinement_test(&table, 0, &[]), Tested::empty(10));
    for entry in [(TARGET, 0), (OTHER, 16)] {
        let found = confinement_test(&table, members, &[entry]);
        assert_eq!(found, Tested::empty(11));
    }
}
