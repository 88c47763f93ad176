//! Document 02, 2.3, "Weak capabilities need no entry": a member's capability whose rights are exactly wk
//! passes the test unlisted, and every other one needs each of its rights in the list.

mod common;

use captable::{confine, Capability, ChainRefusal, Finding, Set, Table, TestRefusal};
use captable::{ALIVE, DEAD, RD, TX, WK, WR};
use common::{cap, found, k, set};

/// What the test says: the bound with its rounds, or the number that refuses it.
fn tested(table: &Table, members: &[u8], list: &[Capability]) -> Result<Finding, u8> {
    table.test(set(members), list).map_err(TestRefusal::number)
}

/// Table K, where 5 holds the capability in its slot 0, and nothing else.
fn five_holds(held: Capability) -> Table {
    let mut table = k();
    *table.slot_mut(5, 0) = held;
    table
}

/// What the program `confine` prints for members {5}.
fn printed(table: &Table, list: &[Capability]) -> String {
    let mut input = table.to_older_image().expect("a sound table").to_vec();
    input.extend(set(&[5]).bits().to_be_bytes());
    input.push(list.len() as u8);
    for entry in list {
        input.extend([entry.target, entry.rights]);
    }
    String::from_utf8(confine(&input).as_bytes().to_vec()).expect("text")
}

/// "Refusal 12 and example 2 of document 01 are amended: with the list empty, example 2 is accepted too."
#[test]
fn example_2_is_accepted_with_its_list_and_without() {
    let weak = five_holds(cap(1, WK));
    for list in [&[cap(1, WK)][..], &[]] {
        assert_eq!(tested(&weak, &[5], list), Ok(found(&[], 0)));
        assert_eq!(printed(&weak, list), "accepted\n");
        for outside in [0, 1, 2, 3, 4, 6] {
            let chain = weak.chain(set(&[5]), list, outside);
            assert_eq!(chain, Err(ChainRefusal::OutsideBound), "{outside}");
        }
        let chain = weak.chain(set(&[5]), list, 5);
        assert_eq!(chain, Err(ChainRefusal::ObjectInvalid));
    }
}

/// "whose rights are exactly wk": of all fifteen rights values 4 alone needs no entry.
#[test]
fn of_all_rights_exactly_wk_passes_unlisted() {
    for rights in 1..=15 {
        let table = five_holds(cap(1, rights));
        let chain = table.chain(set(&[5]), &[], 1);
        if rights == 4 {
            assert_eq!(tested(&table, &[5], &[]), Ok(found(&[], 0)));
            assert_eq!(printed(&table, &[]), "accepted\n");
            assert_eq!(chain, Err(ChainRefusal::OutsideBound));
        } else {
            assert_eq!(tested(&table, &[5], &[]), Err(12), "{rights}");
            assert_eq!(printed(&table, &[]), "refused 12\n", "{rights}");
            assert_eq!(chain, Err(ChainRefusal::RightUnlisted), "{rights}");
        }
    }
}

/// Beside another right wk has to be listed like that right. With both, 1 is in the bound, and so are 0, which
/// has rd over it, and 2, which has wk over it.
#[test]
fn wk_beside_another_right_has_to_be_listed() {
    for others in [RD, WR, RD | WR, TX, RD | TX, WR | TX, RD | WR | TX] {
        let (held, most) = (cap(1, others | WK), cap(1, others));
        let table = five_holds(held);
        assert_eq!(tested(&table, &[5], &[most]), Err(12), "{others}");
        assert_eq!(printed(&table, &[most]), "refused 12\n", "{others}");
        let chain = table.chain(set(&[5]), &[most], 2);
        assert_eq!(chain, Err(ChainRefusal::RightUnlisted), "{others}");
        // Nor is wk enough, or the right over another target.
        assert_eq!(tested(&table, &[5], &[cap(1, WK)]), Err(12), "{others}");
        let elsewhere = [most, cap(6, WK), cap(3, WK)];
        assert_eq!(tested(&table, &[5], &elsewhere), Err(12), "{others}");
        // In one entry or in two, in any order.
        for list in [&[held][..], &[most, cap(1, WK)], &[cap(1, WK), most]] {
            let answer = tested(&table, &[5], list);
            assert_eq!(answer, Ok(found(&[0, 1, 2], 2)), "{others}");
        }
    }
}

/// "Makers' routines read dozens of material tables through wk alone and the list of eight is too short." The
/// members 56 to 63 hold wk in all their 64 slots, over the objects 0 to 55.
fn materials() -> (Table, Set) {
    let mut table = Table::unborn();
    for n in 0..64 {
        table.record_mut(n).status = ALIVE;
    }
    for k in 0..64 {
        *table.slot_mut(56 + k / 8, k % 8) = cap(k % 56, WK);
    }
    (table, (56..64).collect())
}

#[test]
fn dozens_of_wk_pass_with_an_empty_list() {
    let (table, members) = materials();
    assert_eq!(table.test(members, &[]), Ok(found(&[], 0)));
    assert_eq!(
        table.chain(members, &[], 55),
        Err(ChainRefusal::OutsideBound)
    );
    // With eight of them listed too.
    let eight: Vec<Capability> = (0..8).map(|n| cap(n, WK)).collect();
    assert_eq!(table.test(members, &eight), Ok(found(&[], 0)));
    // The ninth entry is one too many, though none of them is needed.
    let nine: Vec<Capability> = (0..9).map(|n| cap(n, WK)).collect();
    assert_eq!(table.test(members, &nine), Err(TestRefusal::ListInvalid));
}

/// One capability that is not wk alone is found among them, whichever slot it is in.
#[test]
fn one_other_right_among_dozens_of_wk_is_found() {
    let (table, members) = materials();
    for k in 0..64 {
        for rights in [RD, WR, TX, RD | WK, WR | WK, WK | TX] {
            let mut other = table.clone();
            let slot = other.slot_mut(56 + k / 8, k % 8);
            slot.rights = rights;
            let needed = *slot;
            assert_eq!(other.test(members, &[]), Err(TestRefusal::RightUnlisted));
            let answer = other.test(members, &[needed]);
            assert_eq!(answer, Ok(found(&[needed.target], 1)));
        }
    }
}

/// Each capability is judged by itself: rd and wk in two slots are not rights 5 in one.
#[test]
fn wk_in_a_slot_of_its_own_needs_no_entry_beside_others() {
    let mut table = five_holds(cap(1, RD));
    *table.slot_mut(5, 1) = cap(1, WK);
    let answer = tested(&table, &[5], &[cap(1, RD)]);
    assert_eq!(answer, Ok(found(&[0, 1, 2], 2)));
    assert_eq!(tested(&table, &[5], &[cap(1, WK)]), Err(12));
    assert_eq!(tested(&table, &[5], &[]), Err(12));
}

/// "The bound is still worked from the list alone." 5 may write to 1, and so influences 0 and 2 too. 6, over
/// which 5 holds wk, is not influenced, nor is 3, which 4 writes to.
#[test]
fn the_bound_is_the_same_with_unlisted_and_with_listed_wk() {
    let expected = Ok(found(&[0, 1, 2], 2));
    let mut reading = k();
    for (j, target) in [(1, 6), (2, 3), (3, 1), (4, 4), (7, 0)] {
        *reading.slot_mut(5, j) = cap(target, WK);
    }
    let weak = [6, 3, 1, 4, 0, 2].map(|target| cap(target, WK));
    for table in [&k(), &reading] {
        for count in 0..=weak.len() {
            let list = [&[cap(1, WR)][..], &weak[..count]].concat();
            assert_eq!(tested(table, &[5], &list), expected, "{list:?}");
            let chain = table.chain(set(&[5]), &list, 2).expect("in the bound");
            assert_eq!(chain.as_slice(), [1, 2]);
            for outside in [3, 4, 6] {
                let chain = table.chain(set(&[5]), &list, outside);
                assert_eq!(chain, Err(ChainRefusal::OutsideBound), "{list:?}");
            }
        }
    }
    // Entries that nothing held asks for lead as ever: rd over 3 gets at 3, and at 4, which writes to it.
    let list = [cap(1, WR), cap(3, RD)];
    let answer = tested(&reading, &[5], &list);
    assert_eq!(answer, Ok(found(&[0, 1, 2, 3, 4], 2)));
}

/// Row 13 stands: "a non-member holds a capability naming a member", wk alone and by a passive holder too.
#[test]
fn wk_over_a_member_is_13_whoever_holds_it() {
    for holder in [0, 1, 3, 6] {
        for rights in 1..=15 {
            let mut table = five_holds(cap(1, WK));
            *table.slot_mut(holder, 7) = cap(5, rights);
            for list in [&[][..], &[cap(1, WK)], &[cap(holder, WK)]] {
                assert_eq!(tested(&table, &[5], list), Err(13), "{holder}, {rights}");
                let chain = table.chain(set(&[5]), list, holder);
                assert_eq!(chain, Err(ChainRefusal::MemberHeld));
            }
            // 12 comes before it.
            *table.slot_mut(5, 3) = cap(1, RD | WK);
            assert_eq!(tested(&table, &[5], &[]), Err(12), "{holder}, {rights}");
        }
    }
}

/// A dead target is like any other, and what a member holds over a member needs no entry whatever it is.
#[test]
fn wk_over_the_dead_and_over_members_needs_no_entry() {
    let mut table = five_holds(cap(6, WK));
    table.record_mut(6).status = DEAD;
    assert_eq!(tested(&table, &[5], &[]), Ok(found(&[], 0)));
    assert_eq!(tested(&table, &[5], &[cap(6, WK)]), Ok(found(&[], 0)));
    for rights in 1..=15 {
        *table.slot_mut(5, 1) = cap(4, rights);
        // Slot 0 of 4 is (3, wr).
        let answer = tested(&table, &[4, 5], &[cap(3, WR)]);
        assert_eq!(answer, Ok(found(&[3], 1)));
        assert_eq!(tested(&table, &[4, 5], &[]), Err(12));
    }
}

/// Rows 10 and 11 come first and are as they were: an entry with wk names a born non-member or is 11.
#[test]
fn entries_with_wk_are_judged_like_any() {
    let weak = five_holds(cap(1, WK));
    for target in [5, 7, 10, 63, 64, 255] {
        let list = [cap(target, WK)];
        assert_eq!(tested(&weak, &[5], &list), Err(11), "{target}");
    }
    assert_eq!(tested(&weak, &[5], &[cap(1, WK | 16)]), Err(11));
    assert_eq!(tested(&weak, &[], &[]), Err(10));
    assert_eq!(tested(&weak, &[5, 10], &[]), Err(10));
}
