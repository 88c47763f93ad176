//! Document 02, 2.1, "Show me the chain": small tables whose chains are worked out by hand.

mod common;

use captable::{Capability, ChainRefusal, Set, Table, ALIVE, DEAD, MAX_LINKS, RD, TX, WK, WR};
use common::{cap, found, k, set};

/// The member of the small tables. It holds nothing.
const MEMBER: u8 = 60;

/// A capability as holder, target, rights.
type Held = (u8, u8, u8);

/// A table with the member, and with what is held: each in the first slot of its holder that is empty.
fn table_of(held: &[Held]) -> Table {
    let mut table = Table::unborn();
    table.record_mut(MEMBER).status = ALIVE;
    for &(holder, target, rights) in held {
        table.record_mut(holder).status = ALIVE;
        table.record_mut(target).status = ALIVE;
        let j = (0..8).find(|&j| *table.slot(holder, j) == Capability::EMPTY);
        *table.slot_mut(holder, j.expect("an empty slot")) = cap(target, rights);
    }
    table
}

/// The chain's numbers, or the number that refuses it.
fn shown(table: &Table, list: &[Capability], object: u8) -> Result<Vec<u8>, u8> {
    match table.chain(set(&[MEMBER]), list, object) {
        Ok(chain) => Ok(chain.as_slice().to_vec()),
        Err(refusal) => Err(refusal.number()),
    }
}

/// Example 1 of document 01: "A maker sees object 2 in the bound and wants to know how." 5 may write to 1,
/// which 0 reads and 2 reads weakly.
#[test]
fn chains_of_example_1() {
    let chain = |object| k().chain(set(&[5]), &[cap(1, WR)], object);
    for (object, numbers) in [(2, &[1, 2][..]), (0, &[1, 0]), (1, &[1])] {
        assert_eq!(chain(object).expect("in the bound").as_slice(), numbers);
    }
    for outside in [3, 4, 6] {
        assert_eq!(chain(outside), Err(ChainRefusal::OutsideBound));
    }
    // The member, numbers that are unborn, and numbers above 63, two of them 2 in their low bits.
    for invalid in [5, 7, 10, 63, 64, 66, 130, 255] {
        assert_eq!(chain(invalid), Err(ChainRefusal::ObjectInvalid));
    }
}

/// "an rd, wr or tx taken either way, a wk taken from target to holder"
#[test]
fn rights_lead_their_way() {
    for rights in [RD, WR, TX, WK] {
        let (held_by_1, held_by_2) = (table_of(&[(1, 2, rights)]), table_of(&[(2, 1, rights)]));
        let onwards = if rights == WK {
            Err(19)
        } else {
            Ok(vec![1, 2])
        };
        assert_eq!(shown(&held_by_1, &[cap(1, WR)], 2), onwards, "{rights}");
        assert_eq!(shown(&held_by_2, &[cap(1, WR)], 2), Ok(vec![1, 2]));
        let listed = if rights == WK { Err(19) } else { Ok(vec![1]) };
        assert_eq!(shown(&held_by_1, &[cap(1, rights)], 1), listed, "{rights}");
    }
}

/// "a shortest chain": 1, 8, 9 and not 1, 2, 3, 9, though that comes first.
#[test]
fn a_shorter_chain_goes_before_lower_numbers() {
    let table = table_of(&[(1, 2, WR), (2, 3, WR), (3, 9, WR), (1, 8, WR), (8, 9, WR)]);
    assert_eq!(shown(&table, &[cap(1, WR)], 9), Ok(vec![1, 8, 9]));
    assert_eq!(shown(&table, &[cap(1, WR), cap(9, RD)], 9), Ok(vec![9]));
}

/// "Among equal lengths, the chain whose numbers come first, compared from the stand-in's end": 2, 9, 20
/// before 3, 4, 20. From the other end it would be the other one.
#[test]
fn chains_of_one_length_are_compared_from_the_end_of_the_stand_in() {
    let table = table_of(&[(2, 9, WR), (9, 20, WR), (3, 4, WR), (4, 20, WR)]);
    let list = [cap(3, WR), cap(2, WR)];
    assert_eq!(shown(&table, &list, 20), Ok(vec![2, 9, 20]));
    assert_eq!(shown(&table, &list[..1], 20), Ok(vec![3, 4, 20]));
    // Numbers, and no words: 9 comes before 10.
    let table = table_of(&[(10, 50, RD), (9, 50, RD)]);
    let list = [cap(10, RD), cap(9, RD)];
    assert_eq!(shown(&table, &list, 50), Ok(vec![9, 50]));
}

#[test]
fn a_dead_object_is_linked_too() {
    let mut table = table_of(&[(1, 2, WR), (3, 2, RD)]);
    table.record_mut(2).status = DEAD;
    assert_eq!(shown(&table, &[cap(1, WR)], 3), Ok(vec![1, 2, 3]));
}

/// Every number but the member's in one row, from the lowest on and from the highest on.
#[test]
fn the_longest_chain_has_63_numbers() {
    let rising: Vec<u8> = (0..63).collect();
    let falling: Vec<u8> = (1..64).rev().collect();
    for (row, member) in [(rising, 63), (falling, 0)] {
        let mut table = Table::unborn();
        for n in 0..64 {
            table.record_mut(n).status = ALIVE;
        }
        for two in row.windows(2) {
            *table.slot_mut(two[1], 7) = cap(two[0], WK);
        }
        let chain = table.chain(Set::of(&[member]), &[cap(row[0], TX)], row[62]);
        let chain = chain.expect("the last of the row is in the bound");
        assert_eq!(chain.as_slice(), row);
        assert_eq!(chain.iter().len(), MAX_LINKS);
    }
}

/// "after the test's own refusals": whatever the object is.
#[test]
fn the_refusals_of_the_test_come_first() {
    let mut unsound = k();
    unsound.record_mut(20).word = 1;
    let mut held = k();
    *held.slot_mut(0, 1) = cap(5, WK);
    let (five, listed) = (set(&[5]), [cap(1, WR)]);
    for (table, members, list, refusal) in [
        (&unsound, five, &listed[..], ChainRefusal::TableUnsound),
        (&k(), set(&[]), &listed, ChainRefusal::MembersInvalid),
        (&k(), five, &[cap(1, WR); 9], ChainRefusal::ListInvalid),
        (&k(), five, &[], ChainRefusal::RightUnlisted),
        (&held, five, &listed, ChainRefusal::MemberHeld),
    ] {
        for object in [0, 2, 3, 5, 10, 64, 255] {
            assert_eq!(table.chain(members, list, object), Err(refusal), "{object}");
        }
    }
}

/// "a chain must exist for each bound object and no other": the bound is the test's.
#[test]
fn chains_are_for_the_bound() {
    let table = table_of(&[(1, 2, TX), (3, 2, WK), (3, 4, WK), (5, 4, RD), (2, 6, WR)]);
    let list = [cap(1, RD)];
    let answer = table.test(set(&[MEMBER]), &list).expect("accepted");
    assert_eq!(answer, found(&[1, 2, 3, 6], 3));
    for object in 0..=255 {
        let chain = shown(&table, &list, object);
        assert_eq!(chain.is_ok(), answer.bound.contains(object), "{object}");
    }
}

#[test]
fn a_chain_is_iterated_and_printed() {
    let chain = k()
        .chain(set(&[5]), &[cap(1, WR)], 2)
        .expect("in the bound");
    assert_eq!(chain.iter().collect::<Vec<u8>>(), [1, 2]);
    let mut numbers = Vec::new();
    for n in &chain {
        numbers.push(n);
    }
    assert_eq!(numbers, [1, 2]);
    assert_eq!(chain.to_string(), "1 -> 2");
    assert_eq!(format!("{chain:?}"), "[1, 2]");
}

#[test]
fn refusals_are_told_in_words() {
    assert_eq!(
        ChainRefusal::ObjectInvalid.to_string(),
        "refused 18: the object is above 63, unborn or a member"
    );
    assert_eq!(
        ChainRefusal::OutsideBound.to_string(),
        "refused 19: the object is outside the bound"
    );
}
