//! Document 02, 2.9, "Work it out by groups": each of its sentences, by the second way, which gives what the first
//! gives.

mod common;

use captable::{AccessRefusal, Capability, Finding, Relation, Right, Set, Table, TestRefusal};
use captable::{ALIVE, DEAD, RD, TX, WK, WR};
use common::{cap, found, k, set};

const RIGHTS: [Right; 4] = [Right::Rd, Right::Wr, Right::Wk, Right::Tx];

/// The member of the tests here. It holds nothing unless a test says so.
const MEMBER: u8 = 60;

/// A table where the holders and the targets of these capabilities are alive, and the member.
fn table_of(held: &[(u8, u8, u8)]) -> Table {
    let mut table = Table::unborn();
    table.record_mut(MEMBER).status = ALIVE;
    for &(holder, target, rights) in held {
        table.record_mut(holder).status = ALIVE;
        table.record_mut(target).status = ALIVE;
        let empty = (0..8).find(|&j| *table.slot(holder, j) == Capability::EMPTY);
        *table.slot_mut(holder, empty.expect("a slot is free")) = cap(target, rights);
    }
    table
}

/// Potential access by groups; by the rules it is the same.
#[track_caller]
fn access(table: &Table) -> Relation {
    let relation = table.access_by_groups().expect("the table is sound");
    assert_eq!(table.potential_access(), Ok(relation.clone()));
    relation
}

/// What the test finds by groups where the member is alone; by the rules it is the same.
#[track_caller]
fn tested(table: &Table, list: &[Capability]) -> Finding {
    let members = set(&[MEMBER]);
    let found = table.test_by_groups(members, list).expect("accepted");
    assert_eq!(table.test(members, list), Ok(found));
    found
}

/// Is this the object's group, and has it wk over these beside it?
#[track_caller]
fn has(relation: &Relation, n: u8, group: &[u8], outside: &[u8]) {
    for right in RIGHTS {
        let mut expected = set(group).bits();
        if right == Right::Wk {
            expected |= set(outside).bits();
        }
        assert_eq!(relation.over(n, right), Set::from_bits(expected), "{n}");
    }
}

/// "objects joined by held rd, wr or tx, in either direction and through others, form one group"
#[test]
fn rd_wr_and_tx_join_in_either_direction() {
    for rights in [RD, WR, TX, RD | WK, WR | WK, 15] {
        for (holder, target) in [(3, 9), (9, 3)] {
            let relation = access(&table_of(&[(holder, target, rights)]));
            has(&relation, 3, &[3, 9], &[]);
            has(&relation, 9, &[3, 9], &[]);
        }
    }
    // 1 and 7 hold nothing over one another, and nothing leads from 1 to 7 forwards alone.
    let relation = access(&table_of(&[(1, 2, RD), (5, 2, WR), (5, 6, TX), (7, 6, RD)]));
    for n in [1, 2, 5, 6, 7] {
        has(&relation, n, &[1, 2, 5, 6, 7], &[]);
    }
}

/// "x has all four rights over its group, and wk alone over any born object outside its group from which links as in
/// 2.1 lead to x"
#[test]
fn wk_leads_from_target_to_holder_and_through_groups() {
    // {1, 2} has wk over {4, 5}, and that over {8}.
    let relation = access(&table_of(&[(1, 2, RD), (2, 4, WK), (5, 4, WR), (5, 8, WK)]));
    has(&relation, 1, &[1, 2], &[4, 5, 8]);
    has(&relation, 2, &[1, 2], &[4, 5, 8]);
    has(&relation, 4, &[4, 5], &[8]);
    has(&relation, 5, &[4, 5], &[8]);
    has(&relation, 8, &[8], &[]);
}

/// A cycle of wk joins nobody, and each has wk over all of it.
#[test]
fn a_cycle_of_wk_is_no_group() {
    let relation = access(&table_of(&[(1, 2, WK), (2, 3, WK), (3, 1, WK), (9, 3, WK)]));
    for n in [1, 2, 3] {
        has(&relation, n, &[n], &[1, 2, 3]);
    }
    has(&relation, 9, &[9], &[1, 2, 3]);
}

/// A dead object holds nothing, and can be in a group all the same; an unborn number has no right, and none is held
/// over it.
#[test]
fn the_dead_take_part_and_the_unborn_do_not() {
    let mut table = table_of(&[(1, 2, RD), (3, 2, WR), (7, 9, WK)]);
    for n in [2, 9] {
        table.record_mut(n).status = DEAD;
    }
    let relation = access(&table);
    has(&relation, 1, &[1, 2, 3], &[]);
    has(&relation, 2, &[1, 2, 3], &[]);
    has(&relation, 7, &[7], &[9]);
    has(&relation, 10, &[], &[]);
}

/// "For the bound, the holders are the non-members and the stand-in."
#[test]
fn the_bound_goes_by_non_members_and_the_list() {
    // The member has wk over 6 without an entry, and rd over 1, which is listed with more than that.
    let table = table_of(&[
        (MEMBER, 6, WK),
        (MEMBER, 1, RD),
        (2, 1, WK),
        (3, 2, TX),
        (6, 5, WR),
    ]);
    assert_eq!(tested(&table, &[cap(1, RD)]), found(&[1, 2, 3], 3));
    assert_eq!(
        tested(&table, &[cap(1, RD), cap(5, TX)]),
        found(&[1, 2, 3, 5, 6], 3)
    );
    assert_eq!(
        tested(&table, &[cap(1, RD), cap(6, WK)]),
        found(&[1, 2, 3], 3)
    );
}

/// Where members hold more over one another than over others, nothing of it is in the bound.
#[test]
fn members_joined_to_one_another_are_not_in_the_bound() {
    let table = table_of(&[(MEMBER, 61, 15), (61, 6, WK), (4, 6, RD)]);
    let members = set(&[MEMBER, 61]);
    let answer = table.test_by_groups(members, &[cap(4, WR)]);
    assert_eq!(answer, Ok(found(&[4, 6], 2)));
    assert_eq!(table.test(members, &[cap(4, WR)]), answer);
}

/// All 64 numbers in a row, by rd and by wk, upwards and downwards.
#[test]
fn rows_of_64_objects() {
    for (rights, down) in [(RD, false), (RD, true), (WK, false), (WK, true)] {
        let mut table = Table::unborn();
        for n in 0..64 {
            table.record_mut(n).status = ALIVE;
        }
        for n in 0..63 {
            let (holder, target) = if down { (n + 1, n) } else { (n, n + 1) };
            *table.slot_mut(holder, 5) = cap(target, rights);
        }
        let (relation, all): (_, Vec<u8>) = (access(&table), (0..64).collect());
        for n in 0..64 {
            match (rights, down) {
                (RD, _) => has(&relation, n, &all, &[]),
                (_, true) => has(&relation, n, &[n], &all[..usize::from(n)]),
                (_, false) => has(&relation, n, &[n], &all[usize::from(n)..]),
            }
        }
    }
}

/// "Turned away: no new number; potential access refuses only by 1, the bound as the test does."
#[test]
fn refusals_are_those_of_the_first_way() {
    let mut unsound = k();
    unsound.record_mut(63).status = 3;
    assert_eq!(unsound.access_by_groups(), Err(AccessRefusal::TableUnsound));
    let (five, wr) = (set(&[5]), [cap(1, WR)]);
    let mut named = k();
    *named.slot_mut(0, 1) = cap(5, WK);
    let nine = [cap(1, WR); 9];
    for (table, members, list, refusal) in [
        (&unsound, Set::EMPTY, &wr[..], TestRefusal::TableUnsound),
        (&k(), Set::EMPTY, &wr, TestRefusal::MembersInvalid),
        (&k(), set(&[10]), &wr, TestRefusal::MembersInvalid),
        (&k(), five, &[cap(1, 0)], TestRefusal::ListInvalid),
        (&k(), five, &[cap(5, WR)], TestRefusal::ListInvalid),
        (&k(), five, &nine, TestRefusal::ListInvalid),
        (&k(), five, &[], TestRefusal::RightUnlisted),
        (&named, five, &[], TestRefusal::RightUnlisted),
        (&named, five, &wr, TestRefusal::MemberHeld),
    ] {
        assert_eq!(table.test_by_groups(members, list), Err(refusal));
        assert_eq!(table.test(members, list), Err(refusal));
    }
    assert_eq!(k().test_by_groups(five, &wr), Ok(found(&[0, 1, 2], 2)));
}

/// Random tables of every density: both ways give one answer, whatever is asked. The generator is small and gives the
/// same every time.
#[test]
fn both_ways_agree_on_random_tables() {
    let mut state = 29_u64;
    let mut random = |below: u64| {
        state ^= state << 13;
        state ^= state >> 7;
        state ^= state << 17;
        (state >> 11) % below
    };
    let mut accepted = 0;
    for k in 0..300 {
        let (born, filled, weak) = (1 + random(64) as u8, random(9), 10 * (k % 11));
        let mut table = Table::unborn();
        for n in 0..born {
            table.record_mut(n).status = if random(10) == 0 { DEAD } else { ALIVE };
        }
        for n in (0..born).filter(|&n| n != 0 || born > 1) {
            for j in 0..filled as u8 {
                let rights = if random(100) < weak {
                    WK
                } else {
                    1 + random(15) as u8
                };
                // Nobody names 0 but itself, so that it can be a member.
                let target = if n == 0 {
                    random(born.into()) as u8
                } else {
                    1 + random(u64::from(born) - 1) as u8
                };
                if table.record(n).status == ALIVE {
                    *table.slot_mut(n, j) = cap(target, rights);
                }
            }
        }
        assert!(table.is_sound());
        assert_eq!(table.access_by_groups(), table.potential_access());
        let list: Vec<Capability> = (0..random(9))
            .map(|_| cap(random(64) as u8, random(16) as u8))
            .collect();
        let held: Vec<Capability> = (0..8).map(|j| *table.slot(0, j)).collect();
        let needing = held
            .into_iter()
            .filter(|held| held.target != 0 && held.rights != WK);
        let own: Vec<Capability> = needing.collect();
        for members in [set(&[0]), Set::from_bits(random(1 << 40))] {
            for list in [&list, &own] {
                let answer = table.test(members, list);
                assert_eq!(table.test_by_groups(members, list), answer);
                accepted += u32::from(answer.is_ok_and(|found| found.rounds > 0));
            }
        }
    }
    assert!(accepted > 100, "{accepted}");
}
