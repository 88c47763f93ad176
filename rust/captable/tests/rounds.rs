//! Document 02, 2.6, "How many rounds": with the bound the test reports the number of rounds that added an object.

mod common;

use captable::{confine, Capability, Finding, Set, Table, TestRefusal};
use captable::{ALIVE, DEAD, MAX_LINKS, RD, TX, WK, WR};
use common::{cap, found, k, set};

/// The member of most tests here. It holds nothing unless a test says so.
const MEMBER: u8 = 60;

/// A table where the holders and the targets of these capabilities are alive, and the member. Each capability is in the
/// slot that its target's number gives.
fn table_of(held: &[(u8, u8, u8)]) -> Table {
    let mut table = Table::unborn();
    table.record_mut(MEMBER).status = ALIVE;
    for &(holder, target, rights) in held {
        table.record_mut(holder).status = ALIVE;
        table.record_mut(target).status = ALIVE;
        *table.slot_mut(holder, target % 8) = cap(target, rights);
    }
    table
}

/// What the test finds where the member is alone.
fn tested(held: &[(u8, u8, u8)], list: &[Capability]) -> Finding {
    let answer = table_of(held).test(set(&[MEMBER]), list);
    answer.expect("accepted")
}

/// "Round one adds the objects one link from the stand-in": the round after it adds nothing and is not counted, nor
/// does the link back to the stand-in count.
#[test]
fn what_is_listed_comes_in_one_round() {
    let none = [(1, 2, WK), (3, 4, WR)];
    assert_eq!(tested(&none, &[cap(1, WR)]), found(&[1], 1));
    let all = [cap(1, RD), cap(3, TX), cap(4, WR)];
    assert_eq!(tested(&none, &all), found(&[1, 3, 4], 1));
}

/// "each later round adds those one link from what is there": a line upwards, downwards and zigzag, held from the near
/// end and, also by wk alone, from the far one.
#[test]
fn each_link_of_a_line_is_a_round() {
    for line in [[10, 21, 32, 43], [43, 32, 21, 10], [32, 10, 43, 21]] {
        let list = [cap(line[0], WR)];
        for rights in [RD, WR, TX, RD | WK] {
            let forth: Vec<_> = line
                .windows(2)
                .map(|two| (two[0], two[1], rights))
                .collect();
            assert_eq!(tested(&forth, &list), found(&line, 4));
        }
        for rights in [RD, WR, TX, WK] {
            let back: Vec<_> = line
                .windows(2)
                .map(|two| (two[1], two[0], rights))
                .collect();
            assert_eq!(tested(&back, &list), found(&line, 4));
        }
        // wk is taken from target to holder alone.
        let weak: Vec<_> = line.windows(2).map(|two| (two[0], two[1], WK)).collect();
        assert_eq!(tested(&weak, &list), found(&line[..1], 1));
    }
}

/// The nearest way decides: wk from 1 to 4 is none, and 5 is listed.
#[test]
fn the_shortest_ways_count() {
    let held = [(1, 2, WR), (2, 3, WR), (3, 4, WR), (1, 4, WK), (5, 4, RD)];
    assert_eq!(tested(&held, &[cap(1, WR)]), found(&[1, 2, 3, 4, 5], 5));
    let both = [cap(1, WR), cap(5, TX)];
    assert_eq!(tested(&held, &both), found(&[1, 2, 3, 4, 5], 3));
}

/// "0 for an empty bound".
#[test]
fn an_empty_bound_takes_no_round() {
    let held = [(1, 2, WR), (2, 3, WR)];
    assert_eq!(tested(&held, &[]), found(&[], 0));
    assert_eq!(tested(&held, &[cap(1, WK), cap(2, WK)]), found(&[], 0));
}

/// "The number equals the most links in any of 2.1's chains".
#[test]
fn rounds_are_the_links_of_the_longest_chain() {
    let held = [
        (3, 20, WR),
        (20, 9, WR),
        (3, 0, WR),
        (0, 20, TX),
        (40, 9, WK),
    ];
    let (members, list) = (set(&[MEMBER]), [cap(3, WR)]);
    let mut table = table_of(&held);
    table.record_mut(9).status = DEAD;
    let answer = table.test(members, &list).expect("accepted");
    assert_eq!(answer, found(&[0, 3, 9, 20, 40], 4));
    let chains = answer.bound.iter().map(|object| {
        let chain = table.chain(members, &list, object);
        chain.expect("in the bound").as_slice().len()
    });
    assert_eq!(chains.collect::<Vec<_>>(), [2, 1, 3, 2, 4]);
}

/// "and is at most 63": all numbers but the member's in a row.
#[test]
fn a_row_of_all_objects_takes_63_rounds() {
    let rising: Vec<u8> = (0..63).collect();
    let falling: Vec<u8> = (1..64).rev().collect();
    for (row, member) in [(rising, 63), (falling, 0)] {
        let mut table = Table::unborn();
        table.record_mut(member).status = ALIVE;
        for &n in &row {
            table.record_mut(n).status = ALIVE;
        }
        for two in row.windows(2) {
            *table.slot_mut(two[0], 7) = cap(two[1], TX);
        }
        let answer = table.test(set(&[member]), &[cap(row[0], RD)]);
        assert_eq!(answer, Ok(found(&row, 63)));
        assert_eq!(MAX_LINKS, 63);
    }
}

/// What members hold is no link, neither wk alone without an entry (2.3) nor what is listed nor one another.
#[test]
fn no_round_goes_through_a_member() {
    let line = [(1, 2, WR)];
    let of_members = [
        (60, 1, WR),
        (60, 61, RD),
        (61, 2, WK),
        (61, 3, WK),
        (62, 61, TX),
    ];
    let members = set(&[60, 61, 62]);
    let mut bare = table_of(&line);
    for n in [3, 61, 62] {
        bare.record_mut(n).status = ALIVE;
    }
    let full = table_of(&[&line[..], &of_members].concat());
    for table in [bare, full] {
        let answer = table.test(members, &[cap(1, WR)]);
        assert_eq!(answer, Ok(found(&[1, 2], 2)));
    }
}

/// "`confine` prints as before": the bound alone.
#[test]
fn confine_prints_no_rounds() {
    let mut input = k().to_older_image().expect("K is sound").to_vec();
    input.extend(set(&[5]).bits().to_be_bytes());
    input.extend([1, 1, WR]);
    assert_eq!(confine(&input).as_bytes(), b"accepted\n0\n1\n2\n");
}

/// "Turned away: no new number." A refusal has no finding, whatever came before it.
#[test]
fn a_refusal_has_no_rounds() {
    let accepted = Ok(found(&[0, 1, 2], 2));
    for (members, list, refusal) in [
        (Set::EMPTY, &[cap(1, WR)][..], TestRefusal::MembersInvalid),
        (set(&[5]), &[cap(1, 0)], TestRefusal::ListInvalid),
        (set(&[5]), &[cap(0, WR)], TestRefusal::RightUnlisted),
    ] {
        assert_eq!(k().test(set(&[5]), &[cap(1, WR)]), accepted);
        assert_eq!(k().test(members, list), Err(refusal));
    }
}
