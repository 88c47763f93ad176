//! Confinement tests of 2.6: those of the shared vectors that take many rounds, and tables that are made by hand. In
//! these, numbers go up and down along lines, so that a round that grows in place is told apart in any order.

use crate::generate::{any_damage, ConfinementCase};
use crate::rng::Rng;
use crate::shared::shared_rounds;
use yavrinks_model::confinement::Entry;
use yavrinks_model::set;
use yavrinks_model::table::{Capability, Table};
use yavrinks_model::table::{ALIVE, ALL_RIGHTS, DEAD, RD, TX, WK, WR};

/// The shared tests with at least so many rounds are taken, since data has a limit.
const MANY: u8 = 4;

/// A capability as (holder, target, rights).
type Held = (u8, u8, u8);

/// Shared tests, then those that are made by hand.
pub fn rounds_cases() -> Vec<ConfinementCase> {
    let shared = shared_rounds().into_iter();
    let many = shared.filter(|shared| shared.rounds.is_some_and(|rounds| rounds >= MANY));
    let mut cases: Vec<ConfinementCase> = many.map(|shared| shared.test).collect();
    cases.extend(whole_lines());
    cases.extend(shorter_lines());
    cases.extend(over_the_first_and_the_last());
    cases.extend(side_by_side());
    cases.extend(rings());
    cases.extend(two_entries());
    cases.extend(weak_links());
    cases.extend(held_by_members());
    cases.extend(refused_lines());
    cases.push(dead_on_the_way());
    cases
}

/// The test of some members and the list. Members, holders, targets and what is listed are alive; each capability is
/// in the lowest slot that is left.
fn case_of(members: &[u8], held: &[Held], list: &[Entry]) -> ConfinementCase {
    let mut table = Table::unborn();
    let ends = held
        .iter()
        .flat_map(|&(holder, target, _)| [holder, target]);
    let listed = list.iter().map(|&(target, _)| target);
    for n in ends.chain(listed).chain(members.iter().copied()) {
        table.record_mut(n).status = ALIVE;
    }
    for &(holder, target, rights) in held {
        let mut slots = table.record_mut(holder).slots.iter_mut();
        let slot = slots.find(|slot| slot.is_empty()).expect("empty slot");
        *slot = Capability::new(target, rights);
    }
    ConfinementCase {
        table,
        members: set::of(members),
        list: list.to_vec(),
    }
}

/// Each number of a line holds the next one.
fn forth(line: &[u8], rights: u8) -> Vec<Held> {
    let pairs = line.windows(2);
    pairs.map(|two| (two[0], two[1], rights)).collect()
}

/// Each number of a line is held by the next one.
fn back(line: &[u8], rights: u8) -> Vec<Held> {
    let pairs = line.windows(2);
    pairs.map(|two| (two[1], two[0], rights)).collect()
}

/// All numbers but one, in ascending order.
fn all_but(member: u8) -> Vec<u8> {
    (0..64).filter(|&n| n != member).collect()
}

fn turned(line: &[u8]) -> Vec<u8> {
    line.iter().rev().copied().collect()
}

/// Lines of 63 numbers, up and down, by each right: as many rounds as there can be. The member is the last, the
/// first, or in between.
fn whole_lines() -> Vec<ConfinementCase> {
    let mut cases = Vec::new();
    for (member, links, rights) in [
        (63, forth as fn(&[u8], u8) -> Vec<Held>, WR),
        (0, back, WK),
        (31, forth, TX),
        (32, back, RD),
    ] {
        let up = all_but(member);
        for line in [turned(&up), up] {
            cases.push(case_of(&[member], &links(&line, rights), &[(line[0], RD)]));
        }
    }
    cases
}

/// Lines of 62 with the last number beside them, and one of 63 that is listed with wk alone.
fn shorter_lines() -> Vec<ConfinementCase> {
    let up = all_but(40);
    let mut cases = Vec::new();
    for line in [turned(&up), up] {
        let mut held = forth(&line[..62], WR);
        held.push((line[62], line[60], WK));
        cases.push(case_of(&[40], &held, &[(line[0], TX)]));
        cases.push(case_of(&[40], &back(&line, TX), &[(line[0], WK)]));
    }
    cases
}

/// Lines that go from low numbers to high ones and back: over all numbers, and over some with 0 and 63 in the middle.
fn over_the_first_and_the_last() -> [ConfinementCase; 2] {
    let zigzag: Vec<u8> = (0..32).flat_map(|n| [n, 63 - n]).collect();
    let few = [30, 0, 50, 63, 20, 40];
    [
        case_of(&[32], &forth(&zigzag[..63], WR), &[(0, WR)]),
        case_of(&[7], &back(&few, WK), &[(30, WR)]),
    ]
}

/// Several objects to a round: a ladder of 20 rungs, a full list of which each entry leads to seven others, and
/// diamonds one after the other.
fn side_by_side() -> [ConfinementCase; 3] {
    let (left, right): (Vec<u8>, Vec<u8>) = ((1..21).collect(), (41..61).rev().collect());
    let mut ladder = [forth(&left, RD), back(&right, TX)].concat();
    ladder.extend(left.iter().zip(&right).map(|(&n, &m)| (n, m, WR)));
    let fan: Vec<Held> = (8..63).map(|n| (n % 8, n, WR)).collect();
    let listed: Vec<Entry> = (0..8).map(|n| (n, TX)).collect();
    let diamonds: Vec<Held> = (0..10)
        .flat_map(|k| {
            let (from, to) = (60 - 3 * k, 57 - 3 * k);
            let (one, other) = (from - 1, from - 2);
            [
                (from, one, WR),
                (from, other, TX),
                (to, one, WK),
                (other, to, RD),
            ]
        })
        .collect();
    [
        case_of(&[0], &ladder, &[(1, WR)]),
        case_of(&[63], &fan, &listed),
        case_of(&[63], &diamonds, &[(60, WR)]),
    ]
}

/// Rings of six, of seven and of all numbers but the member's, gone round from both sides.
fn rings() -> [ConfinementCase; 3] {
    let ring = |member: u8, numbers: Vec<u8>| {
        let closed = [numbers.as_slice(), &numbers[..1]].concat();
        case_of(&[member], &forth(&closed, WR), &[(numbers[0], RD)])
    };
    [
        ring(50, (1..7).collect()),
        ring(50, (1..8).rev().collect()),
        ring(20, all_but(20)),
    ]
}

/// Lines with two entries: at both ends, and with the nearer one in the middle.
fn two_entries() -> [ConfinementCase; 2] {
    let up = all_but(10);
    let line: Vec<u8> = (20..40).rev().collect();
    [
        case_of(&[10], &forth(&up, TX), &[(63, WR), (0, WR)]),
        case_of(&[10], &back(&line, WR), &[(39, RD), (25, TX), (20, WK)]),
    ]
}

/// wk that would be a shorter way from holder to target, wk alone from the near end, and rd from either end.
fn weak_links() -> Vec<ConfinementCase> {
    let line: Vec<u8> = (1..9).collect();
    let shortcut = [forth(&line, WR), vec![(1, 8, WK), (2, 7, WK)]].concat();
    [
        shortcut,
        forth(&line, WK),
        forth(&line, RD),
        back(&line, RD),
    ]
    .map(|held| case_of(&[62], &held, &[(1, TX)]))
    .to_vec()
}

/// Members that hold one another, what is listed, and wk over others: none of it is a link, or the last member would
/// come a round after the line's end. Then members that hold nothing of what is listed, and one whose wk has no entry.
fn held_by_members() -> [ConfinementCase; 3] {
    let line = [5, 6];
    let members = [60, 61, 62];
    let of_members = vec![(60, 5, WR), (60, 61, RD), (61, 62, ALL_RIGHTS), (62, 6, WK)];
    let weak = vec![(60, 5, WK), (60, 6, WK)];
    [
        case_of(
            &members,
            &[forth(&line, WR), of_members].concat(),
            &[(5, WR)],
        ),
        case_of(&members, &forth(&line, WR), &[(6, RD)]),
        case_of(&[60], &[forth(&line, TX), weak].concat(), &[]),
    ]
}

/// A line of ten where the test is refused, once for each of its numbers.
fn refused_lines() -> [ConfinementCase; 5] {
    let line: Vec<u8> = (1..11).collect();
    let whole = case_of(&[50], &forth(&line, WR), &[(1, WR)]);
    let mut unsound = whole.clone();
    any_damage(&mut Rng::new(0x26), &mut unsound.table);
    let mut not_alive = whole.clone();
    not_alive.members |= set::single(51);
    let mut unborn_listed = whole.clone();
    unborn_listed.list.push((51, WR));
    let mut unlisted = whole.clone();
    unlisted.table.record_mut(50).slots[0] = Capability::new(1, WR | WK);
    let mut named = whole;
    named.table.record_mut(10).slots[0] = Capability::new(50, WK);
    [unsound, not_alive, unborn_listed, unlisted, named]
}

/// A dead object holds nothing, and leads on to who holds it.
fn dead_on_the_way() -> ConfinementCase {
    let held = [(4, 3, WR), (2, 3, TX), (2, 1, RD)];
    let mut case = case_of(&[60], &held, &[(4, WR)]);
    for dead in [1, 3] {
        case.table.record_mut(dead).status = DEAD;
    }
    case
}
