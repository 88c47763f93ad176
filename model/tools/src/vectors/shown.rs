//! Chains shown: every answer many times, long chains, chains that compete, every right in both
//! directions, wk that a member holds, and the first and the last of numbers, slots and entries.

use super::{digest, layout, Part};
use crate::generate::{layered_case, shown_case, ConfinementCase, ShownCase};
use crate::rng::Rng;
use yavrinks_model::chain::chain;
use yavrinks_model::confinement::Entry;
use yavrinks_model::set;
use yavrinks_model::table::{Capability, Table};
use yavrinks_model::table::{ALIVE, DEAD, RD, TX, UNBORN, WK, WR};

/// The most numbers that a chain has: all objects but one member.
const CELLS: usize = 63;

/// How often each answer is aimed at.
const AIMS: [(u8, usize); 8] = [
    (0, 36),
    (1, 11),
    (10, 11),
    (11, 11),
    (12, 11),
    (13, 11),
    (18, 24),
    (19, 18),
];

/// The layers of long and of branching tests, each made twice.
const WIDTHS: [&[usize]; 11] = [
    &[1; 63],
    &[1; 62],
    &[2; 31],
    &[3; 21],
    &[4; 15],
    &[2; 8],
    &[3; 5],
    &[4; 6],
    &[4; 3],
    &[4, 1, 4, 1, 4],
    &[1, 4, 2, 4, 1],
];

/// Objects that no table has, among them 1 and 63 in their low bits.
const ABOVE: [u8; 6] = [64, 65, 127, 128, 193, 255];

/// The member of the cases that are made by hand.
const MEMBER: u8 = 31;

/// Every answer, then long chains and all that is made by hand.
pub fn shown_cases() -> Vec<ShownCase> {
    let mut rng = Rng::new(0x5404E);
    let mut cases = of_table_k();
    for (aim, times) in AIMS {
        cases.extend((0..times).map(|_| shown_case(&mut rng, aim)));
    }
    for widths in WIDTHS {
        cases.extend((0..2).map(|_| layered_case(&mut rng, widths)));
    }
    cases.extend(lines());
    cases.extend(competing());
    cases.extend(single_rights());
    cases.extend(held_by_the_member());
    cases.extend(first_and_last_places());
    for n in [0, 63] {
        cases.extend(edge_objects(n));
    }
    cases.extend([9, 16, 255].map(too_long));
    cases
}

/// Example 1: the objects of the bound, one outside it, the member, unborn numbers and what no table has.
fn of_table_k() -> Vec<ShownCase> {
    let objects = [0, 1, 2, 3, 5, 10, 63].into_iter().chain(ABOVE);
    let test = ConfinementCase {
        table: Table::k(),
        members: set::single(5),
        list: vec![(1, WR)],
    };
    objects
        .map(|object| ShownCase {
            test: test.clone(),
            object,
        })
        .collect()
}

/// A case of the member alone. All that a capability or the list names is alive, and so is the object;
/// a capability is (holder, slot, target, rights).
fn by_hand(held: &[(u8, usize, u8, u8)], list: &[Entry], object: u8) -> ShownCase {
    let mut table = Table::unborn();
    let ends = held
        .iter()
        .flat_map(|&(holder, _, target, _)| [holder, target]);
    let listed = list.iter().map(|&(target, _)| target);
    for n in ends.chain(listed).chain([object, MEMBER]) {
        table.record_mut(n).status = ALIVE;
    }
    for &(holder, slot, target, rights) in held {
        table.record_mut(holder).slots[slot] = Capability::new(target, rights);
    }
    ShownCase {
        test: ConfinementCase {
            table,
            members: set::single(MEMBER),
            list: list.to_vec(),
        },
        object,
    }
}

/// All numbers but the member's in one line, upwards and downwards, held from the near end and from the
/// far one.
fn lines() -> Vec<ShownCase> {
    let up: Vec<u8> = (0..64).filter(|&n| n != MEMBER).collect();
    let down: Vec<u8> = up.iter().rev().copied().collect();
    let mut cases = Vec::new();
    for line in [up, down] {
        let forth: Vec<_> = line.windows(2).map(|two| (two[0], 0, two[1], WR)).collect();
        let back: Vec<_> = line.windows(2).map(|two| (two[1], 7, two[0], WK)).collect();
        let list = [(line[0], TX)];
        cases.extend([forth, back].map(|held| by_hand(&held, &list, line[62])));
    }
    cases
}

/// Chains of one length, of which the first from the stand-in's end is given: it is not the first from
/// the object's end, nor the one that slots or entries have first; then a longer chain with lower
/// numbers, and a low number that leads nowhere.
fn competing() -> Vec<ShownCase> {
    let sides = [(2, 0, 9, WR), (9, 0, 20, WR), (3, 0, 4, WR), (4, 0, 20, WR)];
    let slots = [(1, 0, 5, WR), (1, 1, 4, WR), (5, 0, 9, WR), (4, 0, 9, WR)];
    let longer = [(1, 0, 2, WR), (2, 0, 9, WR), (9, 0, 8, WR), (1, 1, 8, WR)];
    let nowhere = [(1, 0, 2, WR), (1, 1, 3, WR), (3, 0, 9, WR), (2, 0, 4, RD)];
    vec![
        by_hand(&sides, &[(3, WR), (2, WR)], 20),
        by_hand(&slots, &[(1, WR)], 9),
        by_hand(&longer, &[(1, WR)], 8),
        by_hand(&nowhere, &[(1, WR)], 9),
    ]
}

/// Each right alone, held by the nearer object, by the farther one, and listed.
fn single_rights() -> Vec<ShownCase> {
    let mut cases = Vec::new();
    for rights in [RD, WR, WK, TX] {
        cases.push(by_hand(&[(1, 3, 2, rights)], &[(1, WR)], 2));
        cases.push(by_hand(&[(2, 3, 1, rights)], &[(1, WR)], 2));
        cases.push(by_hand(&[], &[(2, rights)], 2));
    }
    cases
}

/// What the member holds with wk alone leads nowhere, listed or not; the same object can be reached by
/// another entry. With rd beside it wk has to be listed, and nobody else may hold it over the member.
fn held_by_the_member() -> Vec<ShownCase> {
    let weak = [(MEMBER, 3, 1, WK), (1, 0, 2, WR)];
    vec![
        by_hand(&weak, &[], 1),
        by_hand(&weak, &[], 2),
        by_hand(&weak, &[(1, WK)], 2),
        by_hand(&weak, &[(2, RD)], 1),
        by_hand(&[(MEMBER, 3, 1, RD | WK)], &[(1, RD)], 1),
        by_hand(&[(MEMBER, 3, 1, WK), (1, 0, MEMBER, WK)], &[], 1),
    ]
}

/// The first and the last slot of the first and the last number, and the first and the last entry.
fn first_and_last_places() -> Vec<ShownCase> {
    let mut cases = Vec::new();
    for slot in [0, 7] {
        cases.push(by_hand(&[(0, slot, 63, RD)], &[(0, RD)], 63));
        cases.push(by_hand(&[(63, slot, 0, RD)], &[(0, RD)], 63));
        let mut full = [(40, WK); 8];
        full[slot] = (40, TX);
        cases.push(by_hand(&[], &full, 40));
    }
    cases
}

/// A first or last number that is asked about: listed, behind another, dead, outside the bound, unborn,
/// or a member; then as a part of a chain, alone and beside one that competes.
fn edge_objects(n: u8) -> Vec<ShownCase> {
    let mut dead = by_hand(&[(30, 0, n, WR)], &[(30, WR)], n);
    dead.test.table.record_mut(n).status = DEAD;
    let mut unborn = by_hand(&[], &[(30, WR)], n);
    unborn.test.table.record_mut(n).status = UNBORN;
    let mut member = by_hand(&[], &[(30, WR)], n);
    member.test.members |= set::single(n);
    vec![
        by_hand(&[], &[(n, RD)], n),
        by_hand(&[(n, 0, 30, WK)], &[(30, WR)], n),
        dead,
        by_hand(&[(30, 0, n, WK)], &[(30, WR)], n),
        unborn,
        member,
        by_hand(&[(n, 0, 30, WR)], &[(n, WR)], 30),
        by_hand(&[(30, 0, 40, WR), (40, 0, n, RD)], &[(30, WR), (n, WR)], 40),
    ]
}

/// A list that is too long, for an object that each of its entries leads to.
fn too_long(length: usize) -> ShownCase {
    by_hand(&[], &vec![(1, WR); length], 1)
}

/// Number, count and numbers of the chain, and the digest of the numbers with zeros after them.
fn answer(case: &ShownCase) -> String {
    let test = &case.test;
    let (number, chain) = chain(&test.table, test.members, &test.list, case.object);
    let mut cells = [0; CELLS];
    cells[..chain.len()].copy_from_slice(&chain);
    let mut words = vec![number.to_string(), chain.len().to_string()];
    words.extend(chain.iter().map(u8::to_string));
    words.push(digest::text(digest::of_bytes(&cells)));
    words.join(" ")
}

/// A case is a table, members and a list as for a test, and the object.
pub fn part() -> Part {
    let heading = "chains shown: case, number, count, numbers, digest of all 63";
    let mut part = Part::new("shown", heading);
    let mut rng = Rng::new(0x5404F);
    for case in shown_cases() {
        let test = &case.test;
        let mut bytes = layout::table(&test.table);
        bytes.extend(layout::members_and_list(&mut rng, test.members, &test.list));
        bytes.push(case.object);
        part.add(&bytes, answer(&case));
    }
    part
}
