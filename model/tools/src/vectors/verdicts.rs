//! Confinement tests: the shared test vectors, every verdict many times, lists of all lengths, what
//! members hold with wk, alone and among other rights, and tests of many rounds.

use super::rounds::rounds_cases;
use super::{layout, Part};
use crate::generate::{any_damage, confinement_case, ConfinementCase};
use crate::rng::Rng;
use crate::shared::{shared_tests, shared_tests_with_makers};
use yavrinks_model::confinement::{confinement_test, Entry, Tested};
use yavrinks_model::groups::test_by_groups;
use yavrinks_model::set;
use yavrinks_model::table::{Capability, Record, Table};
use yavrinks_model::table::{
    ACTIVE, ALIVE, ALL_RIGHTS, DEAD, PASSIVE, RD, SLOTS, TX, UNBORN, WK, WR,
};

/// Lengths of lists that are too long, up to what a count of one byte can say.
const LONG: [usize; 6] = [9, 10, 16, 100, 254, 255];

/// How often each verdict is aimed at. Cases made by hand and shared ones add to all of them.
const AIMS: [(u8, usize); 6] = [(0, 4), (1, 33), (10, 1), (11, 1), (12, 1), (13, 4)];

/// Every verdict, the shared tests, lists of all lengths, the first and the last of numbers and slots, wk in
/// what members hold, then tests of many rounds.
pub fn test_cases() -> Vec<ConfinementCase> {
    let mut rng = Rng::new(0x7E575);
    let mut cases = vec![ConfinementCase {
        table: Table::k(),
        members: set::single(5),
        list: vec![(1, WR)],
    }];
    for (aim, times) in AIMS {
        cases.extend((0..times).map(|_| confinement_case(&mut rng, aim)));
    }
    let shared = shared_tests().into_iter().chain(shared_tests_with_makers());
    cases.extend(shared.map(|shared| shared.test));
    cases.extend((0..=8).map(|length| with_list(&mut rng, length)));
    for length in LONG {
        cases.extend(long_lists(&mut rng, length));
    }
    for n in [0, 63] {
        cases.extend(edge_members(n));
        cases.extend(edge_holders(n));
        cases.extend(edge_lists(n));
    }
    cases.extend(all_rights_unlisted());
    cases.extend(only_wk_unlisted());
    cases.extend(wk_beside_entries());
    cases.extend([1, 2, 3, 4, 5, 7].map(dozens_of_wk));
    cases.extend(dozens_with_an_offence());
    cases.extend([ACTIVE, PASSIVE].map(wk_over_a_member));
    cases.extend(rounds_cases());
    cases
}

/// A test on which only the list decides: the members hold nothing outside.
fn with_list(rng: &mut Rng, length: usize) -> ConfinementCase {
    loop {
        let mut case = confinement_case(rng, 0);
        let members: Vec<u8> = set::numbers(case.members).collect();
        for n in members {
            case.table.record_mut(n).slots = Record::UNBORN.slots;
        }
        if let Some(list) = entries(rng, &case, length) {
            case.list = list;
            return case;
        }
    }
}

/// Valid entries, or none if there is no non-member to name.
fn entries(rng: &mut Rng, case: &ConfinementCase, length: usize) -> Option<Vec<Entry>> {
    let outside: Vec<u8> = set::numbers(!case.members)
        .filter(|&n| case.table.is_born(n))
        .collect();
    (0..length)
        .map(|_| Some((rng.pick(&outside)?, rng.byte(1, ALL_RIGHTS))))
        .collect()
}

/// A list that is too long, alone and beside the two offences that are checked before it.
fn long_lists(rng: &mut Rng, length: usize) -> [ConfinementCase; 3] {
    let long = with_list(rng, length);
    let mut nobody = with_list(rng, length);
    nobody.members = 0;
    let mut unsound = with_list(rng, length);
    any_damage(rng, &mut unsound.table);
    [long, nobody, unsound]
}

/// A table where `n`, 30 and 31 are alive and hold nothing.
fn three_alive(n: u8) -> Table {
    let mut table = Table::unborn();
    for number in [n, 30, 31] {
        table.record_mut(number).status = ALIVE;
    }
    table
}

/// The test of members {30} and the list, beside a first or last number.
fn case_of_30(table: Table, list: &[Entry]) -> ConfinementCase {
    ConfinementCase {
        table,
        members: set::single(30),
        list: list.to_vec(),
    }
}

/// A first or last number that is a member and unborn, dead, or alive.
fn edge_members(n: u8) -> Vec<ConfinementCase> {
    [UNBORN, DEAD, ALIVE]
        .into_iter()
        .map(|status| {
            let mut case = case_of_30(three_alive(n), &[(31, WR)]);
            case.table.record_mut(n).status = status;
            case.members |= set::single(n);
            case
        })
        .collect()
}

/// A first or last number that holds something unlisted as a member, that names the member from outside,
/// or that is named as one; each in the first and the last slot. With wk alone a member may hold it.
fn edge_holders(n: u8) -> Vec<ConfinementCase> {
    let mut cases = Vec::new();
    for slot in [0, 7] {
        for (holder, target, member) in [(n, 30, n), (n, 30, 30), (31, n, n), (30, n, 30)] {
            for rights in [WK, RD | WK] {
                let mut case = case_of_30(three_alive(n), &[(31, RD)]);
                case.members = set::single(member);
                case.table.record_mut(holder).slots[slot] = Capability::new(target, rights);
                cases.push(case);
            }
        }
    }
    cases
}

/// A first or last number in the list: in the bound, unborn, a member, or with rights that are
/// none; the last place of a full list is tried too.
fn edge_lists(n: u8) -> Vec<ConfinementCase> {
    let mut cases = Vec::new();
    for rights in [WR, TX, WK, 0, ALL_RIGHTS + 1] {
        let mut full = vec![(31, WK); 8];
        full[7] = (n, rights);
        cases.push(case_of_30(three_alive(n), &full));
    }
    let mut unborn = case_of_30(three_alive(n), &[(n, RD)]);
    unborn.table.record_mut(n).status = UNBORN;
    cases.push(unborn);
    let mut member = case_of_30(three_alive(n), &[(n, RD)]);
    member.members |= set::single(n);
    cases.push(member);
    cases
}

/// The test of members {30} and the list, where 30 holds the capability and 31 has all rights over 29.
fn case_of_holder(held: Capability, list: &[Entry]) -> ConfinementCase {
    let mut case = case_of_30(three_alive(29), list);
    case.table.record_mut(30).slots[3] = held;
    case.table.record_mut(31).slots[4] = Capability::new(29, ALL_RIGHTS);
    case
}

/// Every rights value, with an empty list.
fn all_rights_unlisted() -> Vec<ConfinementCase> {
    (1..=ALL_RIGHTS)
        .map(|rights| case_of_holder(Capability::new(31, rights), &[]))
        .collect()
}

/// Every rights value that has wk and others, with all of it listed but wk; for some, wk is listed for another
/// target.
fn only_wk_unlisted() -> Vec<ConfinementCase> {
    let with_others = (1..=ALL_RIGHTS).filter(|rights| rights & WK != 0 && rights & !WK != 0);
    let mut cases = Vec::new();
    for rights in with_others {
        let (held, listed) = (Capability::new(31, rights), (31, rights & !WK));
        cases.push(case_of_holder(held, &[listed]));
        if rights.count_ones() != 3 {
            cases.push(case_of_holder(held, &[(29, WK), listed]));
        }
    }
    cases
}

/// wk alone over a target that an entry names, with wk or without, and over one that no entry names, where the list
/// is full too; then beside a second capability over the same target, listed and not.
fn wk_beside_entries() -> Vec<ConfinementCase> {
    let weak = Capability::new(31, WK);
    let lists: [&[Entry]; 7] = [
        &[(31, WK)],
        &[(31, WR)],
        &[(31, WR), (31, WK)],
        &[(29, WR)],
        &[(29, WK)],
        &[(29, WK); 8],
        &[(29, WR); 8],
    ];
    let mut cases: Vec<ConfinementCase> = lists
        .into_iter()
        .map(|list| case_of_holder(weak, list))
        .collect();
    for list in [&[(31, TX)][..], &[(31, WK)]] {
        let mut case = case_of_holder(weak, list);
        case.table.record_mut(30).slots[5] = Capability::new(31, TX);
        cases.push(case);
    }
    cases
}

/// So many members with wk alone over a target in each of their slots, all targets different, and an
/// empty list. The members are the highest numbers.
fn dozens_of_wk(members: u8) -> ConfinementCase {
    let mut table = Table::unborn();
    let members: Vec<u8> = (64 - members..64).collect();
    let mut targets = 0..;
    for &member in &members {
        table.record_mut(member).status = ALIVE;
        for (slot, target) in (0..SLOTS).zip(&mut targets) {
            table.record_mut(target).status = ALIVE;
            table.record_mut(member).slots[slot] = Capability::new(target, WK);
        }
    }
    ConfinementCase {
        table,
        members: set::of(&members),
        list: Vec::new(),
    }
}

/// Dozens of wk, and one more right in the last slot of all; then wk from a target to a member.
fn dozens_with_an_offence() -> [ConfinementCase; 2] {
    let mut one_more = dozens_of_wk(3);
    one_more.table.record_mut(63).slots[7].rights |= RD;
    let mut named = dozens_of_wk(3);
    named.table.record_mut(23).slots[7] = Capability::new(63, WK);
    [one_more, named]
}

/// A non-member of the kind with wk alone over the member, which has wk alone over it.
fn wk_over_a_member(kind: u8) -> ConfinementCase {
    let mut case = case_of_holder(Capability::new(31, WK), &[]);
    case.table.record_mut(31).kind = kind;
    case.table.record_mut(31).slots[0] = Capability::new(30, WK);
    case
}

/// As the test is.
pub fn part() -> Part {
    worked(
        "confinement tests: case, number, rounds, bound",
        confinement_test,
    )
}

/// By groups, of the same cases.
pub fn by_groups_part() -> Part {
    worked(
        "the same by groups: case, number, rounds, bound",
        test_by_groups,
    )
}

fn worked(heading: &'static str, test: fn(&Table, u64, &[Entry]) -> Tested) -> Part {
    under(heading, |case| {
        let Tested {
            number,
            bound,
            rounds,
        } = test(&case.table, case.members, &case.list);
        format!("{number} {rounds} {bound:016x}")
    })
}

/// The file of the tests, with an answer to each of its cases.
pub(super) fn under(heading: &'static str, answer: impl Fn(&ConfinementCase) -> String) -> Part {
    let mut part = Part::new("tests", heading);
    let mut rng = Rng::new(0x7E576);
    for case in test_cases() {
        let mut bytes = layout::table(&case.table);
        bytes.extend(layout::members_and_list(&mut rng, case.members, &case.list));
        part.add(&bytes, answer(&case));
    }
    part
}
