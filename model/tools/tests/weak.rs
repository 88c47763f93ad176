//! What members may hold: refusal 12 in two ways, on random cases and on those of the program `vectors`.
//! The cases have wk alone and wk among other rights often enough, and tell wrong readings apart.

use std::collections::{BTreeMap, BTreeSet};

use yavrinks_model::confinement::{confinement_test, listed_rights, Entry, MAX_ENTRIES};
use yavrinks_model::set;
use yavrinks_model::table::{Capability, ALL_RIGHTS, WK};
use yavrinks_tools::generate::{confinement_case, ConfinementCase};
use yavrinks_tools::rng::Rng;
use yavrinks_tools::shared::shared_tests;
use yavrinks_tools::vectors::test_cases;

/// The number that the test gives.
fn number(case: &ConfinementCase) -> u8 {
    confinement_test(&case.table, case.members, &case.list).number
}

/// What members hold over non-members.
fn held_outside(case: &ConfinementCase) -> Vec<Capability> {
    set::numbers(case.members)
        .flat_map(|member| case.table.record(member).capabilities())
        .filter(|held| !set::contains(case.members, held.target))
        .collect()
}

/// The rights of a capability that are not listed for its target.
fn missing(list: &[Entry], held: Capability) -> u8 {
    held.rights & !listed_rights(list, held.target)
}

/// The targets that members hold wk alone over, without wk listed.
fn unlisted_targets(case: &ConfinementCase) -> u64 {
    let weak = |held: &Capability| held.rights == WK && missing(&case.list, *held) == WK;
    let unlisted = held_outside(case).into_iter().filter(weak);
    set::of(unlisted.map(|held| held.target))
}

/// The rights that are missing from the list in capabilities whose rights are other than exactly wk.
fn offending_rights(case: &ConfinementCase) -> u8 {
    let held = held_outside(case).into_iter();
    held.filter(|held| held.rights != WK)
        .fold(0, |all, held| all | missing(&case.list, held))
}

/// Refusal 12, right by right: the rights listed over each number, then every slot of a member. A single
/// wk passes; of anything else, all rights have to be listed.
fn some_right_is_unlisted(case: &ConfinementCase) -> bool {
    const WK_PLACE: usize = 2;
    let mut listed = [[false; 4]; 64];
    for &(target, rights) in &case.list {
        for (r, there) in listed[usize::from(target)].iter_mut().enumerate() {
            *there |= rights >> r & 1 == 1;
        }
    }
    let is_member = |n: usize| case.members >> n & 1 == 1;
    let members = (0..64).filter(|&n| is_member(n));
    let mut slots = members.flat_map(|n| case.table.records[n].slots);
    slots.any(|slot| {
        let target = usize::from(slot.target);
        let held: Vec<usize> = (0..4).filter(|r| slot.rights >> r & 1 == 1).collect();
        !is_member(target) && held != [WK_PLACE] && held.iter().any(|&r| !listed[target][r])
    })
}

/// Cases in which no check before 12 refuses, changed at random: rights in members' slots, and the last
/// entry.
#[test]
fn what_members_may_hold_agrees_right_by_right() {
    let mut rng = Rng::new(24);
    let mut numbers: BTreeMap<u8, u32> = BTreeMap::new();
    for turn in 0..6000 {
        let mut case = confinement_case(&mut rng, [0, 12, 13][turn % 3]);
        let members: Vec<u8> = set::numbers(case.members).collect();
        for _ in 0..rng.between(0, 2) {
            let member = rng.pick(&members).expect("member");
            let slot = &mut case.table.record_mut(member).slots[rng.between(0, 7) as usize];
            if slot.rights != 0 {
                slot.rights = rng.byte(1, ALL_RIGHTS);
            }
        }
        if rng.percent(30) {
            case.list.pop();
        }
        let found = number(&case);
        assert_eq!(found == 12, some_right_is_unlisted(&case), "{case:?}");
        *numbers.entry(found).or_default() += 1;
    }
    println!("{numbers:?}");
    assert!(numbers.keys().eq(&[0, 12, 13]));
    assert!(numbers.values().all(|&count| count > 500), "{numbers:?}");
}

#[test]
fn accepted_cases_have_unlisted_wk() {
    let mut rng = Rng::new(25);
    let (mut some, mut beside_entries, mut many) = (0, 0, 0);
    for _ in 0..1000 {
        let case = confinement_case(&mut rng, 0);
        assert_eq!(offending_rights(&case), 0);
        let targets = unlisted_targets(&case);
        some += u32::from(targets != 0);
        beside_entries += u32::from(targets != 0 && !case.list.is_empty());
        many += u32::from(targets.count_ones() as usize > MAX_ENTRIES);
    }
    println!("{some} with unlisted wk, {beside_entries} beside entries, {many} with many targets");
    assert!(some > 400 && some < 900 && beside_entries > 200 && many > 50);
}

#[test]
fn cases_of_12_have_an_offence_that_is_not_wk_alone() {
    let mut rng = Rng::new(26);
    let (mut for_want_of_wk, mut beside_weak) = (0, 0);
    for _ in 0..1000 {
        let case = confinement_case(&mut rng, 12);
        let offending = offending_rights(&case);
        assert_ne!(offending, 0, "{case:?}");
        for_want_of_wk += u32::from(offending == WK);
        beside_weak += u32::from(unlisted_targets(&case) != 0);
    }
    println!("{for_want_of_wk} for want of wk alone, {beside_weak} beside wk that passes");
    assert!(for_want_of_wk > 150 && beside_weak > 400);
}

#[test]
fn the_cases_of_vectors_have_wk_alone_and_among_other_rights() {
    let (mut accepted, mut many, mut for_want_of_wk) = (0, 0, 0);
    let mut alone = BTreeSet::new();
    for case in test_cases() {
        let number = number(&case);
        let targets = unlisted_targets(&case).count_ones() as usize;
        accepted += u32::from(number == 0 && targets > 0);
        many += u32::from(number == 0 && targets > MAX_ENTRIES);
        for_want_of_wk += u32::from(number == 12 && offending_rights(&case) == WK);
        if let ([held], true) = (held_outside(&case).as_slice(), case.list.is_empty()) {
            alone.insert((held.rights, number));
        }
    }
    println!("accepted with unlisted wk: {accepted}, with many targets: {many}");
    println!("12 for want of wk alone: {for_want_of_wk}");
    assert!(accepted >= 50 && many >= 5 && for_want_of_wk >= 12);
    for rights in 1..=ALL_RIGHTS {
        let number = if rights == WK { 0 } else { 12 };
        assert!(alone.contains(&(rights, number)), "{rights}");
    }
}

/// Whether a capability of a member passes, as somebody could read it.
type Reading = fn(&[Entry], Capability) -> bool;

/// Wrong readings of which capabilities pass.
const WRONG: [(&str, Reading); 9] = [
    ("none unlisted", |list, held| missing(list, held) == 0),
    ("wk among others unlisted", |list, held| {
        held.has_any(WK) || missing(list, held) == 0
    }),
    ("wk never listed", |list, held| {
        missing(list, held) & !WK == 0
    }),
    ("all with an empty list", |list, held| {
        list.is_empty() || held.rights == WK || missing(list, held) == 0
    }),
    ("any right alone", |list, held| {
        held.rights.count_ones() == 1 || missing(list, held) == 0
    }),
    ("wk alone without an entry", |list, held| {
        let named = listed_rights(list, held.target) != 0;
        held.rights == WK && !named || missing(list, held) == 0
    }),
    ("wk alone with an entry", |list, held| {
        let named = listed_rights(list, held.target) != 0;
        held.rights == WK && named || missing(list, held) == 0
    }),
    ("wk alone with an empty list", |list, held| {
        held.rights == WK && list.is_empty() || missing(list, held) == 0
    }),
    ("wk alone while there is room", |list, held| {
        held.rights == WK && list.len() < MAX_ENTRIES || missing(list, held) == 0
    }),
];

/// The number of the test under a reading. Only 12 changes, and what comes after it.
fn number_under(reading: Reading, case: &ConfinementCase) -> u8 {
    let mut held = held_outside(case).into_iter();
    let mut outside = set::numbers(!case.members).flat_map(|n| case.table.record(n).capabilities());
    match number(case) {
        0 | 12 | 13 if !held.all(|held| reading(&case.list, held)) => 12,
        0 | 12 | 13 if outside.any(|held| set::contains(case.members, held.target)) => 13,
        0 | 12 | 13 => 0,
        earlier => earlier,
    }
}

#[test]
fn the_cases_of_vectors_tell_wrong_readings_apart() {
    let cases = test_cases();
    let shared: Vec<ConfinementCase> = shared_tests().into_iter().map(|s| s.test).collect();
    let right: Reading = |list, held| held.rights == WK || missing(list, held) == 0;
    assert!(cases
        .iter()
        .all(|case| number_under(right, case) == number(case)));
    for (name, reading) in WRONG {
        let other = |case: &&ConfinementCase| number_under(reading, case) != number(case);
        let all = cases.iter().filter(other).count();
        let of_shared = shared.iter().filter(other).count();
        println!("{name}: {all}, {} of them not shared", all - of_shared);
        assert!(all - of_shared >= 3, "{name}");
    }
}
