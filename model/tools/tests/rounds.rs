//! How many rounds a test takes, in other ways than the model's: by the chains to all objects of the bound, by the
//! distances from the stand-in, and by what changes nothing. The cases of the program `vectors` and the shared ones
//! tell wrong readings apart.

use std::collections::BTreeMap;

use yavrinks_model::chain::chain;
use yavrinks_model::confine::confine;
use yavrinks_model::confinement::{confinement_test, Entry, Tested, MAX_ENTRIES};
use yavrinks_model::rounds::rounds;
use yavrinks_model::set;
use yavrinks_model::table::{Capability, Table, ALIVE, RD, SLOTS, TX, WK, WR};
use yavrinks_tools::generate::{
    born_non_members, confinement_case, encode_input, layered_case, layered_test, ConfinementCase,
    CONFINEMENT_NUMBERS,
};
use yavrinks_tools::misread_rounds::{Misreading, MISREADINGS};
use yavrinks_tools::rng::Rng;
use yavrinks_tools::shared::shared_rounds;
use yavrinks_tools::vectors::{rounds_cases, test_cases};

fn tested(case: &ConfinementCase) -> Tested {
    confinement_test(&case.table, case.members, &case.list)
}

/// Random accepted tests, every second one in layers.
fn accepted_cases(seed: u64, count: usize) -> impl Iterator<Item = ConfinementCase> {
    let mut rng = Rng::new(seed);
    (0..count).map(move |turn| match turn % 2 {
        0 => confinement_case(&mut rng, 0),
        _ => layered_test(&mut rng),
    })
}

/// The most links in any chain: a chain of k numbers has k of them.
fn most_links(case: &ConfinementCase) -> usize {
    let bound = tested(case).bound;
    let chains =
        set::numbers(bound).map(|object| chain(&case.table, case.members, &case.list, object));
    let links = chains.map(|(number, chain)| {
        assert_eq!(number, 0);
        chain.len()
    });
    links.max().unwrap_or(0)
}

/// The distances from the stand-in of all numbers that it leads to, each link tried for each number as often as
/// there are numbers.
fn distances(case: &ConfinementCase) -> BTreeMap<u8, u8> {
    let leads = |held: Capability| held.rights & !WK != 0;
    let mut distances = BTreeMap::new();
    for &(target, rights) in &case.list {
        if leads(Capability::new(target, rights)) {
            distances.insert(target, 1);
        }
    }
    for _ in 0..64 {
        for holder in (0..64).filter(|n| case.members >> n & 1 == 0) {
            for held in case.table.record(holder).capabilities() {
                shorten(&mut distances, held.target, holder);
                if leads(held) {
                    shorten(&mut distances, holder, held.target);
                }
            }
        }
    }
    distances
}

/// One link leads from the first number to the second.
fn shorten(distances: &mut BTreeMap<u8, u8>, from: u8, to: u8) {
    if let Some(&near) = distances.get(&from) {
        let far = distances.entry(to).or_insert(u8::MAX);
        *far = (*far).min(near + 1);
    }
}

#[test]
fn rounds_are_the_most_links_of_any_chain() {
    let mut counts: BTreeMap<u8, u32> = BTreeMap::new();
    for case in accepted_cases(60, 800) {
        let found = tested(&case);
        assert!(found.is_accepted());
        assert_eq!(usize::from(found.rounds), most_links(&case), "{case:?}");
        assert_eq!(found.rounds == 0, found.bound == 0);
        assert!(found.rounds <= 63 && u32::from(found.rounds) <= found.bound.count_ones());
        *counts.entry(found.rounds).or_default() += 1;
    }
    println!("{counts:?}");
    assert!((0..=14).all(|rounds| counts[&rounds] >= 2), "{counts:?}");
    assert!(counts[&0] > 80 && counts[&63] > 30, "{counts:?}");
}

/// After round k those objects are there that are at most k links from the stand-in, and after the last the bound.
#[test]
fn what_is_there_after_each_round_goes_by_the_distance() {
    for case in accepted_cases(61, 600) {
        let distances = distances(&case);
        let there = rounds(&case.table, case.members, &case.list);
        for (k, &there) in (1..).zip(&there) {
            let near = distances.iter().filter(|(_, &links)| links <= k);
            assert_eq!(
                there,
                set::of(near.map(|(n, _)| n)),
                "round {k} of {case:?}"
            );
        }
        let found = tested(&case);
        assert_eq!(there.len(), usize::from(found.rounds));
        assert_eq!(there.last().copied().unwrap_or(0), found.bound);
        let growing = there
            .windows(2)
            .all(|two| set::is_within(two[0], two[1]) && two[0] != two[1]);
        assert!(growing);
    }
}

/// Layers are made so that the last one takes as many rounds as there are layers.
#[test]
fn as_many_rounds_as_layers() {
    let mut rng = Rng::new(62);
    for depth in 1..=63 {
        let widest = (63 / depth).min(4) as u64;
        let widths: Vec<usize> = (0..depth)
            .map(|_| rng.between(1, widest) as usize)
            .collect();
        let case = layered_case(&mut rng, &widths).test;
        assert_eq!(usize::from(tested(&case).rounds), depth);
    }
}

#[test]
fn a_refused_test_takes_no_round() {
    let mut rng = Rng::new(63);
    for aim in CONFINEMENT_NUMBERS.into_iter().filter(|&aim| aim != 0) {
        for _ in 0..300 {
            let case = confinement_case(&mut rng, aim);
            assert_eq!(tested(&case), Tested::empty(aim));
        }
    }
}

/// Entries with wk alone as long as the list has room, over non-members.
#[test]
fn entries_with_wk_alone_change_nothing() {
    let mut rng = Rng::new(64);
    let mut added = 0;
    for mut case in accepted_cases(65, 600) {
        let found = tested(&case);
        let outside = born_non_members(&case.table, case.members);
        while case.list.len() < MAX_ENTRIES && !outside.is_empty() {
            let entry = (rng.pick(&outside).expect("non-member"), WK);
            let place = rng.between(0, case.list.len() as u64) as usize;
            case.list.insert(place, entry);
            added += 1;
        }
        assert_eq!(tested(&case), found, "{case:?}");
    }
    assert!(added > 1000, "{added}");
}

/// Members hold nothing; then wk alone over non-members in every slot (2.3), and one another.
#[test]
fn what_members_hold_changes_nothing() {
    let mut rng = Rng::new(66);
    for case in accepted_cases(67, 600) {
        let found = tested(&case);
        let outside = born_non_members(&case.table, case.members);
        let members: Vec<u8> = set::numbers(case.members).collect();
        let (mut bare, mut full) = (case.clone(), case.clone());
        for &member in &members {
            bare.table.record_mut(member).slots = [Capability::EMPTY; SLOTS];
            for slot in 0..SLOTS {
                let other = Capability::new(rng.pick(&members).expect("member"), rng.byte(1, 15));
                let weak = rng.pick(&outside).map(|target| Capability::new(target, WK));
                let held = weak.filter(|_| rng.percent(70)).unwrap_or(other);
                full.table.record_mut(member).slots[slot] = held;
            }
        }
        for changed in [bare, full] {
            assert_eq!(tested(&changed), found, "{changed:?}");
        }
    }
}

/// A text of the bound alone, whatever the rounds are.
#[test]
fn confine_prints_as_before() {
    for case in accepted_cases(68, 300) {
        let numbers = set::numbers(tested(&case).bound).map(|n| format!("{n}\n"));
        let text: String = [String::from("accepted\n")]
            .into_iter()
            .chain(numbers)
            .collect();
        assert_eq!(confine(&encode_input(&case)), text);
    }
}

/// How many of the cases tell a reading from the right one.
fn telling<'a>(
    reading: &Misreading,
    cases: impl IntoIterator<Item = &'a ConfinementCase>,
) -> usize {
    let differs = |case: &&ConfinementCase| reading.rounds(case) != tested(case).rounds;
    cases.into_iter().filter(differs).count()
}

#[test]
fn the_cases_of_vectors_tell_wrong_readings_apart() {
    let (all, of_2_6) = (test_cases(), rounds_cases());
    let shared: Vec<ConfinementCase> = shared_rounds().into_iter().map(|one| one.test).collect();
    let by_hand: Vec<&ConfinementCase> = of_2_6
        .iter()
        .filter(|case| !shared.contains(case))
        .collect();
    assert_eq!((shared.len(), by_hand.len()), (160, of_2_6.len() - 28));
    for reading in MISREADINGS {
        let in_all = telling(&reading, &all);
        let in_hand = telling(&reading, by_hand.iter().copied());
        let in_shared = telling(&reading, &shared);
        println!(
            "{}: {in_all} of {}, {in_hand} by hand for it; {in_shared} of the 160 shared",
            reading.name,
            all.len()
        );
        assert!(in_hand >= 1 && in_all >= 5, "{}", reading.name);
    }
}

/// A small test of the member 60: who holds what, and the list.
fn small(held: &[(u8, u8, u8)], list: &[Entry]) -> ConfinementCase {
    let mut table = Table::unborn();
    for n in [1, 2, 3, 4, 60, 61] {
        table.record_mut(n).status = ALIVE;
    }
    for &(holder, target, rights) in held {
        let slots = &mut table.record_mut(holder).slots;
        let slot = slots.iter_mut().find(|slot| slot.is_empty());
        *slot.expect("empty slot") = Capability::new(target, rights);
    }
    ConfinementCase {
        table,
        members: set::of([60, 61]),
        list: list.to_vec(),
    }
}

/// What each wrong reading reports of small tests, by hand, and in the first row what is right. The tests are: 1 is
/// listed; nothing is; 1 and 2 are; a line upwards; the same line downwards; 2 has wk over 1; 1 has wk over 2; 1 has
/// rd over 2; a member holds an unlisted wr; a member holds wk over 1, which is listed, and another member; a member
/// holds wk over 3, which is not listed and leads to 4.
#[test]
fn each_wrong_reading_is_wrong_in_its_own_way() {
    let (up, down) = ([(1, 2, WR), (2, 3, WR)], [(3, 2, TX), (2, 1, TX)]);
    let cases = [
        small(&[], &[(1, WR)]),
        small(&[], &[]),
        small(&[], &[(1, WR), (2, TX)]),
        small(&up, &[(1, WR)]),
        small(&down, &[(3, WR)]),
        small(&[(2, 1, WK)], &[(1, WR)]),
        small(&[(1, 2, WK)], &[(1, WR)]),
        small(&[(1, 2, RD)], &[(1, WR)]),
        small(&[(60, 2, WR), (1, 2, WR)], &[(1, WR)]),
        small(&[(60, 1, WK), (60, 61, WR)], &[(1, WR)]),
        small(&[(60, 3, WK), (3, 4, WR)], &[(1, WR)]),
    ];
    let right = [1, 0, 1, 3, 3, 2, 1, 2, 0, 1, 1];
    assert_eq!(cases.each_ref().map(|case| tested(case).rounds), right);
    #[rustfmt::skip]
    let expected: [(&str, [u8; 11]); 16] = [
        ("counts the round that adds nothing",  [2, 1, 2, 4, 4, 3, 2, 3, 0, 2, 2]),
        ("starts at 1",                         [2, 1, 2, 4, 4, 3, 2, 3, 1, 2, 2]),
        ("counts objects",                      [1, 0, 2, 3, 3, 2, 1, 2, 0, 1, 1]),
        ("stops at the highest number",         [1, 0, 1, 3, 1, 2, 1, 2, 0, 1, 1]),
        ("grows in place, upwards",             [1, 0, 1, 1, 2, 1, 1, 1, 0, 1, 1]),
        ("grows in place, downwards",           [1, 0, 1, 2, 1, 1, 1, 1, 0, 1, 1]),
        ("takes wk from holder to target",      [1, 0, 1, 3, 3, 1, 2, 2, 0, 1, 1]),
        ("takes wk either way",                 [1, 0, 1, 3, 3, 2, 2, 2, 0, 1, 1]),
        ("takes rd as wk",                      [1, 0, 1, 3, 3, 2, 1, 1, 0, 1, 1]),
        ("keeps the counter of a refused test", [1, 0, 1, 3, 3, 2, 1, 2, 2, 1, 1]),
        ("counts the stand-in",                 [2, 0, 2, 3, 3, 2, 2, 2, 0, 2, 2]),
        ("goes through members",                [1, 0, 1, 3, 3, 2, 1, 2, 0, 3, 1]),
        ("goes by what members hold",           [0, 0, 0, 0, 0, 0, 0, 0, 0, 0, 0]),
        ("takes unlisted wk for an entry",      [1, 0, 1, 3, 3, 2, 1, 2, 0, 1, 2]),
        ("leaves the entry out",                [0, 0, 0, 2, 2, 1, 0, 1, 0, 0, 0]),
        ("counts to 62 at most",                [1, 0, 1, 3, 3, 2, 1, 2, 0, 1, 1]),
    ];
    for (reading, (name, expected)) in MISREADINGS.iter().zip(expected) {
        let reported = cases.each_ref().map(|case| reading.rounds(case));
        assert_eq!((reading.name, reported), (name, expected));
    }
}
