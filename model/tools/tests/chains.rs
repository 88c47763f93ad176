//! Chains, in other ways than the model's. On small tables all chains without a number twice are
//! listed by depth-first search, and the least of the shortest is taken. On every table a chain is held
//! to what it must be: links that are there, as many as the distance, and no lower number in any place.

use std::collections::BTreeMap;

use yavrinks_model::chain::chain;
use yavrinks_model::confinement::confinement_test;
use yavrinks_model::set;
use yavrinks_model::table::{Record, RD, TX, WR};
use yavrinks_tools::generate::{
    confinement_case, shown_case, ConfinementCase, ShownCase, SHOWN_NUMBERS,
};
use yavrinks_tools::rng::Rng;
use yavrinks_tools::vectors::shown_cases;

const POINTS: usize = 65;
const STAND_IN: usize = 64;

/// What is shown of an object.
fn shown(test: &ConfinementCase, object: u8) -> (u8, Vec<u8>) {
    chain(&test.table, test.members, &test.list, object)
}

/// Which points lead to which by one link.
struct Links([[bool; POINTS]; POINTS]);

impl Links {
    /// From x to y leads rd, wr or tx that x has over y, and any right that y has over x.
    fn of(test: &ConfinementCase) -> Links {
        let held = held_rights(test);
        let mut leads = [[false; POINTS]; POINTS];
        for (x, row) in leads.iter_mut().enumerate() {
            for (y, there) in row.iter_mut().enumerate() {
                *there = held[x][y] & (RD | WR | TX) != 0 || held[y][x] != 0;
            }
        }
        Links(leads)
    }

    /// The least number of links between two points, for all pairs (Floyd's method). A number that
    /// no chain has stands for none.
    fn distances(&self) -> Vec<[usize; POINTS]> {
        let mut distances = vec![[1000; POINTS]; POINTS];
        for (x, row) in distances.iter_mut().enumerate() {
            for (y, distance) in row.iter_mut().enumerate() {
                if x == y {
                    *distance = 0;
                } else if self.0[x][y] {
                    *distance = 1;
                }
            }
        }
        for middle in 0..POINTS {
            let on = distances[middle];
            for row in &mut distances {
                let to_middle = row[middle];
                for (distance, more) in row.iter_mut().zip(on) {
                    *distance = (*distance).min(to_middle + more);
                }
            }
        }
        distances
    }

    /// Every chain of `left` more links from the last point of `walk` to the object, with no point twice.
    fn chains(&self, walk: &mut Vec<usize>, object: usize, left: usize, found: &mut Vec<Vec<u8>>) {
        let last = *walk.last().expect("the stand-in");
        if left == 0 {
            if last == object {
                found.push(walk[1..].iter().map(|&point| point as u8).collect());
            }
            return;
        }
        for next in 0..POINTS {
            if self.0[last][next] && !walk.contains(&next) {
                walk.push(next);
                self.chains(walk, object, left - 1, found);
                walk.pop();
            }
        }
    }

    /// All of the shortest chains to an object that has one.
    fn shortest(&self, object: u8) -> Vec<Vec<u8>> {
        for length in 1..POINTS {
            let mut found = Vec::new();
            self.chains(&mut vec![STAND_IN], usize::from(object), length, &mut found);
            if !found.is_empty() {
                return found;
            }
        }
        panic!("no chain leads to {object}");
    }
}

/// The rights that each point has over each: those in slots of non-members, and the listed ones.
fn held_rights(test: &ConfinementCase) -> Vec<[u8; POINTS]> {
    let mut held = vec![[0; POINTS]; POINTS];
    for (n, record) in test.table.records.iter().enumerate() {
        if test.members >> n & 1 == 0 {
            for slot in record.slots {
                held[n][usize::from(slot.target)] |= slot.rights;
            }
        }
    }
    for &(target, rights) in &test.list {
        held[STAND_IN][usize::from(target)] |= rights;
    }
    held
}

/// An accepted test with at most so many objects in its bound, and one of these.
fn small_case(rng: &mut Rng, most: u32) -> ShownCase {
    loop {
        let case = shown_case(rng, 0);
        let test = &case.test;
        let bound = confinement_test(&test.table, test.members, &test.list).bound;
        if bound.count_ones() <= most {
            return case;
        }
    }
}

/// The least of the chains when compared from the object's end.
fn first_from_the_object(chains: &[Vec<u8>]) -> &Vec<u8> {
    let backwards = |chain: &&Vec<u8>| chain.iter().rev().copied().collect::<Vec<u8>>();
    chains.iter().min_by_key(backwards).expect("a chain")
}

#[test]
fn chains_are_the_least_of_all_shortest_ones() {
    let mut rng = Rng::new(60);
    let (mut competing, mut other_end) = (0, 0);
    for _ in 0..1200 {
        let case = small_case(&mut rng, 16);
        let chains = Links::of(&case.test).shortest(case.object);
        let first = chains.iter().min().expect("a chain");
        assert_eq!(shown(&case.test, case.object), (0, first.clone()));
        competing += u32::from(chains.len() > 1);
        other_end += u32::from(first_from_the_object(&chains) != first);
    }
    println!("{competing} competing, {other_end} with another from the object's end");
    assert!(competing > 300 && other_end > 50);
}

/// Fails unless every link is there, there are as few as can be, and in no place a lower number leads to
/// the object with the links that are left. Tells whether a higher one would.
fn expect_first(test: &ConfinementCase, object: u8, chain: &[u8]) -> bool {
    let links = Links::of(test);
    let distances = links.distances();
    let object = usize::from(object);
    assert_eq!(chain.len(), distances[STAND_IN][object]);
    assert_eq!(chain.last().map(|&n| usize::from(n)), Some(object));
    let mut at = STAND_IN;
    let mut competing = false;
    for (k, &next) in chain.iter().enumerate() {
        let next = usize::from(next);
        let left = chain.len() - k - 1;
        let would_do = |n: &usize| links.0[at][*n] && distances[*n][object] == left;
        assert_eq!((0..POINTS).find(would_do), Some(next), "{chain:?}, {k}");
        competing |= (next + 1..POINTS).any(|n| would_do(&n));
        at = next;
    }
    competing
}

#[test]
fn chains_are_links_and_no_lower_number_would_do() {
    let mut rng = Rng::new(61);
    let mut lengths = BTreeMap::new();
    let mut competing = 0;
    for _ in 0..600 {
        let case = shown_case(&mut rng, 0);
        let (number, chain) = shown(&case.test, case.object);
        assert_eq!(number, 0);
        competing += u32::from(expect_first(&case.test, case.object, &chain));
        *lengths.entry(chain.len()).or_insert(0) += 1;
    }
    let long: u32 = lengths.range(20..).map(|(_, count)| count).sum();
    println!("{competing} competing, {lengths:?}");
    assert!(competing > 200 && lengths.len() > 20 && long > 20);
}

/// The cases of the program `vectors`.
#[test]
fn shown_chains_compete() {
    let (mut accepted, mut competing) = (0, 0);
    for case in shown_cases() {
        let (number, chain) = shown(&case.test, case.object);
        if number == 0 {
            accepted += 1;
            competing += u32::from(expect_first(&case.test, case.object, &chain));
        }
    }
    println!("{competing} of {accepted} compete");
    assert!(competing > 30);
}

#[test]
fn chains_exist_for_the_bound_and_for_nothing_else() {
    let mut rng = Rng::new(62);
    let (mut inside, mut outside) = (0, 0);
    for round in 0..60 {
        let test = match round % 3 {
            0 => shown_case(&mut rng, 0).test,
            1 => shown_case(&mut rng, 19).test,
            _ => confinement_case(&mut rng, 0),
        };
        let bound = confinement_test(&test.table, test.members, &test.list).bound;
        let distances = Links::of(&test).distances();
        for object in (0..64).filter(|&n| test.table.is_born(n)) {
            let (number, chain) = shown(&test, object);
            let reached = distances[STAND_IN][usize::from(object)] < POINTS;
            assert_eq!(number == 0, set::contains(bound, object));
            assert_eq!(number == 0, reached);
            assert_eq!(chain.is_empty(), !reached);
            inside += u32::from(reached);
            outside += u32::from(!reached);
        }
    }
    assert!(
        inside > 300 && outside > 300,
        "{inside} inside, {outside} outside"
    );
}

#[test]
fn no_byte_of_a_member_enters_a_chain() {
    let mut rng = Rng::new(63);
    for _ in 0..200 {
        let case = shown_case(&mut rng, 0);
        let first = shown(&case.test, case.object);
        let mut other = case.test.clone();
        for member in set::numbers(case.test.members) {
            let record = other.table.record_mut(member);
            record.word ^= rng.bits() as u32;
            record.kind ^= rng.byte(0, 1);
            record.stock = 0;
            record.slots = Record::UNBORN.slots;
        }
        assert_eq!(shown(&other, case.object), first);
        assert!(first.1.iter().all(|&n| !set::contains(other.members, n)));
    }
}

/// Why an object is refused by 18, or that it is not.
fn form_of_18(case: &ShownCase) -> &'static str {
    match case.object {
        64.. => "above 63",
        n if set::contains(case.test.members, n) => "member",
        n if !case.test.table.is_born(n) => "unborn",
        _ => "none",
    }
}

#[test]
fn every_number_is_reached_and_refusals_show_nothing() {
    let mut rng = Rng::new(64);
    let mut forms = BTreeMap::new();
    for aim in SHOWN_NUMBERS {
        for _ in 0..200 {
            let case = shown_case(&mut rng, aim);
            let (number, chain) = shown(&case.test, case.object);
            assert_eq!(number, aim, "{case:?}");
            assert_eq!(chain.is_empty(), number != 0);
            *forms.entry((number, form_of_18(&case))).or_insert(0) += 1;
        }
    }
    println!("{forms:?}");
    for number in SHOWN_NUMBERS {
        let of = |form| forms.get(&(number, form)).copied().unwrap_or(0);
        let refused = ["above 63", "member", "unborn"].map(of);
        match number {
            0 | 19 => assert!(refused.iter().all(|&count| count == 0)),
            _ => assert!(refused.iter().all(|&count| count > 5), "{forms:?}"),
        }
        assert_eq!(of("none") == 0, number == 18);
    }
}
