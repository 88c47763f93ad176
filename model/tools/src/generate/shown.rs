//! Random questions for a chain, each aimed at an answer: a test, and the object that is asked about.
//! Half of the accepted tests are in layers, so that chains are long and several of one length compete.

use super::confinement::{born_non_members, confinement_case, ConfinementCase};
use super::tables::{any_word, numbers_where};
use crate::rng::Rng;
use yavrinks_model::confinement::{confinement_test, Entry, MAX_ENTRIES};
use yavrinks_model::set;
use yavrinks_model::table::{Capability, Record, Table, OBJECTS, SLOTS};
use yavrinks_model::table::{ALIVE, ALL_RIGHTS, DEAD, RD, TX, WK, WR};

/// A test and the object whose chain is asked for.
#[derive(Clone, Debug, PartialEq, Eq)]
pub struct ShownCase {
    pub test: ConfinementCase,
    pub object: u8,
}

/// The numbers that the question can be answered with.
pub const SHOWN_NUMBERS: [u8; 8] = [0, 1, 10, 11, 12, 13, 18, 19];

/// A case that is answered with `aim`.
pub fn shown_case(rng: &mut Rng, aim: u8) -> ShownCase {
    assert!(SHOWN_NUMBERS.contains(&aim), "no question gets {aim}");
    loop {
        if let Some(case) = try_case(rng, aim) {
            return case;
        }
    }
}

/// A case, or none if the random table has no object that it needs.
fn try_case(rng: &mut Rng, aim: u8) -> Option<ShownCase> {
    let mut case = match aim {
        0 | 18 | 19 => accepted_case(rng)?,
        _ => refused_case(rng, aim),
    };
    match aim {
        18 => case.object = not_born_non_member(rng, &case.test)?,
        19 => case.object = outside_bound(rng, &case.test)?,
        _ => {}
    }
    Some(case)
}

/// A case that the test refuses. Half of the objects would be refused as well.
fn refused_case(rng: &mut Rng, aim: u8) -> ShownCase {
    let test = confinement_case(rng, aim);
    let object = if rng.percent(50) {
        not_born_non_member(rng, &test)
    } else {
        rng.pick(&born_non_members(&test.table, test.members))
    };
    let object = object.unwrap_or_else(|| rng.byte(0, 255));
    ShownCase { test, object }
}

/// A case with an object of the bound. None if the bound is empty.
fn accepted_case(rng: &mut Rng) -> Option<ShownCase> {
    if rng.percent(50) {
        let widths = random_widths(rng);
        return Some(layered_case(rng, &widths));
    }
    let test = confinement_case(rng, 0);
    let object = rng.pick(&bound_of(&test))?;
    Some(ShownCase { test, object })
}

fn bound_of(test: &ConfinementCase) -> Vec<u8> {
    let tested = confinement_test(&test.table, test.members, &test.list);
    set::numbers(tested.bound).collect()
}

/// A number above 63, an unborn one or a member. Some of those above 63 are a born non-member in their
/// low bits.
fn not_born_non_member(rng: &mut Rng, test: &ConfinementCase) -> Option<u8> {
    let outside = born_non_members(&test.table, test.members);
    match rng.between(0, 3) {
        0 => Some(rng.byte_above(63)),
        1 => Some(rng.pick(&outside)? + 64 * rng.byte(1, 3)),
        2 => rng.pick(&numbers_where(&test.table, |record| !record.is_born())),
        _ => rng.pick(&set::numbers(test.members).collect::<Vec<u8>>()),
    }
}

/// A born non-member outside the bound.
fn outside_bound(rng: &mut Rng, test: &ConfinementCase) -> Option<u8> {
    let bound = bound_of(test);
    let mut outside = born_non_members(&test.table, test.members);
    outside.retain(|n| !bound.contains(n));
    rng.pick(&outside)
}

/// Few layers or many, of one width or of several.
fn random_widths(rng: &mut Rng) -> Vec<usize> {
    let widest = rng.between(1, 4);
    let narrowest = rng.between(1, widest);
    let deepest = if rng.percent(50) { 6 } else { 63 / widest };
    let depth = rng.between(1, deepest);
    (0..depth)
        .map(|_| rng.between(narrowest, widest) as usize)
        .collect()
}

/// An accepted test in layers. Every eighth takes as many rounds as there can be.
pub fn layered_test(rng: &mut Rng) -> ConfinementCase {
    let widths = match rng.between(0, 7) {
        0 => vec![1; OBJECTS - 1],
        _ => random_widths(rng),
    };
    layered_case(rng, &widths).test
}

/// An accepted test in layers, with an object of the last layer. The stand-in leads to all objects of
/// the first layer, and every object of a later one can be reached from some of the layer before. There
/// is a layer at least; each has 1 to 4 objects, and all of them have at most 63.
pub fn layered_case(rng: &mut Rng, widths: &[usize]) -> ShownCase {
    let layers = Layers::random(rng, widths);
    let list = layers.list(rng);
    let table = layers.table(rng, &list);
    let test = ConfinementCase {
        table,
        members: set::of(&layers.members),
        list,
    };
    let last = layers.objects.last().expect("a layer");
    let object = rng.pick(last).expect("an object in each layer");
    ShownCase { test, object }
}

/// Who is who in a test in layers.
struct Layers {
    /// The bound, by the length of an object's chain.
    objects: Vec<Vec<u8>>,
    members: Vec<u8>,
    /// Alive, and outside the bound.
    others: Vec<u8>,
}

impl Layers {
    /// Random numbers for all of them. Some numbers are left unborn.
    fn random(rng: &mut Rng, widths: &[usize]) -> Layers {
        let mut numbers: Vec<u8> = (0..64).collect();
        rng.shuffle(&mut numbers);
        let objects: Vec<Vec<u8>> = widths
            .iter()
            .map(|&width| numbers.drain(..width).collect())
            .collect();
        let count = rng.between(1, numbers.len().min(3) as u64) as usize;
        let members = numbers.drain(..count).collect();
        let others = rng.between(0, numbers.len() as u64) as usize;
        numbers.truncate(others);
        Layers {
            objects,
            members,
            others: numbers,
        }
    }

    /// The first layer with rights that lead there, and entries with wk, which lead nowhere.
    fn list(&self, rng: &mut Rng) -> Vec<Entry> {
        let first = &self.objects[0];
        let mut list: Vec<Entry> = first.iter().map(|&n| (n, leading_rights(rng))).collect();
        let all = [self.objects.concat(), self.others.clone()].concat();
        while list.len() < MAX_ENTRIES && rng.percent(50) {
            list.extend(rng.pick(&all).map(|n| (n, WK)));
        }
        rng.shuffle(&mut list);
        list
    }

    /// The table. An object that holds nothing may be dead as well.
    fn table(&self, rng: &mut Rng, list: &[Entry]) -> Table {
        let mut table = Table::unborn();
        let outside = [self.objects.concat(), self.others.clone()].concat();
        for &n in outside.iter().chain(&self.members) {
            let record = table.record_mut(n);
            record.status = ALIVE;
            record.kind = rng.byte(0, 1);
        }
        self.add_links(rng, &mut table);
        self.add_detours(rng, &mut table);
        self.add_held_by_members(rng, &mut table, list);
        for n in outside {
            let record = table.record_mut(n);
            if record.slots == Record::UNBORN.slots && rng.percent(40) {
                record.status = DEAD;
            } else {
                record.word = any_word(rng);
            }
        }
        table
    }

    /// Links every object to some of the layer before. With at most 4 objects to a layer, the slots
    /// suffice.
    fn add_links(&self, rng: &mut Rng, table: &mut Table) {
        for two in self.objects.windows(2) {
            for &to in &two[1] {
                for from in some_of(rng, &two[0]) {
                    link(rng, table, from, to);
                }
            }
        }
    }

    /// Adds what makes no chain shorter: any rights within a layer, and wk that names an object further
    /// off or outside the bound.
    fn add_detours(&self, rng: &mut Rng, table: &mut Table) {
        for (k, layer) in self.objects.iter().enumerate() {
            let further = [self.objects[k..].concat(), self.others.clone()].concat();
            for &holder in layer {
                if rng.percent(25) {
                    let rights = rng.byte(1, ALL_RIGHTS);
                    hold_any(rng, table, holder, layer, rights);
                }
                if rng.percent(50) {
                    hold_any(rng, table, holder, &further, WK);
                }
            }
        }
        for &holder in &self.others {
            let rights = rng.byte(0, ALL_RIGHTS);
            hold_any(rng, table, holder, &self.others, rights);
        }
    }

    /// Members hold some of what is listed, one another, and wk over anything, which leads nowhere.
    fn add_held_by_members(&self, rng: &mut Rng, table: &mut Table, list: &[Entry]) {
        let outside = [self.objects.concat(), self.others.clone()].concat();
        for &member in &self.members {
            for &(target, listed) in list {
                let rights = listed & rng.byte(0, ALL_RIGHTS);
                hold_any(rng, table, member, &[target], rights);
            }
            let rights = rng.byte(0, ALL_RIGHTS);
            hold_any(rng, table, member, &self.members, rights);
            for _ in 0..rng.between(0, 2) {
                hold_any(rng, table, member, &outside, WK);
            }
        }
    }
}

/// One of the numbers at least, in any order.
fn some_of(rng: &mut Rng, numbers: &[u8]) -> Vec<u8> {
    let mut some = numbers.to_vec();
    rng.shuffle(&mut some);
    some.truncate(rng.between(1, numbers.len() as u64) as usize);
    some
}

/// Rights that lead from holder to target: rd, wr or tx, and any others.
fn leading_rights(rng: &mut Rng) -> u8 {
    let one = rng.pick(&[RD, WR, TX]).unwrap_or(RD);
    let more = rng.pick(&[0, ALL_RIGHTS]).unwrap_or(0);
    one | more & rng.byte(0, ALL_RIGHTS)
}

/// A capability that leads from one object to the other, held by either.
fn link(rng: &mut Rng, table: &mut Table, from: u8, to: u8) {
    if rng.percent(50) {
        let rights = leading_rights(rng);
        hold_any(rng, table, from, &[to], rights);
    } else {
        let any = rng.byte(1, ALL_RIGHTS);
        let rights = rng.pick(&[WK, any]).unwrap_or(WK);
        hold_any(rng, table, to, &[from], rights);
    }
}

/// Puts a capability to one of the targets into an empty slot, if there is one. Rights 0 are none.
fn hold_any(rng: &mut Rng, table: &mut Table, holder: u8, targets: &[u8], rights: u8) {
    let slots = &mut table.record_mut(holder).slots;
    let empty: Vec<usize> = (0..SLOTS).filter(|&k| slots[k].is_empty()).collect();
    if let (Some(slot), Some(target)) = (rng.pick(&empty), rng.pick(targets)) {
        if rights != 0 {
            slots[slot] = Capability::new(target, rights);
        }
    }
}
