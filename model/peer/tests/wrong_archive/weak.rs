//! Archives that judge wk wrongly. Each takes the table or the list for another one and does the rest rightly,
//! in its tests, in its chains or in what `confine` prints; it is found out in each of them.

use captable::raw::{Capability, Finding, Shown, Table};
use yavrinks_model::set;
use yavrinks_model::table::{RD, WK, WR};
use yavrinks_peer::archive::{Archive, Calls};
use yavrinks_peer::convert::to_raw;
use yavrinks_peer::samples::material_test;

use super::is_found_in;

/// What a test is given.
#[derive(Clone)]
struct Given {
    table: Table,
    members: u64,
    list: Vec<u8>,
}

/// What a sound table with its members and its list is taken for.
type Takes = fn(&mut Given);

impl Given {
    /// As it is taken.
    fn taken(takes: Takes, table: &Table, members: u64, list: &[u8]) -> Given {
        let (table, list) = (*table, list.to_vec());
        let mut given = Given {
            table,
            members,
            list,
        };
        if Archive.sound(&mut given.table) == 0 {
            takes(&mut given);
        }
        given
    }

    fn test(&mut self) -> Finding {
        Archive.test(&mut self.table, self.members, &mut self.list)
    }

    /// What members hold over non-members.
    fn held_outside(&mut self) -> impl Iterator<Item = &mut Capability> {
        let members = self.members;
        held_by(&mut self.table, members).filter(move |held| !set::contains(members, held.target))
    }

    /// The targets of entries. One above 63 is refused by 11 in any case.
    fn named(&self) -> u64 {
        let targets = self.list.chunks(2).map(|entry| entry[0]);
        set::of(targets.filter(|&target| target < 64))
    }
}

/// The filled slots of some holders.
fn held_by(table: &mut Table, holders: u64) -> impl Iterator<Item = &mut Capability> {
    let slots = table.slots.chunks_mut(8).zip(0..64);
    let theirs = slots.filter(move |(_, n)| set::contains(holders, *n));
    theirs
        .flat_map(|(slots, _)| slots)
        .filter(|slot| slot.rights != 0)
}

struct Tests(Takes);

impl Calls for Tests {
    fn test(&self, table: &mut Table, members: u64, list: &mut [u8]) -> Finding {
        Given::taken(self.0, table, members, list).test()
    }
}

struct Chains(Takes);

impl Calls for Chains {
    fn chain(&self, table: &mut Table, members: u64, list: &mut [u8], object: u8) -> Shown {
        let mut given = Given::taken(self.0, table, members, list);
        Archive.chain(&mut given.table, members, &mut given.list, object)
    }
}

struct Confines(Takes);

impl Confines {
    /// The input as it is taken; none if it is refused before the test.
    fn taken(&self, input: &[u8]) -> Option<Vec<u8>> {
        let (image, rest) = input.split_at_checked(1923)?;
        let (members, rest) = rest.split_first_chunk::<8>()?;
        let (&count, list) = rest.split_first()?;
        let read = Archive.read(&mut image.to_vec());
        if read.number != 0 || list.len() != 2 * usize::from(count) {
            return None;
        }
        let mut given = Given::taken(self.0, &read.table, u64::from_be_bytes(*members), list);
        let mut other = vec![0; 1923];
        assert_eq!(Archive.write_older(&mut given.table, &mut other), 0);
        other.extend(members);
        other.push((given.list.len() / 2) as u8);
        other.extend(given.list);
        Some(other)
    }
}

impl Calls for Confines {
    fn confine(&self, input: &mut [u8], out: &mut [u8; 256]) -> usize {
        let other = self.taken(input);
        Archive.confine(&mut other.unwrap_or(input.to_vec()), out)
    }
}

/// Is an archive that takes this found out, whichever of the calls is wrong? Of a test, in this part.
#[track_caller]
fn is_found(takes: Takes, part: &str) {
    is_found_in(&Tests(takes), "captable_test", part);
    is_found_in(&Chains(takes), "captable_chain", "");
    is_found_in(&Confines(takes), "captable_confine", "");
}

fn rights_with_wk_pass(given: &mut Given) {
    for held in given.held_outside().filter(|held| held.rights & WK != 0) {
        held.rights = WK;
    }
}

#[test]
fn rights_that_contain_wk_and_pass_are_found() {
    is_found(rights_with_wk_pass, "number");
}

/// In the place of wk that is not listed, rd and wk, which do not pass there.
fn wk_needs_an_entry(given: &mut Given) {
    let entries = given.list.chunks_exact(2);
    let weak = entries.filter(|entry| entry[0] < 64 && entry[1] & WK != 0);
    let listed = set::of(weak.map(|entry| entry[0]));
    for held in given.held_outside() {
        if held.rights == WK && !set::contains(listed, held.target) {
            held.rights = RD | WK;
        }
    }
}

#[test]
fn wk_that_needs_an_entry_is_found() {
    is_found(wk_needs_an_entry, "number");
}

/// The same where no entry names its target, and nowhere else.
fn wk_passes_where_an_entry_names_its_target(given: &mut Given) {
    let named = given.named();
    for held in given.held_outside() {
        if held.rights == WK && !set::contains(named, held.target) {
            held.rights = RD | WK;
        }
    }
}

#[test]
fn wk_that_passes_only_where_an_entry_names_its_target_is_found() {
    is_found(wk_passes_where_an_entry_names_its_target, "number");
}

fn all_passes_with_an_empty_list(given: &mut Given) {
    if given.list.is_empty() {
        given.held_outside().for_each(|held| held.rights = WK);
    }
}

#[test]
fn an_empty_list_with_which_all_passes_is_found() {
    is_found(all_passes_with_an_empty_list, "number");
}

fn members_may_be_named_by_wk(given: &mut Given) {
    let members = given.members;
    for held in held_by(&mut given.table, !members) {
        if held.rights == WK && set::contains(members, held.target) {
            *held = Capability::EMPTY;
        }
    }
}

#[test]
fn wk_over_a_member_that_passes_13_is_found() {
    is_found(members_may_be_named_by_wk, "number");
}

/// Where the test is accepted, what a member holds with wk alone, and no entry names, is listed with wr, as
/// long as the list has room.
fn unlisted_wk_leads_to_its_target(given: &mut Given) {
    if given.test().number != 0 {
        return;
    }
    let named = given.named();
    let mut weak: Vec<u8> = given
        .held_outside()
        .filter(|held| held.rights == WK && !set::contains(named, held.target))
        .map(|held| held.target)
        .collect();
    weak.dedup();
    weak.truncate(8 - given.list.len() / 2);
    given
        .list
        .extend(weak.iter().flat_map(|&target| [target, WR]));
}

#[test]
fn a_bound_with_an_unlisted_wk_as_a_link_is_found() {
    is_found(unlisted_wk_leads_to_its_target, "bound");
}

/// Each wrong archive is wrong about what it is called after, and about nothing else: on eight members with wk
/// alone over all others and an empty list; with rd beside one wk; and with a member that another object holds
/// wk over.
#[test]
fn each_wrong_archive_is_wrong_in_its_own_way() {
    let case = material_test();
    let weak = to_raw(&case.table);
    let mut strong = weak;
    strong.slots[8 * 63].rights = RD | WK;
    let mut named = weak;
    named.slots[0] = Capability {
        target: 63,
        rights: WK,
    };
    let tables = [weak, strong, named];
    let right: Takes = |_| {};
    for (takes, expected) in [
        (right, [(0, 0), (12, 0), (13, 0)]),
        (rights_with_wk_pass, [(0, 0), (0, 0), (13, 0)]),
        (wk_needs_an_entry, [(12, 0), (12, 0), (12, 0)]),
        (
            wk_passes_where_an_entry_names_its_target,
            [(12, 0), (12, 0), (12, 0)],
        ),
        (all_passes_with_an_empty_list, [(0, 0), (0, 0), (13, 0)]),
        (members_may_be_named_by_wk, [(0, 0), (12, 0), (0, 0)]),
        // The first eight targets, 0 to 7, fit into the list.
        (
            unlisted_wk_leads_to_its_target,
            [(0, 255), (12, 0), (13, 0)],
        ),
    ] {
        let answers = tables.map(|mut table| {
            let found = Tests(takes).test(&mut table, case.members, &mut []);
            (found.number, found.bound)
        });
        assert_eq!(answers, expected);
    }
}
