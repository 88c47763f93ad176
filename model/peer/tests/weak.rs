//! Every rights value held by a member and every one listed, over two targets: the archive's tests and chains
//! are the model's, and what needs an entry is as document 02, 2.3, has it.

use yavrinks_model::confinement::Entry;
use yavrinks_model::set;
use yavrinks_model::table::{Capability, Table, ALIVE, WK};
use yavrinks_peer::archive::Archive;
use yavrinks_peer::differential::{compare_chain, compare_test};
use yavrinks_peer::samples::list_bytes;

/// The member, two targets, and one who reads the second of them through wk.
const MEMBER: u8 = 40;
const FIRST: u8 = 3;
const SECOND: u8 = 50;
const READER: u8 = 51;

/// A table with these objects. Rights 0 leave a slot empty.
fn table(over_first: u8, over_second: u8) -> Table {
    let mut table = Table::unborn();
    for n in [MEMBER, FIRST, SECOND, READER] {
        table.record_mut(n).status = ALIVE;
    }
    table.record_mut(READER).slots[2] = Capability::new(SECOND, WK);
    for (slot, target, rights) in [(0, FIRST, over_first), (7, SECOND, over_second)] {
        if rights != 0 {
            table.record_mut(MEMBER).slots[slot] = Capability::new(target, rights);
        }
    }
    table
}

/// An entry if there are rights for it.
fn entry(target: u8, rights: u8) -> Option<Entry> {
    (rights != 0).then_some((target, rights))
}

/// Does the capability need no more than is listed for its target?
fn passes(held: u8, listed: u8) -> bool {
    held == 4 || held & !listed == 0
}

/// The number of the test, the same on both sides, after the chains to all four were compared too.
fn number(table: &Table, list: &[Entry]) -> u8 {
    let (members, list) = (set::single(MEMBER), list_bytes(list));
    for object in [FIRST, SECOND, READER, MEMBER] {
        if let Err(difference) = compare_chain(&Archive, table, members, &list, object) {
            panic!("{difference}");
        }
    }
    match compare_test(&Archive, table, members, &list) {
        Ok(tested) => tested.number,
        Err(difference) => panic!("{difference}"),
    }
}

#[test]
fn every_rights_value_held_and_listed() {
    let mut accepted = 0;
    for held in 0..256_u32 {
        let (first, second) = (held as u8 % 16, held as u8 / 16);
        let table = table(first, second);
        for listed in 0..256_u32 {
            let (for_first, for_second) = (listed as u8 % 16, listed as u8 / 16);
            let entries = [entry(FIRST, for_first), entry(SECOND, for_second)];
            let list: Vec<Entry> = entries.into_iter().flatten().collect();
            let all = passes(first, for_first) && passes(second, for_second);
            let expected = if all { 0 } else { 12 };
            let told = number(&table, &list);
            assert_eq!(told, expected, "held {first}, {second}; list {list:?}");
            accepted += u32::from(all);
        }
    }
    // Of 16 values held and 16 listed, 81 have every right listed; 4 passes with the eight without wk as well.
    assert_eq!(accepted, (81 + 8) * (81 + 8));
}

/// "a non-member holds a capability naming a member", whatever its rights are.
#[test]
fn every_rights_value_over_the_member() {
    for rights in 1..=15 {
        for holder in [FIRST, READER] {
            let mut table = table(WK, WK);
            table.record_mut(holder).slots[5] = Capability::new(MEMBER, rights);
            assert_eq!(number(&table, &[]), 13, "{rights}");
            assert_eq!(number(&table, &[(FIRST, WK)]), 13, "{rights}");
        }
    }
}
