//! The twelve examples of document 01, each asserted in full; example 2 as 2.3 of document 02 amends it,
//! example 6 with the maker of 2.7, example 12 in both versions. All start from table K.

mod input;

use input::input_of;
use yavrinks_model::access::potential_access;
use yavrinks_model::confine::confine;
use yavrinks_model::confinement::{confinement_test, Entry};
use yavrinks_model::image::{encode, read, Version};
use yavrinks_model::set;
use yavrinks_model::step::{step, step_in_place, weaken, Request};
use yavrinks_model::table::{Capability, Record, Table};
use yavrinks_model::table::{ACTIVE, ALIVE, ALL_RIGHTS, RD, TX, WK, WR};

/// What `confine` prints for a table, members and a list.
fn printed(table: &Table, members: &[u8], list: &[Entry]) -> String {
    let image = encode(Version::One, table);
    confine(&input_of(&image, set::of(members), list))
}

/// Asserts number and bound of a test on table K after a change, and the text of the program.
fn assert_test(table: &Table, members: &[u8], list: &[Entry], number: u8, bound: &[u8]) {
    let tested = confinement_test(table, set::of(members), list);
    assert_eq!((tested.number, tested.bound), (number, set::of(bound)));
    let mut text = match number {
        0 => String::from("accepted\n"),
        _ => format!("refused {number}\n"),
    };
    for n in bound {
        text.push_str(&format!("{n}\n"));
    }
    assert_eq!(printed(table, members, list), text);
}

/// Asserts the reply to a request and the table after it, in both forms of the step.
fn assert_step(table: &Table, request: &Request, reply: u8, after: &Table) {
    assert_eq!(step(table, request), (reply, after.clone()));
    let mut lent = table.clone();
    assert_eq!(step_in_place(&mut lent, request), reply);
    assert_eq!(&lent, after);
}

#[test]
fn table_k_is_as_described() {
    let k = Table::k();
    assert!(k.is_sound());
    let record = |kind, stock: &[u8], slots: &[(u8, u8)]| {
        let mut record = Record {
            status: ALIVE,
            kind,
            stock: set::of(stock),
            ..Record::UNBORN
        };
        for (slot, &(target, rights)) in record.slots.iter_mut().zip(slots) {
            *slot = Capability::new(target, rights);
        }
        record
    };
    let mut expected = vec![
        record(1, &[], &[(1, 1)]),
        record(0, &[], &[]),
        record(1, &[], &[(1, 4), (6, 4)]),
        record(0, &[], &[]),
        record(1, &[12], &[(3, 2)]),
        record(1, &[10, 11], &[(1, 2)]),
        record(0, &[], &[]),
    ];
    expected.resize(64, Record::UNBORN);
    assert_eq!(k.records.to_vec(), expected);
}

#[test]
fn example_01_write_reaches_reader_and_weak_reader() {
    assert_test(&Table::k(), &[5], &[(1, WR)], 0, &[0, 1, 2]);
    assert_eq!(
        printed(&Table::k(), &[5], &[(1, WR)]),
        "accepted\n0\n1\n2\n"
    );
}

#[test]
fn example_02_weak_right_has_empty_bound() {
    let mut table = Table::k();
    table.records[5].slots[0] = Capability::new(1, WK);
    assert_test(&table, &[5], &[(1, WK)], 0, &[]);
    assert_test(&table, &[5], &[], 0, &[]);
}

#[test]
fn example_03_empty_list_is_refused_12() {
    assert_test(&Table::k(), &[5], &[], 12, &[]);
}

#[test]
fn example_04_named_member_is_refused_13() {
    let mut table = Table::k();
    table.records[0].slots[1] = Capability::new(5, WK);
    assert_test(&table, &[5], &[(1, WR)], 13, &[]);
}

#[test]
fn example_05_members_empty_or_unborn_are_refused_10() {
    assert_test(&Table::k(), &[], &[(1, WR)], 10, &[]);
    assert_test(&Table::k(), &[], &[], 10, &[]);
    assert_test(&Table::k(), &[10], &[(1, WR)], 10, &[]);
    assert_test(&Table::k(), &[10], &[], 10, &[]);
}

fn allocate(n: u8) -> Request {
    Request::Allocate {
        actor: 5,
        n,
        kind: ACTIVE,
        part: set::of([11]),
        i: 7,
        list: vec![],
    }
}

#[test]
fn example_06_allocate_is_done() {
    let mut after = Table::k();
    after.records[10].status = ALIVE;
    after.records[10].kind = ACTIVE;
    after.records[10].stock = set::of([11]);
    after.records[10].maker = 5;
    after.records[5].stock = 0;
    after.records[5].slots[7] = Capability::new(10, ALL_RIGHTS);
    assert_step(&Table::k(), &allocate(10), 0, &after);
}

#[test]
fn example_07_allocate_outside_stock_is_refused_9() {
    assert_step(&Table::k(), &allocate(12), 9, &Table::k());
}

#[test]
fn example_08_weakening() {
    for target in [1, 9, 63] {
        let weakened = |rights| weaken(Capability::new(target, rights));
        assert_eq!(weakened(RD), Capability::new(target, WK));
        assert_eq!(weakened(ALL_RIGHTS), Capability::new(target, WK));
        assert_eq!(weakened(WR | TX), Capability::EMPTY);
    }
}

#[test]
fn example_09_write_needs_wr() {
    let write = |actor| Request::Write {
        actor,
        t: 0,
        word: 7,
    };
    let mut after = Table::k();
    after.records[3].word = 7;
    assert_step(&Table::k(), &write(4), 0, &after);
    assert_step(&Table::k(), &write(2), 6, &Table::k());
}

#[test]
fn example_10_checks_run_in_number_order() {
    let read = |actor, t| Request::Read { actor, t };
    assert_step(&Table::k(), &read(1, 8), 2, &Table::k());
    assert_step(&Table::k(), &read(1, 0), 3, &Table::k());
    assert_step(&Table::k(), &read(0, 5), 4, &Table::k());
}

#[test]
fn example_11_potential_access() {
    let (number, access) = potential_access(&Table::k());
    assert_eq!(number, 0);
    assert_eq!(access.rights[5][0], ALL_RIGHTS);
    assert_eq!(access.rights[2][1], WK);
    assert_eq!(access.rights[1][2], 0);
}

#[test]
fn example_12_image_length_and_version() {
    for (version, length) in [(Version::One, 1923), (Version::Two, 1987)] {
        let image = encode(version, &Table::k());
        assert_eq!(image.len(), length);
        assert_eq!(read(&image), (0, Table::k()));
        assert_eq!(read(&image[..1922]), (14, Table::unborn()));
        let mut other_version = image;
        other_version[2] = 0;
        assert_eq!(read(&other_version), (15, Table::unborn()));
    }
}
