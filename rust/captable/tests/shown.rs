//! A table for a reader, and what the calls of the crate say of themselves.

mod common;

use captable::{confine, version, Capability, Record, Table};
use captable::{CONFINE_BYTES, DEAD, VERSION, WK, WR};
use common::{cap, k, set};

#[test]
fn a_table_shows_born_records_and_filled_slots_alone() {
    let mut table = Table::unborn();
    assert_eq!(format!("{table:?}"), "Table {}");
    *table.record_mut(6) = *k().record(6);
    table.record_mut(6).word = 7;
    table.record_mut(9).status = DEAD;
    table.record_mut(9).maker = 6;
    *table.slot_mut(6, 3) = cap(9, WR | WK);
    table.record_mut(6).stock = set(&[10, 63]);
    assert_eq!(
        format!("{table:?}"),
        "Table {6: alive passive, word 7, stock {10, 63}, slot 3 (9, wr+wk), 9: dead passive, made by 6}"
    );
}

#[test]
fn table_k_has_seven_lines() {
    let shown = format!("{:#?}", k());
    let lines: Vec<&str> = shown.lines().map(str::trim).collect();
    assert_eq!(
        lines,
        [
            "Table {",
            "0: alive active, slot 0 (1, rd),",
            "1: alive passive,",
            "2: alive active, slot 0 (1, wk), slot 1 (6, wk),",
            "3: alive passive,",
            "4: alive active, stock {12}, slot 0 (3, wr),",
            "5: alive active, stock {10, 11}, slot 0 (1, wr),",
            "6: alive passive,",
            "}",
        ]
    );
}

#[test]
fn what_makes_a_table_unsound_is_shown() {
    let mut table = Table::unborn();
    table.record_mut(20).word = 1;
    *table.slot_mut(21, 0) = cap(0, 16);
    table.record_mut(22).status = 3;
    table.record_mut(23).kind = 2;
    *table.slot_mut(24, 7) = cap(5, 0);
    table.record_mut(25).maker = 0;
    table.record_mut(26).maker = 65;
    assert!(!table.is_sound());
    assert_eq!(
        format!("{table:?}"),
        "Table {20: unborn passive, word 1, 21: unborn passive, slot 0 (0, 16), 22: status 3 passive, \
         23: unborn kind 2, 24: unborn passive, slot 7 (5, 0), 25: unborn passive, made by 0, \
         26: unborn passive, made by 65}"
    );
    assert_eq!(Capability::EMPTY.to_string(), "empty");
    assert_eq!(cap(1, 15).to_string(), "(1, rd+wr+wk+tx)");
}

#[test]
fn a_default_table_is_unborn_and_sound() {
    static FIRST: Table = Table::unborn();
    assert_eq!(Table::default(), FIRST);
    assert_eq!(Record::default(), *FIRST.record(63));
    assert!(FIRST.is_sound());
}

#[test]
fn the_linked_version_is_the_packages() {
    let parts: Vec<u32> = env!("CARGO_PKG_VERSION")
        .split('.')
        .map(|part| part.parse().expect("a number"))
        .collect();
    assert_eq!(VERSION, 65_536 * parts[0] + 256 * parts[1] + parts[2]);
    assert_eq!(version(), VERSION);
}

#[test]
fn what_confine_prints() {
    let mut input = k().to_older_image().expect("K is sound").to_vec();
    input.extend([0, 0, 0, 0, 0, 0, 0, 32, 1, 1, WR]);
    let printed = confine(&input);
    assert_eq!(printed.as_bytes(), b"accepted\n0\n1\n2\n"); // example 1
    assert!(printed.is_accepted());
    input.truncate(input.len() - 3);
    input.push(0);
    let printed = confine(&input);
    assert_eq!(printed.as_bytes(), b"refused 12\n"); // example 3
    assert!(!printed.is_accepted());
    // A count of 255 makes 2,442 bytes right, so one byte more is the first that no count does.
    input.resize(CONFINE_BYTES - 1, 0);
    input[1931] = 255;
    assert_eq!(confine(&input).as_bytes(), b"refused 11\n");
    input.push(0);
    for count in 0..=255 {
        input[1931] = count;
        assert_eq!(confine(&input).as_bytes(), b"refused 17\n");
    }
}
