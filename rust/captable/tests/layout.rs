//! The structs are laid out as `include/captable.h` asserts on the C side: sizes and offsets are written
//! here a second time, and the header's assertions are read and compared. So are the sizes that it defines.

use captable::raw::{Capability, Finding, Outcome, Record, Relation, Shown, Table};
use captable::{IMAGE_BYTES, IMPORT_BYTES, MAX_ENTRIES, MAX_LINKS, MAX_PAIRS, NO_MAKER};
use captable::{NO_REPLY, OLDER_IMAGE_BYTES, REQUEST_BYTES};
use std::mem::{align_of, offset_of, size_of};

#[test]
fn sizes_and_offsets() {
    assert_eq!(size_of::<Capability>(), 2);
    assert_eq!(offset_of!(Capability, target), 0);
    assert_eq!(offset_of!(Capability, rights), 1);
    assert_eq!(size_of::<Record>(), 16);
    assert_eq!(offset_of!(Record, status), 0);
    assert_eq!(offset_of!(Record, kind), 1);
    assert_eq!(offset_of!(Record, maker), 2);
    assert_eq!(offset_of!(Record, word), 4);
    assert_eq!(offset_of!(Record, stock), 8);
    assert_eq!(size_of::<Table>(), 2048);
    assert_eq!(align_of::<Table>(), 8);
    assert_eq!(offset_of!(Table, records), 0);
    assert_eq!(offset_of!(Table, slots), 1024);
    assert_eq!(size_of::<Outcome>(), 2056);
    assert_eq!(offset_of!(Outcome, table), 0);
    assert_eq!(offset_of!(Outcome, number), 2048);
    assert_eq!(size_of::<Relation>(), 2056);
    assert_eq!(offset_of!(Relation, rows), 0);
    assert_eq!(offset_of!(Relation, number), 2048);
    assert_eq!(size_of::<Finding>(), 16);
    assert_eq!(offset_of!(Finding, bound), 0);
    assert_eq!(offset_of!(Finding, rounds), 8);
    assert_eq!(offset_of!(Finding, number), 9);
    assert_eq!(size_of::<Shown>(), 65);
    assert_eq!(offset_of!(Shown, numbers), 0);
    assert_eq!(offset_of!(Shown, count), 63);
    assert_eq!(offset_of!(Shown, number), 64);
}

/// The number that the header's assertion of this name states.
fn asserted(header: &str, name: &str) -> usize {
    let start = format!("CAPTABLE_ASSERT({name},");
    let line = header
        .lines()
        .find(|line| line.starts_with(&start))
        .unwrap_or_else(|| panic!("the header asserts nothing of {name}"));
    let number = line.rsplit("== ").next().expect("a line has a last part");
    number
        .trim_end_matches(");")
        .parse()
        .expect("an assertion ends in a number")
}

#[test]
fn the_header_asserts_the_same() {
    let header = include_str!("../../../include/captable.h");
    for (name, here) in [
        ("capability", size_of::<Capability>()),
        ("rights", offset_of!(Capability, rights)),
        ("record", size_of::<Record>()),
        ("kind", offset_of!(Record, kind)),
        ("maker", offset_of!(Record, maker)),
        ("word", offset_of!(Record, word)),
        ("stock", offset_of!(Record, stock)),
        ("table", size_of::<Table>()),
        ("slots", offset_of!(Table, slots)),
        ("outcome", size_of::<Outcome>()),
        ("outcome_number", offset_of!(Outcome, number)),
        ("relation", size_of::<Relation>()),
        ("relation_number", offset_of!(Relation, number)),
        ("finding", size_of::<Finding>()),
        ("finding_rounds", offset_of!(Finding, rounds)),
        ("finding_number", offset_of!(Finding, number)),
        ("shown", size_of::<Shown>()),
        ("shown_count", offset_of!(Shown, count)),
        ("shown_number", offset_of!(Shown, number)),
    ] {
        assert_eq!(asserted(header, name), here, "{name}");
    }
}

#[test]
fn the_header_defines_the_same_sizes() {
    let header = include_str!("../../../include/captable.h");
    for (name, here) in [
        ("OBJECTS", usize::from(captable::OBJECTS)),
        ("SLOTS", usize::from(captable::SLOTS)),
        ("IMAGE_BYTES", IMAGE_BYTES),
        ("OLDER_IMAGE_BYTES", OLDER_IMAGE_BYTES),
        ("IMPORT_BYTES", IMPORT_BYTES),
        ("REQUEST_BYTES", REQUEST_BYTES),
        ("PAIRS", MAX_PAIRS),
        ("ENTRIES", MAX_ENTRIES),
        ("LINKS", MAX_LINKS),
    ] {
        let defined = format!("\n#define CAPTABLE_{name} {here} ");
        assert!(header.contains(&defined), "{name}");
    }
}

#[test]
fn the_header_defines_the_same_values_for_none() {
    let header = include_str!("../../../include/captable.h");
    for (name, here) in [("NO_REPLY", NO_REPLY), ("NO_MAKER", NO_MAKER)] {
        let defined = format!("\n#define CAPTABLE_{name} {here}\n");
        assert!(header.contains(&defined), "{name}");
    }
}
