//! Document 02, 2.2, "Bring in take-and-grant tables": each of its sentences on bytes that are written here by
//! hand.

mod common;

use captable::{Capability, ImportRefusal, Record, Request, Right, Set, Table};
use captable::{ACTIVE, ALIVE, IMPORT_BYTES, NO_MAKER, RD, TX, WR};
use common::{cap, found, set};

/// Source document 001's rights, as the request adds them up.
const READ: u8 = 1;
const WRITE: u8 = 2;
const GRANT: u8 = 4;
const CREATE: u8 = 8;
const STORE: u8 = 16;

/// The import of some entities, each a slice of its capabilities: target, rights.
fn import_of(entities: &[&[(u8, u8)]]) -> Vec<u8> {
    let mut bytes = vec![0, 0, 1, entities.len() as u8];
    for capabilities in entities {
        bytes.push(capabilities.len() as u8);
        bytes.extend(
            capabilities
                .iter()
                .flat_map(|&(target, rights)| [target, rights]),
        );
    }
    with_length(bytes)
}

/// The same bytes with the length field that they should have.
fn with_length(mut bytes: Vec<u8>) -> Vec<u8> {
    let length = bytes.len() as u16;
    bytes[..2].copy_from_slice(&length.to_be_bytes());
    bytes
}

/// The table of some entities that have to be brought in.
fn table_of(entities: &[&[(u8, u8)]]) -> Table {
    Table::import(&import_of(entities)).expect("nothing is wrong with it")
}

/// The number that turns the bytes away.
fn refusal(bytes: &[u8]) -> u8 {
    let refusal = Table::import(bytes).expect_err("it is turned away");
    refusal.number()
}

/// "total length (2 bytes, big-endian), version byte 1, entity count 0 to 64"
#[test]
fn no_entities_are_an_unborn_table() {
    assert_eq!(Table::import(&[0, 4, 1, 0]), Ok(Table::unborn()));
}

/// "an entity is a capability count 0 to 8, then target and rights a capability": every byte by hand.
#[test]
fn the_bytes_are_these() {
    let bytes = [0, 15, 1, 3, 2, 2, 1, 0, 2, 0, 2, 1, 4, 2, 16];
    let table = Table::import(&bytes).expect("three entities");
    assert_eq!(*table.slot(0, 0), cap(2, RD));
    assert_eq!(*table.slot(0, 1), cap(0, WR));
    assert_eq!(*table.slot(2, 0), cap(1, TX));
    assert_eq!(*table.slot(2, 1), cap(2, RD | WR));
    let slots = table.as_raw().slots.iter();
    let filled = slots.filter(|slot| **slot != Capability::EMPTY);
    assert_eq!(filled.count(), 4);
}

/// "Entities are numbered from 0 as they come and become alive, active, word 0, no stock", and no other number
/// is born.
#[test]
fn entities_become_objects_in_their_order() {
    for count in [1, 2, 63, 64] {
        let table = table_of(&vec![&[][..]; usize::from(count)]);
        for n in 0..64 {
            let expected = if n < count {
                Record {
                    status: ALIVE,
                    kind: ACTIVE,
                    maker: NO_MAKER,
                    word: 0,
                    stock: Set::EMPTY,
                }
            } else {
                Record::UNBORN
            };
            assert_eq!(*table.record(n), expected, "{n} of {count}");
        }
    }
}

/// "Read becomes rd, Write wr, Grant tx, Store rd and wr together, Create nothing": all that rights can be.
#[test]
fn rights_become_these() {
    for (rights, expected) in [
        (READ, RD),
        (WRITE, WR),
        (GRANT, TX),
        (STORE, RD | WR),
        (CREATE, 0),
        (0, 0),
    ] {
        let slot = *table_of(&[&[(1, rights)], &[]]).slot(0, 0);
        let target = if expected == 0 { 0 } else { 1 };
        assert_eq!(slot, cap(target, expected), "{rights}");
    }
    #[rustfmt::skip]
    const RIGHTS: [u8; 32] = [
        0, 1, 2, 3, 8, 9, 10, 11, // Read, Write, Grant
        0, 1, 2, 3, 8, 9, 10, 11, // the same and Create
        3, 3, 3, 3, 11, 11, 11, 11, // the same and Store
        3, 3, 3, 3, 11, 11, 11, 11, // the same, Create and Store
    ];
    for (rights, expected) in (0..32).zip(RIGHTS) {
        let slot = *table_of(&[&[], &[(1, rights)]]).slot(1, 0);
        assert_eq!(slot.rights, expected, "{rights}");
    }
}

/// "a capability left with no right gives an empty slot in its place": what follows keeps its own place.
#[test]
fn a_capability_with_no_right_leaves_its_place_empty() {
    let table = table_of(&[
        &[(1, CREATE), (2, READ), (1, 0), (2, CREATE), (0, GRANT)],
        &[],
        &[],
    ]);
    let slots = [
        cap(0, 0),
        cap(2, RD),
        cap(0, 0),
        cap(0, 0),
        cap(0, TX),
        cap(0, 0),
    ];
    for (j, expected) in (0..).zip(slots) {
        assert_eq!(*table.slot(0, j), expected, "slot {j}");
    }
}

/// Every target below the count, the entity itself and those that come after it too.
#[test]
fn any_entity_may_be_a_target() {
    let table = table_of(&[
        &[(0, READ), (1, READ), (2, READ)],
        &[(2, WRITE)],
        &[(0, GRANT)],
    ]);
    for j in 0..3 {
        assert_eq!(*table.slot(0, j), cap(j, RD));
    }
    assert_eq!(*table.slot(1, 0), cap(2, WR));
    assert_eq!(*table.slot(2, 0), cap(0, TX));
}

/// Does x influence y, by one step of document 01?
fn influences(table: &Table, x: u8, y: u8) -> bool {
    let access = table.potential_access().expect("an import is sound");
    let over = |a, rights: [Right; 2], b| rights.into_iter().any(|right| access.has(a, right, b));
    over(x, [Right::Wr, Right::Tx], y) || over(y, [Right::Rd, Right::Wk], x)
}

/// "Two entities joined by Store links in 001's sense must influence each other in the result": one holds Store
/// over the other, a third holds it over both, both over a third, and a row of them.
#[test]
fn entities_joined_by_store_influence_each_other() {
    let store = |target| [(target, STORE)];
    let held: &[(u8, u8)] = &[(1, STORE), (2, STORE)];
    for entities in [
        &[&store(1)[..], &[]][..],
        &[held, &[], &[]],
        &[&store(2), &store(2), &[]],
        &[&store(1), &store(2), &store(3), &[]],
        &[&store(3), &[], &store(1), &store(1)],
    ] {
        let table = table_of(entities);
        let count = entities.len() as u8;
        for (x, y) in (0..count).flat_map(|x| (0..count).map(move |y| (x, y))) {
            assert!(influences(&table, x, y), "{x} and {y} of {entities:?}");
        }
    }
    // Create joins nobody.
    let table = table_of(&[&[(1, CREATE)], &[], &[(0, STORE)]]);
    assert!(influences(&table, 2, 0) && influences(&table, 0, 2));
    for other in [0, 2] {
        assert!(!influences(&table, 1, other) && !influences(&table, other, 1));
    }
}

/// An import is judged by the confinement test as any table: the routine 3 may write to 0, and gets by the
/// Store links at 1 and 2. 4 has Create alone and is outside.
#[test]
fn an_import_is_tested() {
    let table = table_of(&[
        &[(1, STORE)],
        &[],
        &[(1, STORE)],
        &[(0, WRITE)],
        &[(1, CREATE)],
    ]);
    let list = [cap(0, WR)];
    let answer = table.test(set(&[3]), &list);
    assert_eq!(answer, Ok(found(&[0, 1, 2], 3)));
    let chain = table.chain(set(&[3]), &list, 2).expect("in the bound");
    assert_eq!(chain.as_slice(), [0, 1, 2]);
}

/// The objects can act, and what is brought in is stored like any table.
#[test]
fn an_import_is_used() {
    let mut table = table_of(&[&[(1, STORE)], &[(0, GRANT)]]);
    assert!(table.is_sound());
    let (actor, t, word) = (0, 0, 7);
    assert_eq!(table.step(&Request::Write { actor, t, word }), Ok(()));
    assert_eq!(table.record(1).word, 7);
    let image = table.to_image().expect("it is sound");
    assert_eq!(Table::from_image(&image), Ok(table));
}

/// 64 entities with eight capabilities each, and a length field of 4 and 68.
#[test]
fn the_longest_import() {
    let capabilities: Vec<(u8, u8)> = (0..8).map(|k| (56 + k, 31)).collect();
    let mut bytes = import_of(&[&capabilities[..]; 64]);
    assert_eq!(bytes.len(), IMPORT_BYTES);
    assert_eq!(bytes[..4], [0x04, 0x44, 1, 64]);
    let table = Table::import(&bytes).expect("the longest");
    for (n, j) in (0..64).flat_map(|n| (0..8).map(move |j| (n, j))) {
        assert_eq!(*table.slot(n, j), cap(56 + j, RD | WR | TX));
    }
    bytes.push(0);
    assert_eq!(refusal(&bytes), 20);
    assert_eq!(refusal(&with_length(bytes)), 20);
}

/// "A slice under four bytes gets 20", whatever is in it.
#[test]
fn under_four_bytes_is_20() {
    for bytes in [
        &[][..],
        &[0],
        &[0, 2],
        &[0, 3, 1],
        &[0, 3, 2],
        &[0, 4, 1],
        &[0, 4, 9],
    ] {
        assert_eq!(refusal(bytes), 20, "{bytes:?}");
    }
}

/// "20 if the length field is not the slice's length": before the version and all that follows.
#[test]
fn a_wrong_length_field_is_20_before_all_else() {
    let right = import_of(&[&[(0, READ)], &[]]);
    assert!(Table::import(&right).is_ok());
    for (place, value) in [(1, 7), (1, 9), (1, 0), (0, 1), (0, 8), (0, 255)] {
        for (version, entities, rights) in [(1, 2, 1), (2, 2, 1), (1, 65, 1), (1, 2, 32)] {
            let mut bytes = right.clone();
            bytes[place] = value;
            (bytes[2], bytes[3], bytes[6]) = (version, entities, rights);
            assert_eq!(refusal(&bytes), 20, "{bytes:?}");
        }
    }
    // The two bytes of the field the other way round.
    assert_eq!(refusal(&[4, 0, 1, 0]), 20);
}

/// "20 if the length field is not the slice's length": two bytes say no more than 65,535. In these slices they
/// say what the length has in its low two bytes. The bytes that they count are an import, or one with a wrong
/// version, too many entities or too many capabilities.
#[test]
fn a_length_that_two_bytes_cannot_say_is_20() {
    let full: &[(u8, u8)] = &[(63, 31); 8];
    for counted in [
        vec![0, 4, 1, 0],
        import_of(&[&[(1, STORE)], &[]]),
        import_of(&[full; 64]),
        vec![0, 4, 2, 0],
        vec![0, 4, 1, 65],
        vec![0, 5, 1, 1, 9],
    ] {
        for beyond in [65_536, 2 * 65_536] {
            let mut bytes = counted.clone();
            bytes.resize(counted.len() + beyond, 0);
            assert_eq!(bytes, with_length(bytes.clone()));
            assert_eq!(refusal(&bytes), 20, "{} bytes", bytes.len());
        }
    }
    // The field is 0 for 65,536 bytes, whose low two bytes are 0, and right for the 65,535 that it can say.
    for (length, head, number) in [
        (65_536, [0, 0, 1, 0], 20),
        (65_536, [0, 0, 2, 0], 20),
        (65_536, [0, 0, 1, 65], 20),
        (65_535, [255, 255, 1, 0], 20), // bytes after the last entity
        (65_535, [255, 255, 2, 0], 21),
        (65_535, [255, 255, 1, 65], 22),
    ] {
        let mut bytes = head.to_vec();
        bytes.resize(length, 0);
        assert_eq!(refusal(&bytes), number, "{head:?} of {length}");
    }
}

/// "21 if the version byte is not 1": before the entity count and the entities.
#[test]
fn a_wrong_version_is_21_before_the_count() {
    for version in (0..=255).filter(|&version| version != 1) {
        assert_eq!(refusal(&[0, 4, version, 0]), 21);
        assert_eq!(refusal(&[0, 4, version, 65]), 21); // also too many entities
        assert_eq!(refusal(&[0, 4, version, 1]), 21); // also an entity that is not there
        assert_eq!(refusal(&[0, 5, version, 1, 9]), 21); // also too many capabilities
    }
}

/// "22 if a count ... stand inside": more than 64 entities, before the walk, so with none of them there and with
/// bytes that are too many.
#[test]
fn an_entity_count_above_64_is_22_before_the_walk() {
    for count in 65..=255 {
        assert_eq!(refusal(&[0, 4, 1, count]), 22);
        assert_eq!(refusal(&with_length(vec![0, 0, 1, count, 0, 0, 0])), 22);
        let mut bytes = vec![0; 4 + usize::from(count)];
        (bytes[2], bytes[3]) = (1, count);
        assert_eq!(refusal(&with_length(bytes)), 22);
    }
    // 64 of them that are not there are a wrong end.
    assert_eq!(refusal(&[0, 4, 1, 64]), 20);
}

/// "22 if a count ... stand inside": more than eight capabilities, when the count is read.
#[test]
fn a_capability_count_above_8_is_22() {
    for count in 9..=255 {
        assert_eq!(refusal(&[0, 5, 1, 1, count]), 22);
        let mut bytes = vec![0; 5 + 2 * usize::from(count)];
        (bytes[2], bytes[3], bytes[4]) = (1, 1, count);
        assert_eq!(refusal(&with_length(bytes)), 22);
        assert_eq!(refusal(&[0, 9, 1, 3, 1, 2, 31, 0, count]), 22);
    }
}

/// "a target at or above the entity count": when the target is read, so without its rights too.
#[test]
fn a_target_at_or_above_the_count_is_22() {
    for count in [1_u8, 2, 63, 64] {
        for target in count..=255 {
            let last = usize::from(count) - 1;
            let mut entities = vec![&[][..]; last];
            let held = [(target, READ)];
            entities.push(&held);
            let mut bytes = import_of(&entities);
            assert_eq!(refusal(&bytes), 22, "{target} of {count}");
            bytes.pop();
            assert_eq!(refusal(&with_length(bytes)), 22, "{target} of {count}");
        }
    }
    // A capability that would be left with no right is looked at all the same.
    assert_eq!(refusal(&import_of(&[&[(1, CREATE)]])), 22);
    assert_eq!(refusal(&import_of(&[&[(1, 0)]])), 22);
}

/// "or rights above 31"; 31 is none, and neither is 0.
#[test]
fn rights_above_31_are_22() {
    for rights in 0..=255 {
        let bytes = import_of(&[&[(1, READ), (1, rights)], &[]]);
        let number = match Table::import(&bytes) {
            Ok(_) => 0,
            Err(refusal) => refusal.number(),
        };
        assert_eq!(number, if rights > 31 { 22 } else { 0 }, "{rights}");
    }
}

/// "or the entities do not end there": cut at every byte, and with bytes after them.
#[test]
fn entities_that_end_elsewhere_are_20() {
    let right = import_of(&[&[(1, STORE), (2, GRANT)], &[], &[(0, CREATE), (2, 31)]]);
    for length in 4..right.len() {
        let cut = with_length(right[..length].to_vec());
        assert_eq!(refusal(&cut), 20, "{cut:?}");
    }
    for more in [&[0][..], &[1], &[9], &[255], &[1, 0, 1]] {
        let mut longer = right.clone();
        longer.extend(more);
        assert_eq!(refusal(&with_length(longer)), 20, "{more:?}");
    }
    // No entities, and a byte all the same.
    assert_eq!(refusal(&[0, 5, 1, 0, 0]), 20);
}

/// "its first offence gives 22, or 20 for a wrong end": several in one import, and the one that is read first.
#[test]
fn the_first_offence_decides() {
    for (bytes, number) in [
        (vec![0, 0, 1, 2, 1, 0, 32], 22),    // rights, and no second entity
        (vec![0, 0, 1, 2, 1, 2], 22),        // a target, and no rights
        (vec![0, 0, 1, 2, 9], 22),           // a count, and nothing after it
        (vec![0, 0, 1, 2, 1, 1], 20),        // no rights, though the target is right
        (vec![0, 0, 1, 1, 0, 9, 99], 20),    // bytes after the entity are no entity
        (vec![0, 0, 1, 1, 1, 0, 32, 0], 22), // rights, and a byte after the entity
    ] {
        let bytes = with_length(bytes);
        assert_eq!(refusal(&bytes), number, "{bytes:?}");
    }
}

#[test]
fn refusals_are_told_in_words() {
    for (refusal, words) in [
        (
            ImportRefusal::ImportLengthWrong,
            "refused 20: the import has a wrong length",
        ),
        (
            ImportRefusal::ImportVersionWrong,
            "refused 21: the import has a wrong version",
        ),
        (
            ImportRefusal::ImportValueWrong,
            "refused 22: a count, a target or rights in the import are out of range",
        ),
    ] {
        assert_eq!(refusal.to_string(), words);
    }
}
