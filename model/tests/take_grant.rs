//! Document 02, 2.2, sentence by sentence, each on a few bytes.

use yavrinks_model::access::potential_access;
use yavrinks_model::set;
use yavrinks_model::table::{Capability, Record, Table, ACTIVE, ALIVE, RD, TX, WK, WR};
use yavrinks_model::take_grant::import;

/// An old capability, or the content of a slot, as (target, rights).
type Held = (u8, u8);

/// The old rights, by their bytes.
const READ: u8 = 1;
const WRITE: u8 = 2;
const GRANT: u8 = 4;
const CREATE: u8 = 8;
const STORE: u8 = 16;

/// The bytes of a table: its length, then all else.
fn with_length(rest: &[u8]) -> Vec<u8> {
    let length = rest.len() + 2;
    let mut bytes = vec![(length / 256) as u8, (length % 256) as u8];
    bytes.extend(rest);
    bytes
}

/// The bytes of a table with the given entities.
fn bytes_of(entities: &[&[Held]]) -> Vec<u8> {
    let mut rest = vec![1, entities.len() as u8];
    for capabilities in entities {
        rest.push(capabilities.len() as u8);
        for &(target, rights) in *capabilities {
            rest.extend([target, rights]);
        }
    }
    with_length(&rest)
}

/// What a table becomes that is not turned away.
fn brought_in(bytes: &[u8]) -> Table {
    let (number, table) = import(bytes);
    assert_eq!(number, 0, "{bytes:?}");
    table
}

/// The record of an entity whose first slots have the given content.
fn entity(slots: &[Held]) -> Record {
    let mut record = Record {
        status: ALIVE,
        kind: ACTIVE,
        ..Record::UNBORN
    };
    for (k, &(target, rights)) in slots.iter().enumerate() {
        record.slots[k] = Capability::new(target, rights);
    }
    record
}

/// The table whose first records are of entities with the given slots, all others unborn.
fn table_of(entities: &[&[Held]]) -> Table {
    let mut table = Table::unborn();
    for (n, slots) in entities.iter().enumerate() {
        table.records[n] = entity(slots);
    }
    table
}

/// Every refusal brings back the wholly unborn table.
fn expect_refused(bytes: &[u8], number: u8) {
    assert_eq!(import(bytes), (number, Table::unborn()), "{bytes:?}");
}

/// The same, of a table whose length field is right.
fn expect_refused_within(rest: &[u8], number: u8) {
    expect_refused(&with_length(rest), number);
}

// The older rigs hold tables of the model in source document 001.

/// The small example of document 001: Store from 0 to 1, Grant from 1 to 2.
#[test]
fn the_example_of_document_001() {
    let bytes = [0, 11, 1, 3, 1, 1, 16, 1, 2, 4, 0];
    let expected = table_of(&[&[(1, 3)], &[(2, 8)], &[]]);
    assert_eq!(import(&bytes), (0, expected));
}

// Layout: total length (2 bytes, big-endian), version byte 1, entity count 0 to 64; an entity is a
// capability count 0 to 8, then target and rights a capability.

#[test]
fn the_smallest_table_has_four_bytes() {
    assert_eq!(import(&[0, 4, 1, 0]), (0, Table::unborn()));
    assert_eq!(import(&[0, 5, 1, 1, 0]), (0, table_of(&[&[]])));
}

#[test]
fn all_bytes_are_counted_in_the_length() {
    for length in [0, 1, 2, 3, 5, 6, 255] {
        expect_refused(&[0, length, 1, 0], 20);
    }
}

/// 12 full entities and 52 without capabilities take 260 bytes, which are 1 and 4. Read and rd are both
/// 1.
#[test]
fn the_high_byte_of_the_length_comes_first() {
    let full: &[Held] = &[(0, READ); 8];
    let mut entities = vec![full; 12];
    entities.resize(64, &[]);
    let mut bytes = bytes_of(&entities);
    assert_eq!((bytes.len(), &bytes[..4]), (260, &[1, 4, 1, 64][..]));
    assert_eq!(import(&bytes), (0, table_of(&entities)));
    for field in [[4, 1], [0, 4], [1, 0]] {
        bytes[..2].copy_from_slice(&field);
        expect_refused(&bytes, 20);
    }
    expect_refused(&[4, 0, 1, 0], 20);
    expect_refused(&[1, 4, 1, 0], 20);
}

/// The field has the low two bytes of the length, 65,540. Taken for the length, it would lead to 0, 21 or
/// 22.
#[test]
fn a_length_that_two_bytes_cannot_say_is_wrong() {
    for head in [[0, 4, 1, 0], [0, 4, 2, 0], [0, 4, 1, 65]] {
        let mut bytes = head.to_vec();
        bytes.resize(65540, 0);
        expect_refused(&bytes, 20);
    }
}

#[test]
fn a_table_has_0_to_64_entities() {
    for count in 0..=64 {
        let entities: Vec<&[Held]> = vec![&[]; count];
        let outcome = import(&bytes_of(&entities));
        assert_eq!(outcome, (0, table_of(&entities)));
    }
    expect_refused_within(&[[1, 65].as_slice(), &[0; 65]].concat(), 22);
}

#[test]
fn an_entity_has_0_to_8_capabilities() {
    for count in 0..=8 {
        let entities: [&[Held]; 2] = [&vec![(1, READ); count], &[(0, WRITE)]];
        let outcome = import(&bytes_of(&entities));
        assert_eq!(outcome, (0, table_of(&entities)));
    }
    expect_refused(&bytes_of(&[&[(1, READ); 9], &[]]), 22);
}

#[test]
fn the_target_comes_before_the_rights() {
    let table = brought_in(&[0, 9, 1, 3, 1, 2, 1, 0, 0]);
    assert_eq!(table, table_of(&[&[(2, RD)], &[], &[]]));
    let table = brought_in(&[0, 9, 1, 3, 1, 1, 2, 0, 0]);
    assert_eq!(table, table_of(&[&[(1, WR)], &[], &[]]));
}

/// 64 entities with 8 capabilities each, the most there can be.
#[test]
fn a_full_table_has_1092_bytes() {
    let capabilities: Vec<Held> = (56..64).map(|target| (target, GRANT)).collect();
    let bytes = bytes_of(&[capabilities.as_slice(); 64]);
    assert_eq!(bytes.len(), 1092);
    let slots: Vec<Held> = (56..64).map(|target| (target, TX)).collect();
    let expected = table_of(&[slots.as_slice(); 64]);
    assert_eq!(import(&bytes), (0, expected));
}

// Rights add up 1 Read, 2 Write, 4 Grant, 8 Create, 16 Store. Read becomes rd, Write wr, Grant tx, Store
// rd and wr together, Create nothing.

/// What the rights of a capability to 1 become.
fn becomes(rights: u8) -> Capability {
    brought_in(&bytes_of(&[&[(1, rights)], &[]])).records[0].slots[0]
}

#[test]
fn each_right_by_itself() {
    assert_eq!(becomes(READ), Capability::new(1, 1));
    assert_eq!(becomes(WRITE), Capability::new(1, 2));
    assert_eq!(becomes(GRANT), Capability::new(1, 8));
    assert_eq!(becomes(CREATE), Capability::new(0, 0));
    assert_eq!(becomes(STORE), Capability::new(1, 3));
}

#[test]
fn all_rights_together() {
    let expected = [
        [0, 1, 2, 3, 8, 9, 10, 11],
        [0, 1, 2, 3, 8, 9, 10, 11],
        [3, 3, 3, 3, 11, 11, 11, 11],
        [3, 3, 3, 3, 11, 11, 11, 11],
    ];
    for (rights, expected) in (0..=31).zip(expected.concat()) {
        let target = u8::from(expected != 0);
        assert_eq!(becomes(rights), Capability::new(target, expected));
    }
}

// Entities are numbered from 0 as they come and become alive, active, word 0, no stock.

#[test]
fn entities_are_numbered_from_0_as_they_come() {
    let entities: [&[Held]; 3] = [&[(2, READ)], &[(0, WRITE)], &[(1, GRANT), (1, READ)]];
    let expected: [&[Held]; 3] = [&[(2, RD)], &[(0, WR)], &[(1, TX), (1, RD)]];
    assert_eq!(import(&bytes_of(&entities)), (0, table_of(&expected)));
}

#[test]
fn entities_become_alive_and_active_with_word_0_and_no_stock() {
    let table = brought_in(&bytes_of(&[&[(1, STORE)], &[]]));
    for record in &table.records[..2] {
        assert_eq!((record.status, record.kind), (1, 1));
        assert_eq!((record.word, record.stock), (0, 0));
        assert_eq!(record.maker, 64);
    }
    assert!(table.records[2..].iter().all(|r| *r == Record::UNBORN));
    assert!(table.is_sound());
}

// A capability left with no right gives an empty slot in its place.

#[test]
fn slots_are_not_closed_up() {
    let capabilities = [(1, CREATE), (1, READ), (1, 0), (0, WRITE)];
    let slots = [(0, 0), (1, RD), (0, 0), (0, WR)];
    let outcome = import(&bytes_of(&[&capabilities, &[]]));
    assert_eq!(outcome, (0, table_of(&[&slots, &[]])));
}

#[test]
fn the_eighth_capability_is_in_slot_7() {
    let mut capabilities = [(1, CREATE); 8];
    capabilities[7] = (1, STORE);
    let table = brought_in(&bytes_of(&[&capabilities, &[]]));
    let mut slots = [Capability::EMPTY; 8];
    slots[7] = Capability::new(1, RD | WR);
    assert_eq!(table.records[0].slots, slots);
}

/// The target of a capability that is left with no right has to be below the entity count all the same.
#[test]
fn an_empty_slot_has_target_0() {
    for rights in [0, CREATE] {
        let table = brought_in(&bytes_of(&[&[(1, rights)], &[]]));
        assert_eq!(table.records[0].slots[0], Capability::new(0, 0));
        expect_refused(&bytes_of(&[&[(2, rights)], &[]]), 22);
    }
}

#[test]
fn capabilities_to_0_to_oneself_and_to_one_target_twice_stay() {
    let entities: [&[Held]; 2] = [&[(0, STORE)], &[(0, READ), (1, GRANT), (0, WRITE)]];
    let expected: [&[Held]; 2] = [&[(0, RD | WR)], &[(0, RD), (1, TX), (0, WR)]];
    assert_eq!(import(&bytes_of(&entities)), (0, table_of(&expected)));
}

// Two entities joined by Store links in 001's sense must influence each other in the result.

/// Whom each entity x influences: every y such that x has wr or tx over y, or y has rd or wk over x, in
/// potential access.
fn influenced(entities: &[&[Held]]) -> Vec<u64> {
    let (number, access) = potential_access(&brought_in(&bytes_of(entities)));
    assert_eq!(number, 0);
    let has = |x: u8, rights, y: u8| access.rights[usize::from(x)][usize::from(y)] & rights != 0;
    let influences = |x, y| has(x, WR | TX, y) || has(y, RD | WK, x);
    let of = |x| set::of((0..64).filter(|&y| influences(x, y)));
    (0..entities.len() as u8).map(of).collect()
}

#[test]
fn a_store_link_joins_both_ends() {
    let both = set::of([0, 1]);
    assert_eq!(influenced(&[&[(1, STORE)], &[]]), [both, both]);
    assert_eq!(influenced(&[&[], &[(0, STORE)]]), [both, both]);
}

#[test]
fn store_links_in_a_row_join_all() {
    let row: [&[Held]; 3] = [&[(1, STORE)], &[(2, STORE)], &[]];
    assert_eq!(influenced(&row), [set::of([0, 1, 2]); 3]);
}

/// 0 and 1 both have Store to 2, and hold nothing over each other. 3 stands alone.
#[test]
fn entities_that_share_what_a_third_holds_are_joined() {
    let shared: [&[Held]; 4] = [&[(2, STORE)], &[(2, STORE)], &[], &[]];
    let all = set::of([0, 1, 2]);
    let expected = [all, all, all, set::of([3])];
    assert_eq!(influenced(&shared), expected);
}

/// 0 and 1 share 3, 1 and 2 share 4, and 0 and 2 share nothing.
#[test]
fn entities_joined_over_several_shared_ones_influence_each_other() {
    let entities: [&[Held]; 5] = [
        &[(3, STORE)],
        &[(3, STORE), (4, STORE)],
        &[(4, STORE)],
        &[],
        &[],
    ];
    let all = set::of([0, 1, 2, 3, 4]);
    assert_eq!(influenced(&entities), [all; 5]);
}

#[test]
fn create_joins_nobody() {
    let entities: [&[Held]; 2] = [&[(1, CREATE)], &[(0, 0)]];
    assert_eq!(influenced(&entities), [set::of([0]), set::of([1])]);
}

// Turned away: 20 if the length field is not the slice's length or the entities do not end there.

/// The bytes of most tests of refusals: 1 holds 0 twice, and 2 holds 1.
fn three_entities() -> Vec<u8> {
    bytes_of(&[&[], &[(0, READ), (0, STORE)], &[(1, WRITE)]])
}

#[test]
fn a_length_field_that_says_otherwise_is_20() {
    let whole = three_entities();
    assert_eq!((import(&whole).0, whole.len()), (0, 13));
    for length in (0..=255).filter(|&length| length != 13) {
        let mut bytes = whole.clone();
        bytes[1] = length;
        expect_refused(&bytes, 20);
    }
    for high in 1..=255 {
        let mut bytes = whole.clone();
        bytes[0] = high;
        expect_refused(&bytes, 20);
    }
}

#[test]
fn a_table_that_is_cut_anywhere_is_20() {
    let whole = three_entities();
    for length in 0..whole.len() {
        expect_refused(&whole[..length], 20);
    }
    for length in 4..whole.len() {
        expect_refused_within(&whole[2..length], 20);
    }
}

#[test]
fn bytes_after_the_last_entity_are_20() {
    for tail in [&[0][..], &[0, 0], &[9], &[255; 4]] {
        let longer = [&three_entities(), tail].concat();
        expect_refused(&longer, 20);
        expect_refused_within(&longer[2..], 20);
    }
    expect_refused_within(&[1, 0, 0], 20);
}

// 21 if the version byte is not 1.

#[test]
fn other_versions_are_21() {
    for version in (0..=255).filter(|&version| version != 1) {
        let mut bytes = three_entities();
        bytes[2] = version;
        expect_refused(&bytes, 21);
    }
}

// 22 if a count, a target at or above the entity count, or rights above 31 stand inside.

#[test]
fn entity_counts_above_64_are_22() {
    for count in 65..=255 {
        expect_refused_within(&[1, count], 22);
        let as_many = vec![0; usize::from(count)];
        expect_refused_within(&[&[1, count], as_many.as_slice()].concat(), 22);
    }
}

#[test]
fn capability_counts_above_8_are_22() {
    for count in 9..=255 {
        expect_refused_within(&[1, 2, 0, count], 22);
        let as_many = [0, READ].repeat(usize::from(count));
        expect_refused_within(&[&[1, 2, 0, count], as_many.as_slice()].concat(), 22);
    }
}

#[test]
fn targets_at_or_above_the_entity_count_are_22() {
    for entities in 1..=64 {
        let others = vec![0; usize::from(entities) - 1];
        let of = |target| [&[1, entities, 1, target, READ], others.as_slice()].concat();
        assert_eq!(import(&with_length(&of(entities - 1))).0, 0);
        for target in [entities, entities + 1, 64, 255] {
            expect_refused_within(&of(target), 22);
        }
    }
}

#[test]
fn rights_above_31_are_22() {
    assert_eq!(becomes(31), Capability::new(1, RD | WR | TX));
    for rights in 32..=255 {
        expect_refused(&bytes_of(&[&[(1, rights)], &[]]), 22);
    }
}

// A slice under four bytes gets 20.

#[test]
fn slices_under_four_bytes_are_20() {
    for bytes in [&[][..], &[0], &[4], &[0, 2], &[0, 4]] {
        expect_refused(bytes, 20);
    }
    for bytes in [[0, 3, 1], [0, 4, 1], [0, 3, 2]] {
        expect_refused(&bytes, 20);
    }
}

// Then come the length field, the version and the entity count.

#[test]
fn the_length_field_comes_before_the_version() {
    expect_refused(&[0, 5, 2, 0], 20);
    expect_refused(&[0, 4, 2, 0], 21);
}

#[test]
fn the_length_field_comes_before_all_values() {
    expect_refused(&[0, 5, 1, 65], 20);
    expect_refused(&[0, 6, 1, 1, 9], 20);
    expect_refused(&[0, 8, 1, 1, 1, 1, 32], 20);
}

#[test]
fn the_version_comes_before_the_entity_count() {
    expect_refused_within(&[2, 65], 21);
    expect_refused_within(&[1, 65], 22);
}

#[test]
fn the_version_comes_before_the_walk() {
    for rest in [&[2, 1][..], &[2, 1, 9], &[2, 1, 1, 1, 32], &[2, 0, 0]] {
        expect_refused_within(rest, 21);
    }
}

/// With 64 the walk begins, and misses its first byte.
#[test]
fn the_entity_count_comes_before_the_walk() {
    expect_refused_within(&[1, 65], 22);
    expect_refused_within(&[1, 64], 20);
    expect_refused_within(&[1, 255, 0], 22);
}

// The entity walk follows byte by byte, and its first offence gives 22, or 20 for a wrong end.

#[test]
fn where_a_byte_is_wanted_and_there_is_none_it_is_20() {
    // Counts, a target, rights; each of the first and of a later entity or capability.
    expect_refused_within(&[1, 1], 20);
    expect_refused_within(&[1, 3, 0, 0], 20);
    expect_refused_within(&[1, 1, 1], 20);
    expect_refused_within(&[1, 1, 2, 0, READ], 20);
    expect_refused_within(&[1, 1, 1, 0], 20);
    expect_refused_within(&[1, 2, 0, 2, 1, READ, 1], 20);
}

#[test]
fn a_bad_target_is_22_though_its_rights_are_missing() {
    expect_refused_within(&[1, 1, 1, 1], 22);
    expect_refused_within(&[1, 1, 1, 0], 20);
    expect_refused_within(&[1, 2, 0, 2, 1, READ, 2], 22);
}

/// Each of these has fewer bytes than its counts tell.
#[test]
fn a_bad_value_is_22_though_the_end_is_missing() {
    expect_refused_within(&[1, 1, 9], 22);
    expect_refused_within(&[1, 64, 255], 22);
    expect_refused_within(&[1, 1, 2, 0, 32], 22);
    expect_refused_within(&[1, 3, 1, 3, READ], 22);
    expect_refused_within(&[1, 3, 8, 0, 1, 0, 1, 3], 22);
}

#[test]
fn a_bad_value_is_22_though_bytes_are_left() {
    expect_refused_within(&[1, 1, 1, 0, 32, 0], 22);
    expect_refused_within(&[1, 1, 1, 1, READ, 0], 22);
    expect_refused_within(&[1, 1, 9, 0], 22);
}

/// After the last entity nothing is read any more.
#[test]
fn bad_values_after_the_last_entity_are_20() {
    expect_refused_within(&[1, 1, 0, 9], 20);
    expect_refused_within(&[1, 0, 255], 20);
    expect_refused_within(&[1, 1, 1, 0, READ, 1, 1, 32], 20);
}

/// A count that is too low lets capabilities be taken for entities, and the other way round.
#[test]
fn every_byte_is_what_its_place_makes_it() {
    // Entity 0 has a capability (1, 2). Without it, 1 is a count, and the 2 after it is a target.
    assert_eq!(import(&with_length(&[1, 2, 1, 1, 2, 0])).0, 0);
    expect_refused_within(&[1, 2, 0, 1, 2, 0], 22);
    let expected = table_of(&[&[], &[(0, WR)]]);
    assert_eq!(import(&with_length(&[1, 2, 0, 1, 0, 2])), (0, expected));
}

/// Entities that were read before the offence leave nothing behind.
#[test]
fn refusals_bring_back_the_wholly_unborn_table() {
    for (rest, number) in [
        (&[1, 2, 1, 0, STORE][..], 20),
        (&[1, 2, 1, 0, STORE, 0, 0], 20),
        (&[2, 2, 1, 0, STORE, 0], 21),
        (&[1, 2, 1, 0, STORE, 9], 22),
    ] {
        expect_refused_within(rest, number);
    }
}
