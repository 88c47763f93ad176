//! The version that is written for speed answers as the model does: on tables of every shape, on unsound ones, and in
//! tests for every number.

use yavrinks_model::access::potential_access;
use yavrinks_model::confinement::confinement_test;
use yavrinks_model::set;
use yavrinks_model::table::{Capability, Table, DEAD, RD, WK};
use yavrinks_model::wire::decode_list;
use yavrinks_peer::archive::{Archive, Calls};
use yavrinks_peer::convert::to_raw;
use yavrinks_peer::differential::{grouped_table, SPANS};
use yavrinks_peer::group_samples::{alive, group_tables, group_tests, walk_tables};
use yavrinks_peer::groups::{groups_of, wk_between};
use yavrinks_peer::samples::{first_in_all_slots, list_bytes, material_test, own_test, rows};
use yavrinks_tools::generate::{
    any_damage, any_sound_table, confinement_case, damaged_table, layered_test,
};
use yavrinks_tools::generate::{ConfinementCase, Damage, CONFINEMENT_NUMBERS};
use yavrinks_tools::rng::Rng;
use yavrinks_tools::rows::rows as rows_of;

/// Is potential access the model's?
#[track_caller]
fn same_access(name: &str, table: &Table) {
    let (number, access) = potential_access(table);
    let found = Archive.fast_access(&to_raw(table));
    assert_eq!(found.number, number, "{name}: {table:?}");
    assert!(found.rows.iter().eq(&rows_of(&access)), "{name}: {table:?}");
}

/// Is the test of these bytes the model's?
#[track_caller]
fn same_test(name: &str, table: &Table, members: u64, list: &[u8]) -> u8 {
    let expected = confinement_test(table, members, &decode_list(list));
    let found = Archive.fast_test(&to_raw(table), members, list);
    assert_eq!(
        (found.number, found.bound, found.rounds),
        (expected.number, expected.bound, expected.rounds),
        "{name}: {table:?}, {members:#x}, {list:?}"
    );
    found.number
}

#[track_caller]
fn same_case(name: &str, case: &ConfinementCase) -> u8 {
    same_test(name, &case.table, case.members, &list_bytes(&case.list))
}

#[test]
fn sound_tables_of_every_shape() {
    let mut rng = Rng::new(29);
    for k in 0..1500 {
        same_access(&format!("{k}"), &any_sound_table(&mut rng));
    }
}

/// Of few groups, of some and of many; in most there is wk between them.
#[test]
fn tables_of_several_groups() {
    let (mut rng, mut between) = (Rng::new(30), 0);
    for k in 0..600 {
        let span = &SPANS[k % SPANS.len()];
        let groups = rng.between(*span.start(), *span.end());
        let table = grouped_table(&mut rng, groups);
        assert!(table.is_sound());
        assert!(groups_of(&table).len() as u64 >= groups);
        between += u32::from(wk_between(&table, &groups_of(&table)));
        same_access(&format!("{k}"), &table);
    }
    assert!(between > 300, "{between}");
}

#[test]
fn tables_that_are_measured() {
    for one in group_tables().into_iter().chain(walk_tables()) {
        assert!(one.table.is_sound(), "{}", one.name);
        same_access(&one.name, &one.table);
        // The same with the last object dead and out of every hand, so that one number less holds anything.
        let mut fewer = one.table.clone();
        for record in &mut fewer.records {
            for slot in record.slots.iter_mut().filter(|slot| slot.target == 63) {
                *slot = Capability::EMPTY;
            }
        }
        fewer.records[63].slots = [Capability::EMPTY; 8];
        fewer.records[63].word = 0;
        for status in [0, DEAD] {
            fewer.records[63].status = status;
            fewer.records[63].kind = 0;
            same_access(&one.name, &fewer);
        }
    }
}

/// Each kind of damage, and damage of any kind to full tables with 64, 63 and 62 born objects.
#[test]
fn unsound_tables() {
    let mut rng = Rng::new(31);
    for kind in Damage::ALL {
        for _ in 0..120 {
            let table = damaged_table(&mut rng, kind);
            same_access(&format!("{kind:?}"), &table);
            let any = set::single(rng.byte(0, 63));
            same_test(&format!("{kind:?}"), &table, any, &[]);
        }
    }
    let full = group_tables()
        .into_iter()
        .filter(|one| one.name.contains("slots an"));
    for one in full.collect::<Vec<_>>() {
        for born in [64, 63, 62] {
            let mut table = one.table.clone();
            for record in &mut table.records[born..] {
                *record = alive(0).records[0];
            }
            for slot in table
                .records
                .iter_mut()
                .flat_map(|record| &mut record.slots)
            {
                slot.target %= born as u8;
            }
            assert!(table.is_sound());
            for _ in 0..40 {
                let mut damaged = table.clone();
                any_damage(&mut rng, &mut damaged);
                same_access(&one.name, &damaged);
                same_test(&one.name, &damaged, 1, &[2, 1]);
            }
        }
    }
}

/// Number 0 is the target of an empty slot too.
#[test]
fn number_0_unborn_and_a_member() {
    for filled in 0..=8 {
        let mut table = alive(64);
        table.records[0].status = 0;
        table.records[0].kind = 0;
        for n in 1..64 {
            for j in 0..filled {
                let rights = if (n + j) % 3 == 0 { RD } else { WK };
                let target = (n * 5 + j) % 63 + 1;
                table.records[n].slots[j] = Capability::new(target as u8, rights);
            }
        }
        same_access("0 unborn", &table);
        let mut named = table.clone();
        named.records[9].slots[7] = Capability::new(0, WK);
        assert!(!named.is_sound());
        same_access("0 unborn and named", &named);
        let mut member = table.clone();
        member.records[0].status = 1;
        assert_eq!(same_test("0 a member", &member, 1, &[5, RD]), 0);
        member.records[9].slots[7] = Capability::new(0, WK);
        assert_eq!(same_test("0 a member and named", &member, 1, &[5, RD]), 13);
    }
}

#[test]
fn tests_for_every_number() {
    let mut rng = Rng::new(32);
    for aim in CONFINEMENT_NUMBERS {
        for _ in 0..300 {
            let case = confinement_case(&mut rng, aim);
            assert_eq!(same_case(&format!("aimed at {aim}"), &case), aim);
        }
    }
}

/// Of many rounds, on tables where little is held and where every slot is filled.
#[test]
fn tests_of_many_rounds() {
    let mut rng = Rng::new(33);
    for _ in 0..400 {
        let case = layered_test(&mut rng);
        same_case("layers", &case);
        let full = ConfinementCase {
            table: first_in_all_slots(&case.table),
            ..case
        };
        same_case("layers, slots filled", &full);
    }
    for row in rows() {
        let case = own_test(&row);
        same_case(row.name, &case);
        let full = ConfinementCase {
            table: first_in_all_slots(&case.table),
            ..case
        };
        assert_eq!(same_case("a row, slots filled", &full), 0);
    }
}

#[test]
fn tests_that_are_measured() {
    let mut numbers = Vec::new();
    for one in group_tests() {
        numbers.push(same_case(&one.name, &one.case));
    }
    same_case("64 wk unlisted", &material_test());
    for number in [0, 12, 13] {
        assert!(numbers.contains(&number));
    }
}

/// Bytes of any length and value, of which most are no list.
#[test]
fn lists_of_any_bytes() {
    let mut rng = Rng::new(34);
    for _ in 0..2000 {
        let table = any_sound_table(&mut rng);
        let length = rng.between(0, 20) as usize;
        let list: Vec<u8> = (0..length).map(|_| rng.byte(0, 70)).collect();
        let members = rng.bits() & rng.bits() & rng.bits();
        same_test("any bytes", &table, members, &list);
        same_test(
            "any bytes, alive members",
            &table,
            members & table.born(),
            &list,
        );
    }
}
