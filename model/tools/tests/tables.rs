//! Soundness, in two ways: the library's, and the clauses stated over sets of numbers.
//! Random sound tables, every kind of damage, and single changed fields are tried.

use std::collections::{BTreeMap, BTreeSet};

use yavrinks_model::access::{potential_access, Access};
use yavrinks_model::confinement::{confinement_test, Tested};
use yavrinks_model::image::{encode, read, write, Version};
use yavrinks_model::step::{step, Request};
use yavrinks_model::table::{Capability, Record, Table};
use yavrinks_tools::generate::{any_damage, any_sound_table, damaged_table, Damage};
use yavrinks_tools::rng::Rng;

fn numbers_with_status(table: &Table, statuses: &[u8]) -> BTreeSet<u8> {
    (0..64)
        .filter(|&n| statuses.contains(&table.records[n as usize].status))
        .collect()
}

/// Soundness by the words of document 01, number by number.
fn sound_by_sets(table: &Table) -> bool {
    let unborn = numbers_with_status(table, &[0]);
    let born = numbers_with_status(table, &[1, 2]);
    let mut makers = born.clone();
    makers.insert(64);
    let mut stocked = BTreeSet::new();
    for (n, record) in table.records.iter().enumerate() {
        let n = n as u8;
        if record.status > 2 || record.kind > 1 || (unborn.contains(&n) && record.kind != 0) {
            return false;
        }
        if !makers.contains(&record.maker) || (unborn.contains(&n) && record.maker != 64) {
            return false;
        }
        let blank = Record {
            status: record.status,
            kind: record.kind,
            maker: record.maker,
            ..Record::UNBORN
        };
        if record.status != 1 && *record != blank {
            return false;
        }
        for slot in &record.slots {
            let empty = slot.target == 0 && slot.rights == 0;
            let fit = born.contains(&slot.target) && slot.rights > 0 && slot.rights < 16;
            if !empty && !fit {
                return false;
            }
        }
        for bit in (0..64).filter(|bit| record.stock >> bit & 1 == 1) {
            if !unborn.contains(&bit) || !stocked.insert(bit) {
                return false;
            }
        }
    }
    true
}

#[test]
fn random_tables_are_sound_and_varied() {
    let mut rng = Rng::new(1);
    let mut seen = BTreeSet::new();
    for _ in 0..2000 {
        let table = any_sound_table(&mut rng);
        assert!(table.is_sound() && sound_by_sets(&table));
        let born = numbers_with_status(&table, &[1, 2]).len();
        seen.insert(born);
    }
    assert!(seen.contains(&0) && seen.contains(&64));
    assert!(seen.len() > 50);
}

#[test]
fn every_damage_is_unsound_and_refused_everywhere() {
    let mut rng = Rng::new(2);
    for kind in Damage::ALL {
        for _ in 0..200 {
            let table = damaged_table(&mut rng, kind);
            assert!(!table.is_sound(), "{kind:?}");
            assert!(!sound_by_sets(&table), "{kind:?}");
            assert_refused_everywhere(&table);
        }
    }
}

fn assert_refused_everywhere(table: &Table) {
    let request = Request::Unknown {
        code: 0,
        actor: 255,
    };
    assert_eq!(step(table, &request), (1, table.clone()));
    assert_eq!(potential_access(table), (1, Access::none()));
    let tested = confinement_test(table, 0, &[(0, 0); 9]);
    assert_eq!(tested, Tested::empty(1));
    let image = encode(Version::Two, table);
    assert_eq!(read(&image), (1, Table::unborn()));
    for version in Version::ALL {
        for length in [0, 1923, 1987, 1992] {
            let mut buffer = vec![0xA5; length];
            assert_eq!(write(version, table, &mut buffer), 1);
            assert!(buffer.iter().all(|&byte| byte == 0xA5));
        }
    }
}

/// Damage of makers is gone in version 1, and no other is.
#[test]
fn damage_shows_in_images_of_the_version() {
    let mut rng = Rng::new(4);
    for kind in Damage::ALL {
        for _ in 0..20 {
            let table = damaged_table(&mut rng, kind);
            for version in Version::ALL {
                let expected = u8::from(kind.shows_in(version));
                assert_eq!(read(&encode(version, &table)).0, expected, "{kind:?}");
            }
        }
    }
}

/// Random tables have makers that are alive, dead, the object itself and 64, in alive and in dead records; and
/// some have none at all.
#[test]
fn random_tables_have_makers_of_every_kind() {
    let mut rng = Rng::new(5);
    let mut kinds: BTreeMap<(u8, &str), u32> = BTreeMap::new();
    let mut without = 0;
    for _ in 0..500 {
        let table = any_sound_table(&mut rng);
        without += u32::from(!table.has_makers());
        for (n, record) in (0..).zip(&table.records) {
            let maker = match record.maker {
                64 => "nobody",
                maker if maker == n => "itself",
                maker if table.record(maker).is_alive() => "alive",
                _ => "dead",
            };
            *kinds.entry((record.status, maker)).or_default() += 1;
        }
    }
    println!("{kinds:?}, {without} without makers");
    for status in [1, 2] {
        for maker in ["nobody", "itself", "alive", "dead"] {
            assert!(kinds[&(status, maker)] > 50, "{status}, {maker}");
        }
    }
    assert!(kinds
        .keys()
        .all(|&(status, maker)| status != 0 || maker == "nobody"));
    assert!((100..400).contains(&without));
}

#[test]
fn changed_fields_are_judged_alike_by_both_ways() {
    let mut rng = Rng::new(3);
    let mut unsound = 0;
    for _ in 0..20_000 {
        let mut table = any_sound_table(&mut rng);
        if rng.percent(20) {
            any_damage(&mut rng, &mut table);
        }
        change_field(&mut rng, &mut table);
        assert_eq!(table.is_sound(), sound_by_sets(&table));
        unsound += u32::from(!table.is_sound());
    }
    assert!((2_000..19_000).contains(&unsound));
}

/// Changes one field of one record, mostly to a value near the range of sound ones.
fn change_field(rng: &mut Rng, table: &mut Table) {
    let record = &mut table.records[rng.between(0, 63) as usize];
    match rng.between(0, 5) {
        0 => record.status = rng.byte(0, 3),
        5 => record.maker = rng.byte(0, 66),
        1 => record.kind = rng.byte(0, 2),
        2 => record.word = rng.byte(0, 1).into(),
        3 => record.stock ^= 1 << rng.between(0, 63),
        _ => {
            let slot = Capability::new(rng.byte(0, 66), rng.byte(0, 17));
            record.slots[rng.between(0, 7) as usize] = slot;
        }
    }
}
