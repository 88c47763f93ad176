//! A table to the archive's form and back.

use yavrinks_model::image::{self, Version};
use yavrinks_model::table::Table;
use yavrinks_peer::archive::{Archive, Calls};
use yavrinks_peer::convert::{to_model, to_raw};
use yavrinks_tools::generate::{any_sound_table, damaged_table, Damage};
use yavrinks_tools::rng::Rng;

#[test]
fn there_and_back_is_the_same_table() {
    let mut rng = Rng::new(1);
    for _ in 0..200 {
        let table = any_sound_table(&mut rng);
        assert_eq!(to_model(&to_raw(&table)), table);
    }
    for kind in Damage::ALL {
        let table = damaged_table(&mut rng, kind);
        assert_eq!(to_model(&to_raw(&table)), table);
    }
}

#[test]
fn every_field_of_table_k_has_its_place() {
    let raw = to_raw(&Table::k());
    assert_eq!((raw.records[5].status, raw.records[5].kind), (1, 1));
    assert_eq!(raw.records[5].stock.bits(), 1 << 10 | 1 << 11);
    let slot = raw.slots[2 * 8 + 1];
    assert_eq!((slot.target, slot.rights), (6, 4));
    assert_eq!(raw.records.map(|record| record.maker), [64; 64]);
    let mut made = Table::k();
    made.record_mut(6).maker = 5;
    assert_eq!(to_raw(&made).records[6].maker, 5);
    assert_eq!(to_model(&to_raw(&made)), made);
}

#[test]
fn the_archive_writes_the_images_that_the_model_writes() {
    let k = Table::k();
    let mut buffer = [0; Version::Two.image_length()];
    assert_eq!(Archive.write(&mut to_raw(&k), &mut buffer), 0);
    assert_eq!(buffer.to_vec(), image::encode(Version::Two, &k));
    let mut older = [0; Version::One.image_length()];
    assert_eq!(Archive.write_older(&mut to_raw(&k), &mut older), 0);
    assert_eq!(older.to_vec(), image::encode(Version::One, &k));
}
