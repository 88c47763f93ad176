//! Imports with every kind of offence at every place: the archive answers each as the model does.

use std::collections::BTreeMap;

use yavrinks_peer::archive::Archive;
use yavrinks_peer::differential::compare_import;
use yavrinks_peer::samples::{imports, mended};
use yavrinks_tools::generate::IMPORT_NUMBERS;
use yavrinks_tools::shared::shared_imports;

/// How often each number was answered.
#[derive(Default)]
struct Answered(BTreeMap<u8, u64>);

impl Answered {
    /// Puts the bytes to both sides.
    fn ask(&mut self, bytes: &[u8]) {
        match compare_import(&Archive, bytes) {
            Ok(number) => *self.0.entry(number).or_default() += 1,
            Err(difference) => panic!("{difference}"),
        }
    }

    /// Every number that imports give was answered so often at least, and no other.
    fn at_least(&self, least: u64) {
        assert!(self.0.keys().eq(&IMPORT_NUMBERS), "{:?}", self.0);
        assert!(self.0.values().all(|&count| count >= least), "{:?}", self.0);
    }
}

/// Small imports: what is measured, one with an entity of eight capabilities, and one with 64 entities.
fn small() -> Vec<Vec<u8>> {
    let [_, three] = imports();
    let mut eight = vec![0, 0, 1, 2, 0, 8];
    eight.extend((0..8).flat_map(|k| [k % 2, 1 << (k % 5)]));
    let mut many = vec![0, 0, 1, 64];
    many.extend([0; 63]);
    many.extend([1, 63, 31]);
    vec![three.bytes, mended(eight), mended(many)]
}

#[test]
fn every_value_in_every_place_of_small_imports() {
    let mut answered = Answered::default();
    for bytes in small() {
        for place in 0..bytes.len() {
            for value in 0..=255 {
                let mut other = bytes.clone();
                other[place] = value;
                answered.ask(&other);
            }
        }
    }
    answered.at_least(400);
}

/// With the length field as it was and with the one that is right for so many bytes; the last byte also as a
/// value that is too great for a count, a target or rights.
#[test]
fn every_length_of_small_imports_and_of_the_longest() {
    let mut answered = Answered::default();
    let [full, _] = imports();
    for bytes in small().into_iter().chain([full.bytes]) {
        for length in 0..bytes.len() + 3 {
            let mut other = bytes.clone();
            other.resize(length, 0);
            answered.ask(&other);
            other = mended(other);
            answered.ask(&other);
            if let Some(last @ 0..=31) = other.last_mut().filter(|_| length > 4) {
                *last += 64;
            }
            answered.ask(&other);
            if let Some(version) = other.get_mut(2) {
                *version = 0;
            }
            answered.ask(&other);
        }
    }
    answered.at_least(4);
}

/// The greatest values that may stand in a place and those after them, in every place of the longest import.
#[test]
fn the_edges_in_every_place_of_the_longest_import() {
    let mut answered = Answered::default();
    let [full, _] = imports();
    for place in 0..full.bytes.len() {
        for value in [0, 1, 7, 8, 9, 31, 32, 63, 64, 65, 128, 255] {
            let mut other = full.bytes.clone();
            other[place] = value;
            answered.ask(&other);
        }
    }
    answered.at_least(10);
}

#[test]
fn the_shared_test_vectors() {
    let mut answered = Answered::default();
    let shared = shared_imports();
    assert!(shared.len() > 100);
    for bytes in shared {
        answered.ask(&bytes);
    }
    answered.at_least(1);
}
