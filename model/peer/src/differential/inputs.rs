//! Images, imports and inputs of `confine`: right ones, aimed ones, and what damage makes of them.

use yavrinks_model::image::{Version, HEAD_LENGTH, VERSION_AT};
use yavrinks_model::table::NO_MAKER;
use yavrinks_tools::generate::{confine_input, image_case, import_case};
use yavrinks_tools::generate::{CONFINE_NUMBERS, IMAGE_NUMBERS, IMPORT_NUMBERS};
use yavrinks_tools::rng::Rng;

use super::draw::any_bytes;
use crate::samples::mended;

/// How often bytes are damaged in a new way before others are made.
const USES: u32 = 4;

/// A kind of bytes: made for one of the numbers, then used some times.
pub struct Source {
    make: fn(&mut Rng, u8) -> Vec<u8>,
    damage: fn(&mut Rng, &mut Vec<u8>),
    numbers: &'static [u8],
    bytes: Vec<u8>,
    left: u32,
}

impl Source {
    /// Images, for every number that reading gives.
    pub fn images() -> Source {
        Source::new(image_case, damage_image, &IMAGE_NUMBERS)
    }

    /// Imports, for every number that they give.
    pub fn imports() -> Source {
        Source::new(import_case, damage_import, &IMPORT_NUMBERS)
    }

    /// Inputs of `confine`, for every number that it prints.
    pub fn confine_inputs() -> Source {
        Source::new(confine_input, damage_image, &CONFINE_NUMBERS)
    }

    fn new(
        make: fn(&mut Rng, u8) -> Vec<u8>,
        damage: fn(&mut Rng, &mut Vec<u8>),
        numbers: &'static [u8],
    ) -> Source {
        Source {
            make,
            damage,
            numbers,
            bytes: Vec::new(),
            left: 0,
        }
    }

    /// The next bytes: new ones as they were made, then the same ones damaged.
    pub fn next(&mut self, rng: &mut Rng) -> Vec<u8> {
        if self.left == 0 {
            let number = self.numbers[rng.between(0, self.numbers.len() as u64 - 1) as usize];
            self.bytes = (self.make)(rng, number);
            self.left = USES;
        }
        self.left -= 1;
        let mut bytes = self.bytes.clone();
        if self.left + 1 < USES {
            (self.damage)(rng, &mut bytes);
        }
        bytes
    }
}

/// A place in the last record of an image of version 1.
const LAST_RECORD: usize = Version::One.image_length() - 15;

/// Damage of one kind, to an image or to an input of `confine`.
fn damage_image(rng: &mut Rng, bytes: &mut Vec<u8>) {
    let length = bytes.len();
    match rng.between(0, 99) {
        0..=24 => put_bytes(rng, bytes, 0, length, 1),
        25..=39 => {
            let count = rng.between(2, 12);
            put_bytes(rng, bytes, 0, length, count);
        }
        40..=44 => put_bytes(rng, bytes, 0, 2, 1),
        45..=49 => put_bytes(rng, bytes, 2, HEAD_LENGTH, 1),
        50..=54 => put_status_or_kind(rng, bytes),
        55..=59 => put_maker(rng, bytes),
        // Members, count and list of an input of `confine`; the last records of an image.
        60..=79 => put_bytes(rng, bytes, LAST_RECORD, length, 1),
        80..=86 => {
            let kept = if rng.percent(50) {
                1
            } else {
                rng.between(0, length as u64)
            };
            bytes.truncate(length.saturating_sub(kept as usize));
        }
        87..=92 => {
            let more = if rng.percent(50) {
                1
            } else {
                rng.between(1, 600)
            };
            let more = any_bytes(rng, more as usize);
            bytes.extend(more);
        }
        _ => *bytes = noise(rng),
    }
}

/// The bytes of an import before its first entity.
const IMPORT_HEAD: usize = 4;

/// Damage of one kind to an import. Most often the length field is mended after it, for what follows the field
/// is looked at only where the field is right.
fn damage_import(rng: &mut Rng, bytes: &mut Vec<u8>) {
    let length = bytes.len();
    match rng.between(0, 99) {
        0..=39 => put_bytes(rng, bytes, IMPORT_HEAD, length, 1),
        40..=54 => {
            let count = rng.between(2, 12);
            put_bytes(rng, bytes, IMPORT_HEAD, length, count);
        }
        55..=64 => put_bytes(rng, bytes, 2, IMPORT_HEAD, 1),
        65..=69 => put_bytes(rng, bytes, 0, length, 3),
        70..=79 => bytes.truncate(rng.between(0, length as u64) as usize),
        80..=89 => {
            let more = rng.between(1, 20) as usize;
            bytes.extend(any_bytes(rng, more));
        }
        _ => *bytes = import_noise(rng),
    }
    if rng.percent(80) {
        *bytes = mended(std::mem::take(bytes));
    }
}

/// Small values of any number, which are more often in range than any values are, with an import's head.
fn import_noise(rng: &mut Rng) -> Vec<u8> {
    let length = rng.between(0, 1200) as usize;
    let mut bytes = any_bytes(rng, length);
    for byte in &mut bytes {
        *byte &= 7;
    }
    if let Some(head) = bytes.get_mut(2..IMPORT_HEAD) {
        head.copy_from_slice(&[1, rng.byte(0, 64)]);
    }
    bytes
}

/// Random values in some places from `start` to before `end`.
fn put_bytes(rng: &mut Rng, bytes: &mut [u8], start: usize, end: usize, count: u64) {
    let end = end.min(bytes.len());
    if start >= end {
        return;
    }
    for _ in 0..count {
        let place = rng.between(start as u64, end as u64 - 1) as usize;
        bytes[place] = match rng.between(0, 2) {
            0 => bytes[place] ^ 1 << rng.between(0, 7),
            1 => rng.byte(0, 16),
            _ => rng.bits() as u8,
        };
    }
}

/// Another small value as a record's status or kind.
fn put_status_or_kind(rng: &mut Rng, bytes: &mut [u8]) {
    let place = rng.between(0, 1) as usize;
    let value = rng.byte(0, 3);
    put_in_record(rng, bytes, place, value);
}

/// Another maker, where the version has one: 64, a number, or one a little above.
fn put_maker(rng: &mut Rng, bytes: &mut [u8]) {
    let value = match rng.between(0, 2) {
        0 => NO_MAKER,
        _ => rng.byte(0, NO_MAKER + 2),
    };
    put_in_record(rng, bytes, Version::One.record_length(), value);
}

/// Another value in a place of any record, where it has that place and is there.
fn put_in_record(rng: &mut Rng, bytes: &mut [u8], place: usize, value: u8) {
    let version = bytes
        .get(VERSION_AT)
        .and_then(|&number| Version::of(number));
    let size = version.unwrap_or(Version::One).record_length();
    let start = HEAD_LENGTH + size * rng.between(0, 63) as usize;
    if let Some(byte) = bytes.get_mut(start + place).filter(|_| place < size) {
        *byte = value;
    }
}

/// Random bytes of any length, or of an image's length with its head.
fn noise(rng: &mut Rng) -> Vec<u8> {
    if rng.percent(50) {
        let length = rng.between(0, 2600) as usize;
        return any_bytes(rng, length);
    }
    let version = rng.pick(&Version::ALL).unwrap_or(Version::Two);
    let mut bytes = any_bytes(rng, version.image_length());
    bytes[VERSION_AT] = version.number();
    mended(bytes)
}
