//! Random images in both versions, tables to be written in each, and inputs of `confine`, each aimed at
//! success or at one refusal. As with the other cases, later offences are added to some.

use super::confinement::{confinement_case, ConfinementCase, CONFINEMENT_NUMBERS};
use super::tables::{any_damage, any_damage_in, any_sound_table, without_makers};
use crate::rng::Rng;
use yavrinks_model::confinement::{Entry, MAX_ENTRIES};
use yavrinks_model::image::{encode, Version, HEAD_LENGTH, VERSION_AT};
use yavrinks_model::table::Table;

/// The numbers that reading an image can give.
pub const IMAGE_NUMBERS: [u8; 4] = [0, 14, 15, 1];
/// The numbers that writing in a version can give.
pub const WRITE_NUMBERS: [(Version, u8); 7] = [
    (Version::One, 0),
    (Version::One, 1),
    (Version::One, 23),
    (Version::One, 16),
    (Version::Two, 0),
    (Version::Two, 1),
    (Version::Two, 16),
];
/// The numbers that the program can give; 0 stands for `accepted`.
pub const CONFINE_NUMBERS: [u8; 9] = [0, 17, 15, 14, 1, 10, 11, 12, 13];
/// Where the count byte of an input stands.
pub const INPUT_COUNT_AT: usize = Version::One.image_length() + 8;

/// Bytes for which reading gives `aim`, made from an image of either version.
pub fn image_case(rng: &mut Rng, aim: u8) -> Vec<u8> {
    let version = rng.pick(&Version::ALL).unwrap_or(Version::Two);
    image_of(rng, version, aim)
}

/// Bytes for which reading gives `aim`, made from an image of the version.
pub fn image_of(rng: &mut Rng, version: Version, aim: u8) -> Vec<u8> {
    assert!(IMAGE_NUMBERS.contains(&aim), "no reading gives {aim}");
    let mut table = any_sound_table(rng);
    if aim == 1 || (aim != 0 && rng.percent(30)) {
        any_damage_in(rng, version, &mut table);
    }
    let mut image = encode(version, &table);
    match aim {
        14 => spoil_length(rng, &mut image),
        15 => {
            if rng.percent(50) {
                spoil_length(rng, &mut image);
            }
            image.resize(image.len().max(HEAD_LENGTH), 0);
            image[VERSION_AT] = rng.pick(&[0, 3, 4, 128, 129, 130, 255]).unwrap_or(0);
        }
        _ => {}
    }
    image
}

/// Makes the length field, the slice or the version another, so that they do not fit each other.
fn spoil_length(rng: &mut Rng, image: &mut Vec<u8>) {
    match rng.between(0, 4) {
        0 | 1 => spoil_length_field(rng, image),
        2 | 3 => change_length(rng, image),
        // Version 1 becomes version 2, and the other way round.
        _ => image[VERSION_AT] ^= 3,
    }
}

/// A table of any kind, and the length of the buffer that it is written into.
#[derive(Clone, Debug, PartialEq, Eq)]
pub struct WriteCase {
    pub table: Table,
    pub room: usize,
}

/// A table and a buffer's length for which writing in the version gives `aim`.
pub fn write_case(rng: &mut Rng, version: Version, aim: u8) -> WriteCase {
    let known = WRITE_NUMBERS.contains(&(version, aim));
    assert!(known, "no writing in {version:?} gives {aim}");
    let mut table = any_sound_table(rng);
    match aim {
        1 => any_damage(rng, &mut table),
        23 => {
            while !table.has_makers() {
                table = any_sound_table(rng);
            }
        }
        _ if version == Version::One => table = without_makers(&table),
        _ => {}
    }
    let short = aim == 16 || (aim != 0 && rng.percent(50));
    let length = version.image_length();
    let room = match short {
        true => rng.pick(&[0, 1, 1000, length - 2, length - 1]).unwrap_or(0),
        false => length + rng.pick(&[0, 0, 1, 64, 200]).unwrap_or(0),
    };
    WriteCase { table, room }
}

/// An input for which the program gives `aim`.
pub fn confine_input(rng: &mut Rng, aim: u8) -> Vec<u8> {
    assert!(CONFINE_NUMBERS.contains(&aim), "no input gives {aim}");
    let later = rng.pick(&CONFINEMENT_NUMBERS).unwrap_or(0);
    let number = match CONFINEMENT_NUMBERS.contains(&aim) {
        true => aim,
        false => later,
    };
    let case = case_in_version_1(rng, number);
    if matches!(aim, 15 | 17) && rng.percent(20) {
        return newer_input(case, aim);
    }
    let mut input = encode_input(&case);
    if aim == 15 || (aim == 17 && rng.percent(30)) {
        input[VERSION_AT] = rng.pick(&[0, 2, 3, 128, 255]).unwrap_or(0);
    }
    if aim == 14 || (matches!(aim, 15 | 17) && rng.percent(30)) {
        spoil_length_field(rng, &mut input);
    }
    if aim == 17 && rng.percent(50) {
        change_length(rng, &mut input);
    } else if aim == 17 {
        input[INPUT_COUNT_AT] ^= rng.byte(1, 255);
    }
    input
}

/// A test that gives the number even where the makers are left out.
fn case_in_version_1(rng: &mut Rng, number: u8) -> ConfinementCase {
    loop {
        let case = confinement_case(rng, number);
        if number != 1 || !without_makers(&case.table).is_sound() {
            return case;
        }
    }
}

/// An input with an image of version 2. The program looks for the count byte where version 1 has it: for 15 it
/// counts all bytes after that place, for 17 it does not.
pub fn newer_input(mut case: ConfinementCase, aim: u8) -> Vec<u8> {
    case.list.truncate(MAX_ENTRIES);
    let mut input = input_with(Version::Two, &case);
    let after = input.len() - INPUT_COUNT_AT - 1;
    let count = (after / 2) as u8;
    input[INPUT_COUNT_AT] = match aim {
        15 => count,
        _ => !count,
    };
    input
}

/// The number that a printed text tells: 0 for `accepted`.
pub fn printed_number(text: &str) -> u8 {
    text.strip_prefix("refused ")
        .and_then(|rest| rest.trim_end().parse().ok())
        .unwrap_or(0)
}

/// The input that states a case, without its makers. Its list has at most 255 entries.
pub fn encode_input(case: &ConfinementCase) -> Vec<u8> {
    input_with(Version::One, case)
}

fn input_with(version: Version, case: &ConfinementCase) -> Vec<u8> {
    let mut input = encode(version, &case.table);
    input.extend(case.members.to_be_bytes());
    input.push(case.list.len() as u8);
    let entry_bytes = |&(target, rights): &Entry| [target, rights];
    input.extend(case.list.iter().flat_map(entry_bytes));
    input
}

fn spoil_length_field(rng: &mut Rng, bytes: &mut [u8]) {
    bytes[rng.between(0, 1) as usize] ^= rng.byte(1, 255);
}

/// Makes the bytes longer or shorter. The count byte, if it is still there, stays.
fn change_length(rng: &mut Rng, bytes: &mut Vec<u8>) {
    let length = bytes.len();
    match rng.between(0, 4) {
        0 => bytes.clear(),
        1 => bytes.truncate(rng.between(0, length as u64 - 1) as usize),
        2 => bytes.truncate(length - 1),
        3 => bytes.push(rng.byte(0, 255)),
        _ => bytes.resize(length + rng.between(1, 100) as usize, 0),
    }
}
