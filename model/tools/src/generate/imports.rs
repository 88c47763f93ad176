//! Random take-and-grant tables as bytes, to be brought in: whole ones of every size, and ones with a
//! fault of each kind. Some have two faults, so that it shows which of them is found first.

use crate::rng::Rng;
use yavrinks_model::take_grant::{import, ALL_OLD_RIGHTS, CREATE, STORE};

/// The numbers that an import can give.
pub const IMPORT_NUMBERS: [u8; 4] = [0, 20, 21, 22];

/// The most entities of a table, and the most capabilities of an entity.
const MOST_ENTITIES: u8 = 64;
const MOST_CAPABILITIES: u8 = 8;
/// The places of the version and of the entity count, and the bytes before the first entity.
const VERSION_AT: usize = 2;
const ENTITIES_AT: usize = 3;
const HEAD_LENGTH: usize = 4;

/// How many capabilities the entities of a table have, at least and at most.
const FULLNESS: [(u8, u8); 6] = [
    (0, 0),
    (0, 2),
    (0, 2),
    (1, 3),
    (0, MOST_CAPABILITIES),
    (MOST_CAPABILITIES, MOST_CAPABILITIES),
];

/// Bytes of any kind: about two of five are whole tables, and some have two faults.
pub fn import_bytes(rng: &mut Rng) -> Vec<u8> {
    let mut drawn = Drawn::any(rng);
    if rng.percent(65) {
        add_fault(rng, &mut drawn);
        if rng.percent(30) {
            add_fault(rng, &mut drawn);
        }
    }
    drawn.bytes
}

/// Bytes for which an import gives `aim`.
pub fn import_case(rng: &mut Rng, aim: u8) -> Vec<u8> {
    assert!(IMPORT_NUMBERS.contains(&aim), "no import gives {aim}");
    loop {
        let bytes = import_bytes(rng);
        if import(&bytes).0 == aim {
            return bytes;
        }
    }
}

/// A whole table of 64 entities with 8 capabilities each: 1,092 bytes.
pub fn full_import(rng: &mut Rng) -> Vec<u8> {
    let full = (MOST_CAPABILITIES, MOST_CAPABILITIES);
    Drawn::table(rng, MOST_ENTITIES, full).bytes
}

/// A table as bytes, and the places in it where a fault can be put.
struct Drawn {
    bytes: Vec<u8>,
    entities: u8,
    /// The places of the capability counts.
    counts: Vec<usize>,
    /// The places of the targets; rights stand after them.
    targets: Vec<usize>,
}

impl Drawn {
    /// A whole table of any size, most often a small one.
    fn any(rng: &mut Rng) -> Drawn {
        let entities = match rng.between(0, 9) {
            0 => 0,
            1 => 1,
            2 => MOST_ENTITIES,
            3 => rng.byte(0, MOST_ENTITIES),
            _ => rng.byte(1, 6),
        };
        let fullness = rng.pick(&FULLNESS).unwrap_or((0, 0));
        Drawn::table(rng, entities, fullness)
    }

    fn table(rng: &mut Rng, entities: u8, (least, most): (u8, u8)) -> Drawn {
        let mut drawn = Drawn {
            bytes: vec![0, 0, 1, entities],
            entities,
            counts: Vec::new(),
            targets: Vec::new(),
        };
        for _ in 0..entities {
            let capabilities = rng.byte(least, most);
            drawn.counts.push(drawn.bytes.len());
            drawn.bytes.push(capabilities);
            for _ in 0..capabilities {
                drawn.targets.push(drawn.bytes.len());
                drawn.bytes.push(rng.byte(0, entities - 1));
                drawn.bytes.push(any_rights(rng));
            }
        }
        drawn.mend_length();
        drawn
    }

    /// Lets the length field say how many bytes there are.
    fn mend_length(&mut self) {
        self.put_length(self.bytes.len());
    }

    fn put_length(&mut self, length: usize) {
        for (at, byte) in (length as u16).to_be_bytes().into_iter().enumerate() {
            self.put(at, byte);
        }
    }

    /// Changes a byte, if an earlier fault has not cut it off.
    fn put(&mut self, at: usize, byte: u8) {
        if let Some(place) = self.bytes.get_mut(at) {
            *place = byte;
        }
    }

    /// Changes one of some bytes, if there are any.
    fn put_at_any(&mut self, rng: &mut Rng, places: &[usize], byte: u8) {
        if let Some(at) = rng.pick(places) {
            self.put(at, byte);
        }
    }
}

/// Any rights. Often one alone, and often none that an import keeps.
fn any_rights(rng: &mut Rng) -> u8 {
    let one = 1 << rng.byte(0, 4);
    let any = rng.byte(0, ALL_OLD_RIGHTS);
    rng.pick(&[one, any, any, STORE, CREATE, 0]).unwrap_or(any)
}

type Fault = fn(&mut Rng, &mut Drawn);

/// Faults by what is wrong: the length, the version, a value, or how many bytes belong to what. A table
/// that is too small for a fault stays as it was.
const FAULTS: [&[Fault]; 4] = [
    &[
        short,
        cut,
        longer,
        other_length_field,
        cut_and_mended,
        longer_and_mended,
    ],
    &[version],
    &[
        high_entity_count,
        high_capability_count,
        high_target,
        high_rights,
        high_target_at_the_end,
    ],
    &[other_entity_count, other_capability_count],
];

fn add_fault(rng: &mut Rng, drawn: &mut Drawn) {
    let fault = rng.pick(&FAULTS).and_then(|faults| rng.pick(faults));
    fault.unwrap_or(short)(rng, drawn);
}

fn short(rng: &mut Rng, drawn: &mut Drawn) {
    let length = rng.between(0, HEAD_LENGTH as u64 - 1) as usize;
    drawn.bytes.truncate(length);
    if rng.percent(50) {
        drawn.mend_length();
    }
}

fn cut(rng: &mut Rng, drawn: &mut Drawn) {
    let longest = drawn.bytes.len().saturating_sub(1);
    drawn
        .bytes
        .truncate(rng.between(0, longest as u64) as usize);
}

fn cut_and_mended(rng: &mut Rng, drawn: &mut Drawn) {
    let longest = drawn.bytes.len().saturating_sub(1).max(HEAD_LENGTH);
    let length = rng.between(HEAD_LENGTH as u64, longest as u64) as usize;
    drawn.bytes.truncate(length);
    drawn.mend_length();
}

/// More bytes after the last entity. Zeros would be entities with no capability.
fn longer(rng: &mut Rng, drawn: &mut Drawn) {
    let zeros = rng.percent(50);
    for _ in 0..rng.between(1, 3) {
        let byte = if zeros { 0 } else { rng.byte(0, 255) };
        drawn.bytes.push(byte);
    }
}

fn longer_and_mended(rng: &mut Rng, drawn: &mut Drawn) {
    longer(rng, drawn);
    drawn.mend_length();
}

/// One off, without the head, with its bytes the other way round, or any other.
fn other_length_field(rng: &mut Rng, drawn: &mut Drawn) {
    let length = drawn.bytes.len();
    let other = match rng.between(0, 4) {
        0 => length + 1,
        1 => length.saturating_sub(1),
        2 => length.saturating_sub(HEAD_LENGTH),
        3 => usize::from((length as u16).swap_bytes()),
        _ => length ^ rng.between(1, 65535) as usize,
    };
    drawn.put_length(other);
}

fn version(rng: &mut Rng, drawn: &mut Drawn) {
    let other = rng.pick(&[0, 2, 3, 128, 129, 255]).unwrap_or(0);
    drawn.put(VERSION_AT, other);
}

fn high_entity_count(rng: &mut Rng, drawn: &mut Drawn) {
    drawn.put(ENTITIES_AT, rng.byte_above(MOST_ENTITIES));
}

fn high_capability_count(rng: &mut Rng, drawn: &mut Drawn) {
    let count = rng.byte_above(MOST_CAPABILITIES);
    let places = drawn.counts.clone();
    drawn.put_at_any(rng, &places, count);
}

/// A target at the entity count or above it. Where there are no entities, there is no target.
fn high_target(rng: &mut Rng, drawn: &mut Drawn) {
    let target = rng.byte_above(drawn.entities.saturating_sub(1));
    let places = drawn.targets.clone();
    drawn.put_at_any(rng, &places, target);
}

/// The same with no rights after it, and no byte more.
fn high_target_at_the_end(rng: &mut Rng, drawn: &mut Drawn) {
    let target = rng.byte_above(drawn.entities.saturating_sub(1));
    if let Some(at) = rng.pick(&drawn.targets) {
        drawn.put(at, target);
        drawn.bytes.truncate(at + 1);
        drawn.mend_length();
    }
}

fn high_rights(rng: &mut Rng, drawn: &mut Drawn) {
    let rights = rng.byte_above(ALL_OLD_RIGHTS);
    let places: Vec<usize> = drawn.targets.iter().map(|at| at + 1).collect();
    drawn.put_at_any(rng, &places, rights);
}

fn other_entity_count(rng: &mut Rng, drawn: &mut Drawn) {
    drawn.put(ENTITIES_AT, rng.byte(0, MOST_ENTITIES));
}

fn other_capability_count(rng: &mut Rng, drawn: &mut Drawn) {
    let count = rng.byte(0, MOST_CAPABILITIES);
    let places = drawn.counts.clone();
    drawn.put_at_any(rng, &places, count);
}
