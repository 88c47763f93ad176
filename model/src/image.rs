//! The stored image of a table: reading and writing, big-endian, in the two versions of 2.7.
//! `encode` and `decode` ignore soundness; `write` and `read` add the checks in their order.

use crate::refusal::{reply_number, Refusal};
use crate::table::{Capability, Record, Table, NO_MAKER, NO_SLOTS, OBJECTS};

/// The bytes before the first record: a length of two bytes and the version.
pub const HEAD_LENGTH: usize = 3;

/// Where the version byte stands: last in the head.
pub const VERSION_AT: usize = 2;
/// Where the slots begin in a record: after status, kind, word and stock.
const SLOTS_START: usize = 14;
/// Where the maker stands in a record of version 2: after the slots.
const MAKER_AT: usize = 30;

/// The two forms of an image. The discriminant is the version byte.
#[derive(Clone, Copy, Debug, PartialEq, Eq)]
#[repr(u8)]
pub enum Version {
    /// The older form, whose records end with the slots.
    One = 1,
    /// The form whose records end with the maker.
    Two = 2,
}

impl Version {
    pub const ALL: [Version; 2] = [Version::One, Version::Two];

    /// The version with the number, if there is one.
    pub fn of(number: u8) -> Option<Version> {
        Version::ALL
            .into_iter()
            .find(|version| version.number() == number)
    }

    pub const fn number(self) -> u8 {
        self as u8
    }

    /// The length of one record.
    pub const fn record_length(self) -> usize {
        match self {
            Version::One => 30,
            Version::Two => 31,
        }
    }

    /// The length of an image, all bytes counted: 1,923 or 1,987.
    pub const fn image_length(self) -> usize {
        HEAD_LENGTH + OBJECTS * self.record_length()
    }
}

/// Reads an image of either version: 0 and its table, or the refusal number and the wholly unborn table.
pub fn read(image: &[u8]) -> (u8, Table) {
    let outcome = checked_table(image);
    let number = reply_number(&outcome);
    (number, outcome.unwrap_or_else(|_| Table::unborn()))
}

/// The checks of reading: 14 for a slice that has no whole head, 15, 14 for the version's own length in
/// the slice and in the length field, then 1.
fn checked_table(image: &[u8]) -> Result<Table, Refusal> {
    let [high, low, number, records @ ..] = image else {
        return Err(Refusal::ImageLength);
    };
    let version = Version::of(*number).ok_or(Refusal::ImageVersion)?;
    let length = version.image_length();
    if image.len() != length || usize::from(u16::from_be_bytes([*high, *low])) != length {
        return Err(Refusal::ImageLength);
    }
    let table = decode(version, records);
    if !table.is_sound() {
        return Err(Refusal::TableNotSound);
    }
    Ok(table)
}

/// Writes the image of a table in a version into the first bytes of a buffer, as many as that version
/// has, and touches no byte after them. Gives 0, or the refusal number with the buffer as it was. Checks
/// 1, then 23, which the older form alone can meet, then 16.
pub fn write(version: Version, table: &Table, buffer: &mut [u8]) -> u8 {
    let outcome = check_writing(version, table, buffer.len());
    if outcome.is_ok() {
        buffer[..version.image_length()].copy_from_slice(&encode(version, table));
    }
    reply_number(&outcome)
}

fn check_writing(version: Version, table: &Table, room: usize) -> Result<(), Refusal> {
    if !table.is_sound() {
        return Err(Refusal::TableNotSound);
    }
    if version == Version::One && table.has_makers() {
        return Err(Refusal::MakerRecorded);
    }
    if room < version.image_length() {
        return Err(Refusal::BufferTooShort);
    }
    Ok(())
}

/// The bytes of the image of any table, sound or not. The older form leaves the makers out.
pub fn encode(version: Version, table: &Table) -> Vec<u8> {
    let length = version.image_length();
    let mut bytes = Vec::with_capacity(length);
    bytes.extend((length as u16).to_be_bytes());
    bytes.push(version.number());
    for record in &table.records {
        encode_record(version, record, &mut bytes);
    }
    bytes
}

fn encode_record(version: Version, record: &Record, bytes: &mut Vec<u8>) {
    bytes.push(record.status);
    bytes.push(record.kind);
    bytes.extend(record.word.to_be_bytes());
    bytes.extend(record.stock.to_be_bytes());
    for slot in &record.slots {
        bytes.push(slot.target);
        bytes.push(slot.rights);
    }
    match version {
        Version::One => {}
        Version::Two => bytes.push(record.maker),
    }
}

/// The table whose 64 records are the given bytes, sound or not. The records of the older form have 64
/// as their maker.
fn decode(version: Version, bytes: &[u8]) -> Table {
    let mut table = Table::unborn();
    let parts = bytes.chunks_exact(version.record_length());
    for (record, part) in table.records.iter_mut().zip(parts) {
        *record = decode_record(version, part);
    }
    table
}

fn decode_record(version: Version, bytes: &[u8]) -> Record {
    let mut slots = NO_SLOTS;
    for (k, slot) in slots.iter_mut().enumerate() {
        let at = SLOTS_START + 2 * k;
        *slot = Capability::new(bytes[at], bytes[at + 1]);
    }
    Record {
        status: bytes[0],
        kind: bytes[1],
        word: big_endian(&bytes[2..6]) as u32,
        stock: big_endian(&bytes[6..SLOTS_START]),
        slots,
        maker: match version {
            Version::One => NO_MAKER,
            Version::Two => bytes[MAKER_AT],
        },
    }
}

/// The value of up to eight bytes, the most significant first.
pub fn big_endian(bytes: &[u8]) -> u64 {
    bytes
        .iter()
        .fold(0, |value, &byte| value << 8 | u64::from(byte))
}
