//! Images to be read in both versions, whole and damaged ones, and tables to be written into buffers of many
//! lengths. A table that was read is written back in both versions, so that all directions are tried on the
//! same table.

use super::{digest, layout, Part};
use crate::generate::{any_sound_table, damaged_table, image_of, write_case};
use crate::generate::{Damage, WriteCase, WRITE_NUMBERS};
use crate::rng::Rng;
use crate::shared::{shared_images, ImageLine};
use yavrinks_model::image::{encode, read, write, Version, VERSION_AT};
use yavrinks_model::set;
use yavrinks_model::table::{Capability, Table, ACTIVE, ALIVE, ALL_RIGHTS, DEAD};

/// The lengths of buffers, most of them around the lengths of the two versions.
const ROOMS: [usize; 13] = [
    1987, 1923, 4096, 1922, 1988, 1987, 1924, 1986, 0, 1923, 2000, 1, 4000,
];
/// What a buffer holds before it is written, beyond its end too.
const FILLING: u8 = 0xA5;
/// The bytes of which a buffer is a part.
const SPACE: usize = 4096;

/// An image, and the length of the buffer that its table is then written into.
pub struct ImageCase {
    pub image: Vec<u8>,
    pub room: usize,
}

/// How many random images of each version are whole.
const WHOLE: usize = 48;

/// Images of both versions: whole ones, and as many that are damaged in each way.
pub fn image_cases() -> Vec<ImageCase> {
    let mut rng = Rng::new(0x1A6E5);
    let mut images = Vec::new();
    for version in Version::ALL {
        images.extend([Table::unborn(), Table::k()].map(|table| encode(version, &table)));
        images.extend((0..WHOLE).map(|_| image_of(&mut rng, version, 0)));
        images.extend(unsound_images(&mut rng, version));
        images.push(image_of(&mut rng, version, 1));
        images.extend((0..3).map(|_| image_of(&mut rng, version, 14)));
        images.extend((0..2).map(|_| image_of(&mut rng, version, 15)));
        images.extend(cut_images(&mut rng, version));
        images.extend(changed_heads(&mut rng, version));
    }
    images.extend(short_images());
    images.extend(shared_images().into_iter().filter_map(|line| match line {
        ImageLine::Read { bytes, .. } => Some(bytes),
        ImageLine::Write { .. } => None,
    }));
    let rooms = ROOMS.into_iter().cycle();
    let cases = images.into_iter().zip(rooms);
    cases
        .map(|(image, room)| ImageCase { image, room })
        .collect()
}

/// Every kind of damage that the version shows, those of makers three times, and random bytes after a right head.
fn unsound_images(rng: &mut Rng, version: Version) -> Vec<Vec<u8>> {
    let mut images = Vec::new();
    for kind in Damage::ALL {
        let times = match (kind.shows_in(version), kind.shows_in(Version::One)) {
            (false, _) => 0,
            (_, true) => 1,
            (_, false) => 3,
        };
        images.extend((0..times).map(|_| encode(version, &damaged_table(rng, kind))));
    }
    let mut random = encode(version, &Table::unborn());
    random[3..].fill_with(|| rng.byte(0, 255));
    images.push(random);
    images
}

/// The first bytes of heads, and whole heads with nothing or one byte after them: of both versions, with the
/// length of the slice in the length field, and with version bytes that mean nothing.
fn short_images() -> Vec<Vec<u8>> {
    let mut images = vec![vec![], vec![7], vec![7, 0x83], vec![7, 0xC3], vec![0, 2]];
    for head in Version::ALL.map(head) {
        images.push(head.to_vec());
        images.push([&head[..], &[1]].concat());
    }
    for version in [0, 1, 2, 3, 255] {
        images.push(vec![0, 3, version]);
        images.push(vec![0, 4, version, 0]);
    }
    images
}

/// Whole images cut short, or with random bytes after them. In every second one the length field has the
/// length that the slice came to.
fn cut_images(rng: &mut Rng, version: Version) -> Vec<Vec<u8>> {
    let lengths: &[usize] = match version {
        Version::One => &[33, 1922, 1922, 1924, 1986, 1987, 1987, 1988],
        Version::Two => &[34, 1922, 1923, 1923, 1986, 1986, 1988, 1988, 4000],
    };
    let mut images = Vec::new();
    for (k, &length) in lengths.iter().enumerate() {
        let mut image = encode(version, &any_sound_table(rng));
        image.resize_with(length, || rng.byte(0, 255));
        if k % 2 == 1 {
            image[..2].copy_from_slice(&(length as u16).to_be_bytes());
        }
        images.push(image);
    }
    images
}

/// The bytes before the records.
fn head(version: Version) -> [u8; 3] {
    let [high, low] = (version.image_length() as u16).to_be_bytes();
    [high, low, version.number()]
}

/// Images with other heads: the version's length in the slice and another in the length field or the other way
/// round, the other version's byte, and version bytes that mean nothing, at the version's length and beside it.
fn changed_heads(rng: &mut Rng, version: Version) -> Vec<Vec<u8>> {
    let own = version.image_length();
    let (other, beside) = match version {
        Version::One => (Version::Two, own - 1),
        Version::Two => (Version::One, own + 1),
    };
    let [[high, low, number], [_, other_low, other]] = [version, other].map(head);
    let heads = [
        [low, high, number],
        [high, low - 1, number],
        [high + 1, low, number],
        [high, low & 0x7F, number],
        [high, other_low, number],
        [high, low, other],
        [high, other_low, other],
    ];
    let mut images = Vec::new();
    for head in heads {
        let mut image = encode(version, &any_sound_table(rng));
        image[..3].copy_from_slice(&head);
        images.push(image);
    }
    for length in [own, beside] {
        for other in [0, 3, 255] {
            let mut image = encode(version, &any_sound_table(rng));
            image.resize(length, 0);
            image[VERSION_AT] = other;
            images.push(image);
        }
    }
    images
}

/// The shared tables, unsound ones for every kind of damage, and for each number that writing in a version can
/// give, into short and sufficient buffers.
pub fn write_cases() -> Vec<WriteCase> {
    let mut rng = Rng::new(0x3217E);
    let shared = shared_images().into_iter().filter_map(|line| match line {
        ImageLine::Write { table, before, .. } => Some(WriteCase {
            table,
            room: before.len(),
        }),
        ImageLine::Read { .. } => None,
    });
    let mut cases: Vec<WriteCase> = shared.collect();
    for (version, aim) in WRITE_NUMBERS {
        cases.push(write_case(&mut rng, version, aim));
    }
    let mut tables = Vec::new();
    tables.extend(Damage::ALL.map(|kind| damaged_table(&mut rng, kind)));
    tables.extend([0, 63].into_iter().flat_map(edge_offences));
    tables.extend([0, 63].into_iter().flat_map(edge_makers));
    let rooms = ROOMS.into_iter().cycle();
    let more = tables.into_iter().zip(rooms);
    cases.extend(more.map(|(table, room)| WriteCase { table, room }));
    cases
}

/// A table where `n` and 30 are alive.
fn two_alive(n: u8) -> Table {
    let mut table = Table::unborn();
    table.record_mut(n).status = ALIVE;
    table.record_mut(30).status = ALIVE;
    table
}

/// Sound tables with a maker in the first or the last record, which the older form does not hold, dead and alive.
fn edge_makers(n: u8) -> [Table; 2] {
    let mut alive = two_alive(n);
    alive.record_mut(n).maker = 30;
    let mut dead = two_alive(n);
    dead.record_mut(n).status = DEAD;
    dead.record_mut(n).maker = n;
    [alive, dead]
}

/// Tables with one offence each, in the first or the last record, slot or number. A scan that
/// begins late or ends early passes one of them over.
fn edge_offences(n: u8) -> Vec<Table> {
    let (other, far, unborn) = (30, 63 - n, 29);
    let offences: [fn(&mut Table, u8, u8); 10] = [
        |table, n, _| table.record_mut(n).status = DEAD + 1,
        |table, n, _| table.record_mut(n).kind = ACTIVE + 1,
        |table, n, other| table.record_mut(other).stock = set::single(n),
        |table, n, other| {
            table.record_mut(n).stock = set::single(63 - n);
            table.record_mut(other).stock = set::single(63 - n);
        },
        |table, n, other| table.record_mut(63 - n).maker = other,
        |table, n, _| table.record_mut(63 - n).maker = 63 - n,
        |table, n, _| table.record_mut(n).maker = 63 - n,
        |table, n, other| table.record_mut(other).maker = 63 - n,
        |table, n, _| table.record_mut(n).maker = 65,
        |table, n, _| table.record_mut(n).maker = 255,
    ];
    let mut tables = Vec::new();
    for offend in offences {
        let mut table = two_alive(n);
        offend(&mut table, n, other);
        tables.push(table);
    }
    for (target, rights) in [(n, ALL_RIGHTS + 1), (64, 1), (unborn, 1), (far, 1)] {
        for slot in [0, 7] {
            let mut table = two_alive(n);
            table.record_mut(n).slots[slot] = Capability::new(target, rights);
            tables.push(table);
        }
    }
    tables
}

/// Writes a table in a version: the number and the digest of the whole space, as printed.
fn written(version: Version, table: &Table, room: usize) -> String {
    let mut space = [FILLING; SPACE];
    let number = write(version, table, &mut space[..room]);
    format!("{number} {}", digest::text(digest::of_bytes(&space)))
}

/// The same in both versions, the older form last.
fn written_twice(table: &Table, room: usize) -> String {
    let [older, newer] = Version::ALL.map(|version| written(version, table, room));
    format!("{newer} {older}")
}

pub fn part() -> Part {
    let mut part = Part::new(
        "images",
        "images: case, read: number, table; written back: number, buffer; in the older form: number, buffer",
    );
    for case in image_cases() {
        let mut bytes = (case.image.len() as u16).to_be_bytes().to_vec();
        bytes.extend((case.room as u16).to_be_bytes());
        bytes.extend(&case.image);
        let (number, table) = read(&case.image);
        let digest = digest::text(digest::of_table(&table));
        part.add(
            &bytes,
            format!("{number} {digest} {}", written_twice(&table, case.room)),
        );
    }
    part
}

pub fn writes_part() -> Part {
    let mut part = Part::new(
        "writes",
        "tables written, sound or not: case, number, buffer; in the older form: number, buffer",
    );
    for case in write_cases() {
        let mut bytes = layout::table(&case.table);
        bytes.extend((case.room as u16).to_be_bytes());
        part.add(&bytes, written_twice(&case.table, case.room));
    }
    part
}
