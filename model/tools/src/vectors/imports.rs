//! Take-and-grant tables to be brought in: the shared test vectors, every right, the first and the last
//! of places, every fault by itself and beside another, and random ones. But for one full table they are
//! short, since data is part of the repository.

use super::{digest, Part};
use crate::generate::{full_import, import_bytes};
use crate::rng::Rng;
use crate::shared::shared_imports;
use yavrinks_model::take_grant::{import, ALL_OLD_RIGHTS, GRANT, READ, STORE, WRITE};

/// How many random cases there are, and how long they are at most.
const RANDOM: usize = 60;
const LONGEST: usize = 32;

/// The bytes of each case.
pub fn import_cases() -> Vec<Vec<u8>> {
    let mut rng = Rng::new(0x1A907);
    let mut cases = shared_imports();
    cases.push(full_import(&mut rng));
    cases.extend(all_rights());
    cases.extend(first_and_last_places());
    cases.extend(cuts_and_tails());
    cases.extend(heads());
    cases.extend(values());
    cases.extend(beside_another());
    cases.extend((0..RANDOM).map(|_| short_import(&mut rng)));
    cases
}

/// The version, the entity count and the entities, with the length of it all before them.
fn with_length(rest: &[u8]) -> Vec<u8> {
    let length = rest.len() as u16 + 2;
    [length.to_be_bytes().as_slice(), rest].concat()
}

/// All rights that can stand inside, eight in the slots of an entity.
fn all_rights() -> Vec<Vec<u8>> {
    let rights: Vec<u8> = (0..=ALL_OLD_RIGHTS).collect();
    let table_of = |eight: &[u8]| {
        let mut rest = vec![1, 2, 8];
        rest.extend(eight.iter().flat_map(|&rights| [1, rights]));
        rest.push(0);
        with_length(&rest)
    };
    rights.chunks(8).map(table_of).collect()
}

/// The first and the last entity of 64 hold something in their first and last slots; then nobody holds
/// anything.
fn first_and_last_places() -> Vec<Vec<u8>> {
    let full = [63, READ, 1, 0, 1, 0, 1, 0, 1, 0, 1, 0, 1, 0, 0, STORE];
    let nobody = [0; 63];
    let first = [[1, 64, 8].as_slice(), &full, &nobody].concat();
    let last = [[1, 64].as_slice(), &nobody, &[8], &full].concat();
    let none = [[1, 64, 0].as_slice(), &nobody].concat();
    [first, last, none].map(|rest| with_length(&rest)).to_vec()
}

/// A table cut before each of its bytes and one with more after it, the length field as it was and as it
/// should be.
fn cuts_and_tails() -> Vec<Vec<u8>> {
    let rest = [1, 3, 1, 2, STORE, 0, 2, 0, GRANT, 1, WRITE];
    let whole = with_length(&rest);
    let mut cases: Vec<Vec<u8>> = (0..=whole.len()).map(|k| whole[..k].to_vec()).collect();
    cases.extend((2..rest.len()).map(|k| with_length(&rest[..k])));
    for tail in [&[0][..], &[0, 0], &[255]] {
        cases.push([&whole, tail].concat());
        cases.push(with_length(&[&rest, tail].concat()));
    }
    cases
}

/// Lengths, versions and entity counts at their edges, with a wrong one before another.
fn heads() -> Vec<Vec<u8>> {
    let mut cases = vec![
        vec![0, 5, 1, 0],
        vec![0, 3, 1, 0],
        vec![4, 0, 1, 0],
        vec![0, 0, 1, 0],
        vec![1, 4, 1, 0],
        vec![0, 5, 0, 0],
        vec![0, 5, 2, 65],
        vec![0, 4, 2, 65],
    ];
    cases.extend([0, 2, 255].map(|version| with_length(&[version, 1, 0])));
    cases.extend([64, 65, 128, 255].map(|entities| with_length(&[1, entities])));
    let as_many = [[1, 65].as_slice(), &[0; 65]].concat();
    cases.push(with_length(&as_many));
    cases
}

/// Counts, targets and rights at their edges.
fn values() -> Vec<Vec<u8>> {
    let nine = [[1, 1, 9].as_slice(), &[0, READ].repeat(9)].concat();
    let mut cases = vec![with_length(&nine)];
    cases.extend([9, 255].map(|count| with_length(&[1, 2, 0, count])));
    cases.extend([1, 2, 3, 64, 255].map(|target| with_length(&[1, 2, 0, 1, target, READ])));
    cases.extend([31, 32, 63, 64, 128, 255].map(|rights| with_length(&[1, 1, 1, 0, rights])));
    cases
}

/// A bad target with no rights after it or with bad ones, and a wrong value before a wrong end; then a
/// wrong value that is past the end.
fn beside_another() -> Vec<Vec<u8>> {
    [
        &[1, 1, 1, 1][..],
        &[1, 1, 1, 1, 32],
        &[1, 2, 9],
        &[1, 2, 1, 0, 32],
        &[1, 1, 1, 0, 32, 0],
        &[1, 1, 0, 9],
        &[1, 1, 1, 0, READ, 9],
    ]
    .map(with_length)
    .to_vec()
}

fn short_import(rng: &mut Rng) -> Vec<u8> {
    loop {
        let bytes = import_bytes(rng);
        if bytes.len() <= LONGEST {
            return bytes;
        }
    }
}

/// A case is the length of the bytes and the bytes.
pub fn part() -> Part {
    let mut part = Part::new("imports", "imports: case, number, table");
    for case in import_cases() {
        let bytes = [(case.len() as u16).to_be_bytes().as_slice(), &case].concat();
        let (number, table) = import(&case);
        let digest = digest::text(digest::of_table(&table));
        part.add(&bytes, format!("{number} {digest}"));
    }
    part
}
