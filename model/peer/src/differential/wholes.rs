//! The calls on a whole table or on bytes: soundness, potential access, the confinement test, chains,
//! images, imports and what `confine` prints, each on the same input in the model and in the archive.

use captable::raw;
use yavrinks_model::access::potential_access;
use yavrinks_model::chain::chain;
use yavrinks_model::confine::confine;
use yavrinks_model::confinement::{confinement_test, Tested};
use yavrinks_model::image::{self, Version, VERSION_AT};
use yavrinks_model::table::Table;
use yavrinks_model::take_grant;
use yavrinks_model::wire::decode_list;
use yavrinks_tools::generate::printed_number;
use yavrinks_tools::rows::rows;

use super::facts::{same, Compared, Facts};
use crate::archive::Calls;
use crate::convert::to_raw;

/// The wholly unborn table.
pub fn compare_unborn(calls: &impl Calls) -> Compared<()> {
    let facts = |table: &raw::Table| Facts::new().table("table", table);
    let (expected, found) = (to_raw(&Table::unborn()), calls.unborn());
    same(
        "captable_unborn",
        Facts::new,
        facts(&expected),
        facts(&found),
    )
}

/// Soundness, by the archive and by the scan in C.
pub fn compare_sound(calls: &impl Calls, table: &Table) -> Compared<u8> {
    let given = to_raw(table);
    let number = u8::from(!table.is_sound());
    let facts = |number: u8, table: &raw::Table| {
        Facts::new()
            .number("number", number)
            .table("table that was given", table)
    };
    let case = || Facts::new().table("table", &given);
    let mut lent = given;
    let found = calls.sound(&mut lent);
    same(
        "captable_sound",
        case,
        facts(number, &given),
        facts(found, &lent),
    )?;
    let found = calls.scan(&lent);
    same(
        "the scan in C",
        case,
        facts(number, &given),
        facts(found, &lent),
    )?;
    Ok(number)
}

/// Potential access, all 256 rows: by the rules, by groups and by the version that is written for speed.
pub fn compare_access(calls: &impl Calls, table: &Table) -> Compared<u8> {
    let given = to_raw(table);
    let (number, access) = potential_access(table);
    let expected = rows(&access);
    let facts = |number: u8, rows: &[u64], table: &raw::Table| {
        Facts::new()
            .number("number", number)
            .sets("rows", rows)
            .table("table that was given", table)
    };
    let is_same = |call, found: &raw::Relation, lent: &raw::Table| {
        same(
            call,
            || Facts::new().table("table", &given),
            facts(number, &expected, &given),
            facts(found.number, &found.rows, lent),
        )
    };
    let mut lent = given;
    let found = calls.access(&mut lent);
    is_same("captable_access", &found, &lent)?;
    let found = calls.access_by_groups(&mut lent);
    is_same("captable_access_by_groups", &found, &lent)?;
    is_same("access for speed", &calls.fast_access(&lent), &lent)?;
    Ok(number)
}

/// The confinement test of any members and any bytes of a list: the bound, and the rounds that it took; in the same
/// three ways.
pub fn compare_test(
    calls: &impl Calls,
    table: &Table,
    members: u64,
    list: &[u8],
) -> Compared<Tested> {
    let given = to_raw(table);
    let tested = confinement_test(table, members, &decode_list(list));
    let facts = |tested: Tested, table: &raw::Table, bytes: &[u8]| {
        Facts::new()
            .number("number", tested.number)
            .sets("bound", &[tested.bound])
            .number("rounds", tested.rounds)
            .table("table that was given", table)
            .bytes("list", bytes)
    };
    let case = || {
        Facts::new()
            .table("table", &given)
            .sets("members", &[members])
            .bytes("list", list)
    };
    let is_same = |call, found: raw::Finding, lent: &raw::Table, bytes: &[u8]| {
        let found = facts(found_by(&found), lent, bytes);
        same(call, case, facts(tested, &given, list), found)
    };
    let (mut lent, mut bytes) = (given, Box::<[u8]>::from(list));
    let found = calls.test(&mut lent, members, &mut bytes);
    is_same("captable_test", found, &lent, &bytes)?;
    let found = calls.test_by_groups(&mut lent, members, &mut bytes);
    is_same("captable_test_by_groups", found, &lent, &bytes)?;
    let found = calls.fast_test(&lent, members, &bytes);
    is_same("test for speed", found, &lent, &bytes)?;
    Ok(tested)
}

/// What the archive found, as the model has it.
fn found_by(found: &raw::Finding) -> Tested {
    Tested {
        number: found.number,
        bound: found.bound,
        rounds: found.rounds,
    }
}

/// The chain to any object, for any members and any bytes of a list.
pub fn compare_chain(
    calls: &impl Calls,
    table: &Table,
    members: u64,
    list: &[u8],
    object: u8,
) -> Compared<u8> {
    let given = to_raw(table);
    let expected = shown(chain(table, members, &decode_list(list), object));
    let (mut lent, mut bytes) = (given, Box::<[u8]>::from(list));
    let found = calls.chain(&mut lent, members, &mut bytes, object);
    let facts = |shown: &raw::Shown, table: &raw::Table, bytes: &[u8]| {
        Facts::new()
            .number("number", shown.number)
            .number("count", shown.count)
            .bytes("numbers", &shown.numbers)
            .table("table that was given", table)
            .bytes("list", bytes)
    };
    let case = || {
        Facts::new()
            .table("table", &given)
            .sets("members", &[members])
            .bytes("list", list)
            .number("object", object)
    };
    same(
        "captable_chain",
        case,
        facts(&expected, &given, list),
        facts(&found, &lent, &bytes),
    )?;
    Ok(expected.number)
}

/// The model's answer as it is to cross: zeros after the chain's numbers.
fn shown((number, chain): (u8, Vec<u8>)) -> raw::Shown {
    let mut numbers = [0; 63];
    numbers[..chain.len()].copy_from_slice(&chain);
    raw::Shown {
        numbers,
        count: chain.len() as u8,
        number,
    }
}

/// The call that writes in a version, by name.
fn write_name(version: Version) -> &'static str {
    match version {
        Version::One => "captable_write_older",
        Version::Two => "captable_write",
    }
}

/// The archive's writing in a version.
fn write_in(calls: &impl Calls, version: Version, table: &mut raw::Table, buffer: &mut [u8]) -> u8 {
    match version {
        Version::One => calls.write_older(table, buffer),
        Version::Two => calls.write(table, buffer),
    }
}

/// Writing in a version into a copy of the buffer; what was written is then read.
pub fn compare_write(
    calls: &impl Calls,
    version: Version,
    table: &Table,
    buffer: &[u8],
) -> Compared<u8> {
    let given = to_raw(table);
    let mut expected = Box::<[u8]>::from(buffer);
    let number = image::write(version, table, &mut expected);
    let (mut lent, mut found) = (given, Box::<[u8]>::from(buffer));
    let answer = write_in(calls, version, &mut lent, &mut found);
    let facts = |number: u8, buffer: &[u8], table: &raw::Table| {
        Facts::new()
            .number("number", number)
            .bytes("buffer", buffer)
            .table("table that was given", table)
    };
    let case = || Facts::new().table("table", &given).bytes("buffer", buffer);
    same(
        write_name(version),
        case,
        facts(number, &expected, &given),
        facts(answer, &found, &lent),
    )?;
    if number == 0 {
        compare_read(calls, &found[..version.image_length()])?;
    }
    Ok(number)
}

/// Reading any bytes. What is read of an image is written back in its version, to equal bytes.
pub fn compare_read(calls: &impl Calls, bytes: &[u8]) -> Compared<u8> {
    let (number, table) = image::read(bytes);
    let mut lent = Box::<[u8]>::from(bytes);
    let found = calls.read(&mut lent);
    let facts = |number: u8, table: &raw::Table, bytes: &[u8]| {
        Facts::new()
            .number("number", number)
            .table("table", table)
            .bytes("image", bytes)
    };
    same(
        "captable_read",
        || Facts::new().bytes("image", bytes),
        facts(number, &to_raw(&table), bytes),
        facts(found.number, &found.table, &lent),
    )?;
    let version = bytes.get(VERSION_AT).and_then(|&byte| Version::of(byte));
    if let (0, Some(version)) = (number, version) {
        let mut read = found.table;
        let mut back = vec![0; bytes.len()];
        let answer = write_in(calls, version, &mut read, &mut back);
        let facts = |number: u8, image: &[u8]| {
            let facts = Facts::new().number("number", number);
            facts.bytes("image written back", image)
        };
        let case = || Facts::new().table("table", &found.table);
        same(
            write_name(version),
            case,
            facts(0, bytes),
            facts(answer, &back),
        )?;
    }
    Ok(number)
}

/// Bringing in any bytes.
pub fn compare_import(calls: &impl Calls, bytes: &[u8]) -> Compared<u8> {
    let (number, table) = take_grant::import(bytes);
    let mut lent = Box::<[u8]>::from(bytes);
    let found = calls.import(&mut lent);
    let facts = |number: u8, table: &raw::Table, bytes: &[u8]| {
        Facts::new()
            .number("number", number)
            .table("table", table)
            .bytes("import", bytes)
    };
    same(
        "captable_import",
        || Facts::new().bytes("import", bytes),
        facts(number, &to_raw(&table), bytes),
        facts(found.number, &found.table, &lent),
    )?;
    Ok(number)
}

/// What `confine` prints for any bytes; the bytes of the buffer after the text stay.
pub fn compare_confine(calls: &impl Calls, input: &[u8], buffer: &[u8; 256]) -> Compared<u8> {
    let text = confine(input);
    let mut expected = *buffer;
    expected[..text.len()].copy_from_slice(text.as_bytes());
    let (mut lent, mut found) = (Box::<[u8]>::from(input), Box::new(*buffer));
    let count = calls.confine(&mut lent, &mut found);
    let facts = |count: usize, buffer: &[u8], input: &[u8]| {
        Facts::new()
            .number("bytes of text", count as u64)
            .bytes("buffer", buffer)
            .bytes("input", input)
    };
    let case = || Facts::new().bytes("input", input).bytes("buffer", buffer);
    same(
        "captable_confine",
        case,
        facts(text.len(), &expected, input),
        facts(count, &*found, &lent),
    )?;
    Ok(printed_number(&text))
}
