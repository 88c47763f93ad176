//! The inputs that stack and instructions are measured on: for each call some that are done and some
//! that are refused, on table K, on the filled table, and on 64 objects in a row, where a test takes the most rounds;
//! tests with wk alone in many slots too, tables of one group and of many, requests with empty copies, reclaims, and
//! images of either version of tables with makers and without.

use yavrinks_model::access::potential_access;
use yavrinks_model::chain::chain;
use yavrinks_model::confine::confine;
use yavrinks_model::confinement::{confinement_test, Entry};
use yavrinks_model::image::{self, Version, VERSION_AT};
use yavrinks_model::set;
use yavrinks_model::step::{step, Request};
use yavrinks_model::table::Table;
use yavrinks_model::take_grant;
use yavrinks_model::wire::encode;
use yavrinks_tools::generate::{encode_input, newer_input, printed_number};
use yavrinks_tools::generate::{ConfinementCase, ShownCase};

use crate::calls::{Call, Sample};
use crate::group_samples::{group_tables, group_tests, walk_tables};
use crate::samples::{farthest, imports, keeping, list_bytes, made_table};
use crate::samples::{material_test, mended, own_test};
use crate::samples::{places, reclaims, requests, rows, unsound_at_the_end, with_slots_filled};
use crate::samples::{Import, NamedStep, Place};

/// The inputs of a call.
pub fn samples(call: Call) -> Vec<Sample> {
    let places = places();
    match call {
        Call::Step | Call::Stepped => {
            let named = keeping().into_iter().chain(reclaims()).map(named);
            places.iter().flat_map(steps).chain(named).collect()
        }
        Call::Sound => tables().into_iter().map(sound).collect(),
        Call::Access | Call::AccessByGroups => access_tables().into_iter().map(access).collect(),
        Call::Test | Call::TestByGroups => all_tests().into_iter().map(test).collect(),
        Call::Chain => tests().into_iter().flat_map(chains).map(shown).collect(),
        Call::Read => imaged().iter().flat_map(reads).collect(),
        Call::Import => {
            let whole = imports().into_iter().flat_map(brought_in);
            whole.chain(tiny_imports()).collect()
        }
        Call::Write => writes(Version::Two),
        Call::WriteOlder => writes(Version::One),
        Call::Confine => {
            let other = [short(), newer()];
            tests().into_iter().map(confined).chain(other).collect()
        }
        Call::Unborn | Call::Version => vec![nothing()],
    }
}

/// Every request of a place, and one on its table made unsound.
fn steps(place: &Place) -> Vec<Sample> {
    let asked = requests(&place.table);
    let unsound = unsound_at_the_end(&place.table);
    let first = asked.first().cloned();
    let of = |table: &Table, name: &str, request| {
        let name = format!("{name}, {}", place.name);
        asked_of(name, table.clone(), &request)
    };
    let unsound = first.map(|(_, request)| of(&unsound, "unsound table", request));
    let asked = asked.into_iter();
    asked
        .map(|(name, request)| of(&place.table, &name, request))
        .chain(unsound)
        .collect()
}

fn named(case: NamedStep) -> Sample {
    asked_of(case.name.to_string(), case.table, &case.request)
}

fn asked_of(name: String, table: Table, request: &Request) -> Sample {
    Sample {
        name,
        number: step(&table, request).0,
        table,
        members: 0,
        bytes: encode(request),
        object: 0,
    }
}

/// The tables of the calls that take a table alone.
fn tables() -> Vec<(String, Table)> {
    let rows = rows().map(|row| (row.name.to_string(), row.table));
    let mut tables = rows.to_vec();
    for place in places() {
        let unsound = unsound_at_the_end(&place.table);
        tables.push((format!("unsound, {}", place.name), unsound));
        tables.push((place.name.to_string(), place.table));
    }
    let mut last_maker = made_table();
    last_maker.records[63].maker = 65;
    tables.push((String::from("every object made"), made_table()));
    tables.push((String::from("unsound by the last maker"), last_maker));
    tables
}

/// The tables of potential access, those with one group and with many among them.
fn access_tables() -> Vec<(String, Table)> {
    let grouped = group_tables().into_iter().chain(walk_tables());
    let grouped = grouped.map(|one| (one.name, one.table));
    tables().into_iter().chain(grouped).collect()
}

fn sound((name, table): (String, Table)) -> Sample {
    Sample {
        name,
        number: u8::from(!table.is_sound()),
        table,
        members: 0,
        bytes: Vec::new(),
        object: 0,
    }
}

fn access((name, table): (String, Table)) -> Sample {
    Sample {
        name,
        number: potential_access(&table).0,
        table,
        members: 0,
        bytes: Vec::new(),
        object: 0,
    }
}

/// Tests: accepted ones, and ones refused by each number.
fn tests() -> Vec<(String, ConfinementCase)> {
    let mut tests = Vec::new();
    for place in places() {
        let list = own_test(&place).list;
        let (name, table, member) = (place.name, place.table, place.member);
        let mut add = |what: &str, table: &Table, members: u64, list: &[Entry]| {
            let case = ConfinementCase {
                table: table.clone(),
                members,
                list: list.to_vec(),
            };
            tests.push((format!("{what}, {name}"), case));
        };
        add("accepted", &table, set::single(member), &list);
        add(
            "unsound",
            &unsound_at_the_end(&table),
            set::single(member),
            &list,
        );
        add("no members", &table, 0, &list);
        add("nine entries", &table, set::single(member), &[(0, 1); 9]);
        add("unlisted", &table, set::single(member), &[]);
        add("member named", &table, set::of([1, member]), &list);
    }
    tests.push((String::from("64 wk unlisted"), material_test()));
    for row in rows() {
        let full = with_slots_filled(&row);
        tests.push((row.name.to_string(), own_test(&row)));
        tests.push((format!("{}, slots filled", row.name), own_test(&full)));
    }
    tests
}

/// The tests, those on tables with one group and with many among them.
fn all_tests() -> Vec<(String, ConfinementCase)> {
    let grouped = group_tests().into_iter().map(|one| (one.name, one.case));
    tests().into_iter().chain(grouped).collect()
}

fn test((name, case): (String, ConfinementCase)) -> Sample {
    Sample {
        name,
        number: confinement_test(&case.table, case.members, &case.list).number,
        bytes: list_bytes(&case.list),
        table: case.table,
        members: case.members,
        object: 0,
    }
}

/// What is asked of a test: the chain to the object farthest off; and where the test is accepted also that
/// to a member and to an object outside the bound, if there is one.
fn chains((name, test): (String, ConfinementCase)) -> Vec<(String, ShownCase)> {
    let tested = confinement_test(&test.table, test.members, &test.list);
    let of = |name: String, object| {
        let test = test.clone();
        (name, ShownCase { test, object })
    };
    if !tested.is_accepted() {
        return vec![of(name, 0)];
    }
    let outside = test.table.born() & !test.members & !tested.bound;
    let mut asked: Vec<_> = farthest(&test)
        .map(|n| of(name.clone(), n))
        .into_iter()
        .collect();
    for (what, objects) in [("member", test.members), ("outside", outside)] {
        let object = set::numbers(objects).next();
        asked.extend(object.map(|n| of(format!("{what}, {name}"), n)));
    }
    asked
}

fn shown((name, case): (String, ShownCase)) -> Sample {
    let ShownCase { test, object } = case;
    Sample {
        name,
        number: chain(&test.table, test.members, &test.list, object).0,
        bytes: list_bytes(&test.list),
        table: test.table,
        members: test.members,
        object,
    }
}

fn confined((name, case): (String, ConfinementCase)) -> Sample {
    input(name, encode_input(&case))
}

/// An input of `confine` that is too short.
fn short() -> Sample {
    input(String::from("one byte"), vec![7])
}

/// One with an image of version 2, which has its right length.
fn newer() -> Sample {
    let case = ConfinementCase {
        table: made_table(),
        members: 0,
        list: Vec::new(),
    };
    input(String::from("version 2"), newer_input(case, 15))
}

fn input(name: String, bytes: Vec<u8>) -> Sample {
    Sample {
        name,
        number: printed_number(&confine(&bytes)),
        table: Table::unborn(),
        members: 0,
        bytes,
        object: 0,
    }
}

/// What a call is given that takes nothing.
fn nothing() -> Sample {
    Sample {
        name: String::from("nothing"),
        number: 0,
        table: Table::unborn(),
        members: 0,
        bytes: Vec::new(),
        object: 0,
    }
}

/// The tables whose images are read and written, by name.
fn imaged() -> Vec<(&'static str, Table)> {
    let places = places().map(|place| (place.name, place.table));
    let made = ("every object made", made_table());
    places.into_iter().chain([made]).collect()
}

/// Images of a table in both versions: right, short, not sound, with the other version's byte, and with one of no
/// version.
fn reads((name, table): &(&str, Table)) -> Vec<Sample> {
    let of = |what: String, bytes: Vec<u8>| Sample {
        name: format!("{what}, {name}"),
        number: image::read(&bytes).0,
        table: Table::unborn(),
        members: 0,
        bytes,
        object: 0,
    };
    let with_version = |image: &[u8], number: u8| {
        let mut other = image.to_vec();
        other[VERSION_AT] = number;
        other
    };
    let mut all = Vec::new();
    for version in Version::ALL {
        let (k, right) = (version.number(), image::encode(version, table));
        let unsound = image::encode(version, &unsound_at_the_end(table));
        all.push(of(format!("version {k}"), right.clone()));
        all.push(of(format!("short, version {k}"), right[..1900].to_vec()));
        all.push(of(format!("unsound, version {k}"), unsound));
        for other in [3 - k, 0] {
            let image = with_version(&right, other);
            all.push(of(format!("version {other} for {k}"), image));
        }
    }
    all
}

/// An import as it is, and with an offence of each kind: in the head, and in the last capability and at the end,
/// where none but a walk over all entities finds it.
fn brought_in(whole: Import) -> Vec<Sample> {
    let Import { name, bytes } = whole;
    let last = bytes.len() - 1;
    let with = |place: usize, value: u8| {
        let mut other = bytes.clone();
        other[place] = value;
        other
    };
    let mut longer = bytes.clone();
    longer.push(0);
    let cases = [
        ("brought in", bytes.clone()),
        ("other length field", with(1, bytes[1] ^ 1)),
        ("version 0", with(2, 0)),
        ("65 entities", with(3, 65)),
        ("last target 64", with(last - 1, 64)),
        ("last rights 32", with(last, 32)),
        ("last rights missing", mended(bytes[..last].to_vec())),
        ("a byte more", mended(longer)),
    ];
    let cases = cases.into_iter();
    cases
        .map(|(what, bytes)| import(format!("{what}, {name}"), bytes))
        .collect()
}

/// An import without entities, and a byte that is none.
fn tiny_imports() -> [Sample; 2] {
    [
        import(String::from("no entities"), vec![0, 4, 1, 0]),
        import(String::from("one byte"), vec![7]),
    ]
}

fn import(name: String, bytes: Vec<u8>) -> Sample {
    Sample {
        name,
        number: take_grant::import(&bytes).0,
        table: Table::unborn(),
        members: 0,
        bytes,
        object: 0,
    }
}

/// Writes in a version: into a buffer, for which the older form is refused where there are makers, into a short one,
/// and of a table that is not sound.
fn writes(version: Version) -> Vec<Sample> {
    let length = version.image_length();
    let of = |name: String, table: &Table, length: usize| Sample {
        name,
        number: image::write(version, table, &mut vec![0; length]),
        table: table.clone(),
        members: 0,
        bytes: vec![0; length],
        object: 0,
    };
    let mut all = Vec::new();
    for (name, table) in imaged() {
        let unsound = unsound_at_the_end(&table);
        let lost = version == Version::One && table.has_makers();
        let what = if lost { "makers" } else { "written" };
        all.push(of(format!("{what}, {name}"), &table, length));
        all.push(of(format!("short buffer, {name}"), &table, length - 1));
        all.push(of(format!("unsound, {name}"), &unsound, length));
    }
    all
}
