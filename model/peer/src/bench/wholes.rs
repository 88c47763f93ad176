//! The calls on a whole table or on bytes, and the scan in C.

use std::hint::black_box;

use captable::raw;
use yavrinks_model::access::potential_access;
use yavrinks_model::chain::chain as model_chain;
use yavrinks_model::confinement::confinement_test;
use yavrinks_model::image::{self, Version};
use yavrinks_model::table::Table;
use yavrinks_model::take_grant;
use yavrinks_tools::generate::ConfinementCase;

use super::measure::{in_turn, Figures};
use crate::archive::{Archive, Calls};
use crate::convert::to_raw;
use crate::samples::{farthest, list_bytes, own_test, Place};

/// Takes the figures of one call.
type Take = fn(&Place) -> Figures;

/// Each call by name.
pub const ALL: [(&str, Take); 9] = [
    ("soundness", soundness),
    ("one scan in C -O3", scan),
    ("confinement test", test),
    ("chain", chain),
    ("potential access", access),
    ("image read", |place| read(Version::Two, &place.table)),
    ("image write", |place| write(Version::Two, &place.table)),
    ("older image read", |place| read(Version::One, &place.table)),
    ("older image write", |place| {
        write(Version::One, &place.table)
    }),
];

/// Takes the figures of one call on a table.
type TakeOf = fn(&Table) -> Figures;

/// The calls that look at makers, for a table that has them.
pub const WITH_MAKERS: [(&str, TakeOf); 3] = [
    ("soundness", sound_of),
    ("image read", |table| read(Version::Two, table)),
    ("image write", |table| write(Version::Two, table)),
];

fn soundness(place: &Place) -> Figures {
    sound_of(&place.table)
}

fn sound_of(table: &Table) -> Figures {
    let mut given = to_raw(table);
    in_turn(
        || {
            black_box(Archive.sound(black_box(&mut given)));
        },
        || {
            black_box(black_box(table).is_sound());
        },
    )
}

/// The scan in C stands where the proved call stands otherwise.
fn scan(place: &Place) -> Figures {
    let given = to_raw(&place.table);
    in_turn(
        || {
            black_box(Archive.scan(black_box(&given)));
        },
        || {
            black_box(black_box(&place.table).is_sound());
        },
    )
}

/// The test of the member that nobody else names, with the list of what it holds: accepted.
pub fn test(place: &Place) -> Figures {
    test_of(&own_test(place))
}

/// The test of a case.
pub fn test_of(case: &ConfinementCase) -> Figures {
    let mut asked = Asked::new(case);
    in_turn(
        || asked.test(),
        || {
            let members = black_box(case.members);
            let found = confinement_test(black_box(&case.table), members, black_box(&case.list));
            black_box(&found);
        },
    )
}

/// Of the same test, the chain to the object farthest off.
pub fn chain(place: &Place) -> Figures {
    let case = own_test(place);
    let mut asked = Asked::new(&case);
    let object = asked.object();
    in_turn(
        || asked.chain(),
        || {
            let ConfinementCase {
                table,
                members,
                list,
            } = black_box(&case);
            let shown = model_chain(table, *members, list, black_box(object));
            black_box(&shown);
        },
    )
}

/// The chain against the test that it begins with.
pub fn chain_against_test(place: &Place) -> Figures {
    let case = own_test(place);
    let (mut asked, mut tested) = (Asked::new(&case), Asked::new(&case));
    in_turn(|| asked.chain(), || tested.test())
}

/// What the archive is asked of a test.
struct Asked {
    table: raw::Table,
    members: u64,
    list: Vec<u8>,
    /// The object farthest off, if the bound has one.
    object: Option<u8>,
}

impl Asked {
    fn new(case: &ConfinementCase) -> Asked {
        Asked {
            table: to_raw(&case.table),
            members: case.members,
            list: list_bytes(&case.list),
            object: farthest(case),
        }
    }

    fn object(&self) -> u8 {
        self.object
            .expect("a chain is asked where the bound has an object")
    }

    fn test(&mut self) {
        let (members, list) = (black_box(self.members), black_box(&mut self.list));
        let found = Archive.test(black_box(&mut self.table), members, list);
        black_box(&found);
    }

    fn chain(&mut self) {
        let object = black_box(self.object());
        let (members, list) = (black_box(self.members), black_box(&mut self.list));
        let shown = Archive.chain(black_box(&mut self.table), members, list, object);
        black_box(&shown);
    }
}

fn access(place: &Place) -> Figures {
    let mut given = to_raw(&place.table);
    in_turn(
        || {
            let relation = Archive.access(black_box(&mut given));
            black_box(&relation);
        },
        || {
            let relation = potential_access(black_box(&place.table));
            black_box(&relation);
        },
    )
}

fn read(version: Version, table: &Table) -> Figures {
    let bytes = image::encode(version, table);
    let mut given = bytes.clone();
    in_turn(
        || {
            let outcome = Archive.read(black_box(&mut given));
            black_box(&outcome);
        },
        || {
            let outcome = image::read(black_box(&bytes));
            black_box(&outcome);
        },
    )
}

/// A take-and-grant table that is brought in.
pub fn import(bytes: &[u8]) -> Figures {
    let mut given = bytes.to_vec();
    in_turn(
        || {
            let outcome = Archive.import(black_box(&mut given));
            black_box(&outcome);
        },
        || {
            let outcome = take_grant::import(black_box(bytes));
            black_box(&outcome);
        },
    )
}

fn write(version: Version, table: &Table) -> Figures {
    let mut given = to_raw(table);
    let mut first = vec![0; version.image_length()];
    let mut second = first.clone();
    in_turn(
        || {
            let (given, buffer) = (black_box(&mut given), black_box(&mut first));
            black_box(match version {
                Version::One => Archive.write_older(given, buffer),
                Version::Two => Archive.write(given, buffer),
            });
        },
        || {
            let buffer = black_box(&mut second);
            black_box(image::write(version, black_box(table), buffer));
        },
    )
}
