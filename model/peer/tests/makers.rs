//! Every maker in every record, every version byte with the lengths of images, and every buffer's length: the archive
//! reads, writes and judges as the model does, and as document 02, 2.7, has it.

use std::collections::BTreeMap;

use yavrinks_model::image::{encode, Version, VERSION_AT};
use yavrinks_model::table::{Table, ALIVE, DEAD};
use yavrinks_model::wire::encode as request_bytes;
use yavrinks_peer::archive::{Archive, Calls};
use yavrinks_peer::convert::{to_model, to_raw};
use yavrinks_peer::differential::{compare_chain, compare_read, compare_sound, compare_step};
use yavrinks_peer::differential::{compare_test, compare_unborn, compare_write};
use yavrinks_peer::differential::{Ask, Compared, Twin};
use yavrinks_peer::samples::{list_bytes, made_table};
use yavrinks_tools::shared::{shared_images, shared_steps_with_makers, shared_tests_with_makers};
use yavrinks_tools::shared::{ImageLine, SharedStep};

/// The answer, which is the same on both sides.
#[track_caller]
fn compared<T>(answer: Compared<T>) -> T {
    match answer {
        Ok(answer) => answer,
        Err(difference) => panic!("{difference}"),
    }
}

#[test]
fn the_unborn_table_is_the_models() {
    compared(compare_unborn(&Archive));
}

/// Every byte as the maker of an alive record, a dead one and an unborn one, first and last.
#[test]
fn every_maker_in_six_records() {
    let mut table = Table::unborn();
    for (n, status) in [(0, ALIVE), (1, DEAD), (62, DEAD), (63, ALIVE)] {
        table.record_mut(n).status = status;
    }
    for n in [0, 1, 2, 61, 62, 63] {
        for maker in 0..=255 {
            let mut made = table.clone();
            made.record_mut(n).maker = maker;
            let born = [0, 1, 62, 63];
            let sound = maker == 64 || born.contains(&maker) && born.contains(&n);
            let number = u8::from(!sound);
            assert_eq!(compared(compare_sound(&Archive, &made)), number);
            let image = encode(Version::Two, &made);
            assert_eq!(compared(compare_read(&Archive, &image)), number);
            let older = match (sound, maker) {
                (false, _) => 1,
                (true, 64) => 0,
                (true, _) => 23,
            };
            for (version, done) in [(Version::One, older), (Version::Two, number)] {
                let written = compare_write(&Archive, version, &made, &[0xA5; 2000]);
                assert_eq!(compared(written), done, "{maker} made {n}, {version:?}");
            }
        }
    }
}

/// Every version byte, in slices and length fields of both versions' lengths and beside them.
#[test]
fn every_version_byte_at_every_edge_of_length() {
    let lengths = [0, 1, 2, 3, 4, 1922, 1923, 1924, 1986, 1987, 1988, 2100];
    let mut answered: BTreeMap<u8, u64> = BTreeMap::new();
    for version in Version::ALL {
        for table in [Table::k(), made_table(), zeros()] {
            let right = encode(version, &table);
            for number in 0..=255 {
                for length in lengths {
                    let mut image = right.clone();
                    image[VERSION_AT] = number;
                    image.resize(length, 0);
                    let told = compared(compare_read(&Archive, &image));
                    *answered.entry(told).or_default() += 1;
                    let expected = match (length, number) {
                        (0..=2, _) => Some(14),
                        (_, 0 | 3..) => Some(15),
                        (1923, 1) | (1987, 2) => None,
                        _ => Some(14),
                    };
                    assert!(expected.is_none_or(|expected| told == expected));
                }
            }
        }
    }
    assert!(answered.keys().eq(&[0, 1, 14, 15]), "{answered:?}");
}

/// A table of zeros.
fn zeros() -> Table {
    let mut table = Table::unborn();
    for record in &mut table.records {
        record.maker = 0;
    }
    table
}

/// Every length of a buffer, of a table with makers, of one without and of one that is not sound.
#[test]
fn every_length_of_a_buffer() {
    for length in 0..2000 {
        let buffer = vec![0x5A; length];
        for (table, refused) in [(Table::k(), [16, 16]), (made_table(), [23, 16])] {
            for version in Version::ALL {
                let told = compared(compare_write(&Archive, version, &table, &buffer));
                let refused = refused[usize::from(version.number()) - 1];
                let short = refused == 23 || length < version.image_length();
                assert_eq!(told, if short { refused } else { 0 }, "{length}");
            }
        }
        for version in Version::ALL {
            let told = compare_write(&Archive, version, &zeros(), &buffer);
            assert_eq!(compared(told), 1, "{length}");
        }
    }
}

/// Each step, image and test of the shared test vectors of 2.7 is answered as they say.
#[test]
fn the_shared_test_vectors() {
    let (steps, images) = (shared_steps_with_makers(), shared_images());
    assert!(steps.len() >= 100 && images.len() >= 40);
    for SharedStep { step, answer } in steps {
        let ask = Ask {
            bytes: request_bytes(&step.request).into_boxed_slice(),
            request: Some(step.request),
        };
        let mut twin = Twin::new(step.table);
        let reply = compared(compare_step(&Archive, &mut twin, &ask));
        assert_eq!((reply, to_model(&twin.lent)), answer, "{:?}", ask.request);
    }
    for line in images {
        match line {
            ImageLine::Read { mut bytes, answer } => {
                let found = Archive.read(&mut bytes);
                assert_eq!((found.number, to_model(&found.table)), answer);
            }
            ImageLine::Write {
                version,
                table,
                before: mut buffer,
                answer,
            } => {
                let mut table = to_raw(&table);
                let number = match version {
                    Version::One => Archive.write_older(&mut table, &mut buffer),
                    Version::Two => Archive.write(&mut table, &mut buffer),
                };
                assert_eq!((number, buffer), answer);
            }
        }
    }
    let tests = shared_tests_with_makers();
    assert!(tests.len() >= 40);
    for shared in tests {
        let (case, list) = (&shared.test, list_bytes(&shared.test.list));
        let told = compared(compare_test(&Archive, &case.table, case.members, &list));
        assert_eq!((told.number, told.bound), shared.answer);
        assert!(shared.rounds.is_none_or(|rounds| rounds == told.rounds));
        for object in 0..66 {
            let told = compare_chain(&Archive, &case.table, case.members, &list, object);
            compared(told);
        }
    }
}
