//! Archives that misread 2.7 of document 02: who is recorded, what stands in an image, which tables are sound, and in
//! which order the numbers come. The comparison finds each of them out.

use captable::raw;
use yavrinks_model::image::Version;
use yavrinks_model::step::Request;
use yavrinks_model::table::{Table, NO_MAKER, UNBORN};
use yavrinks_peer::archive::{Archive, Calls};
use yavrinks_peer::convert::{to_model, to_raw};
use yavrinks_peer::differential::{compare_requests, Counts, MakerKind};
use yavrinks_peer::samples::mended;
use yavrinks_tools::generate::without_makers;

use super::done::{table_is_found, Done};
use super::{is_found, is_found_in, REQUESTS};

/// Gives what an allocate made another maker, told by the table before, the actor and the number.
fn made_by(done: &mut Done, maker: fn(&Table, u8, u8) -> u8) {
    if let Request::Allocate { actor, n, .. } = done.request {
        done.after.record_mut(n).maker = maker(&done.before, actor, n);
    }
}

#[test]
fn another_maker_at_allocate_is_found() {
    table_is_found(|done| made_by(done, |_, _, _| NO_MAKER));
    table_is_found(|done| made_by(done, |_, _, n| n));
    table_is_found(|done| made_by(done, |before, actor, _| before.record(actor).maker));
    table_is_found(|done| made_by(done, |_, _, _| 0));
}

/// Changes the table after a destroy, told the target and the actor.
fn destroyed(done: &mut Done, change: fn(&mut Table, u8, u8)) {
    if let Request::Destroy { actor, t } = done.request {
        let target = done.before.record(actor).slots[usize::from(t)].target;
        change(&mut done.after, target, actor);
    }
}

#[test]
fn a_destroy_that_resets_the_byte_is_found() {
    table_is_found(|done| {
        destroyed(done, |after, target, _| {
            after.record_mut(target).maker = NO_MAKER
        })
    });
}

#[test]
fn a_destroy_that_records_who_destroyed_is_found() {
    table_is_found(|done| {
        destroyed(done, |after, target, actor| {
            after.record_mut(target).maker = actor
        })
    });
}

#[test]
fn a_destroy_that_resets_what_the_target_made_is_found() {
    table_is_found(|done| {
        destroyed(done, |after, target, _| {
            for record in &mut after.records {
                if record.maker == target {
                    record.maker = NO_MAKER;
                }
            }
        })
    });
}

/// A refused request that is done with the maker is found too: one that writes it before it looks at the stock.
#[test]
fn a_refused_allocate_that_records_is_found() {
    struct Hasty;
    impl Calls for Hasty {
        fn step(&self, table: &mut raw::Table, request: &mut [u8]) -> u8 {
            let number = Archive.step(table, request);
            if let (9, [7, actor, n, ..]) = (number, &*request) {
                table.records[usize::from(*n)].maker = *actor;
            }
            number
        }
    }
    is_found(&Hasty, "captable_step", "table left");
}

/// Reads in another way.
struct Reads(fn(&mut [u8]) -> raw::Outcome);

impl Calls for Reads {
    fn read(&self, image: &mut [u8]) -> raw::Outcome {
        (self.0)(image)
    }
}

/// What is read of an image of the version, with other makers.
fn read_with(image: &mut [u8], version: Version, maker: fn(u8) -> u8) -> raw::Outcome {
    let mut outcome = Archive.read(image);
    if outcome.number == 0 && image[2] == version.number() {
        for (n, record) in (0..).zip(&mut outcome.table.records) {
            record.maker = maker(n);
        }
    }
    outcome
}

#[test]
fn version_1_that_moves_up_with_other_makers_is_found() {
    let with_0 = Reads(|image| read_with(image, Version::One, |_| 0));
    is_found(&with_0, "captable_read", "table");
    let with_itself = Reads(|image| read_with(image, Version::One, |n| n));
    is_found(&with_itself, "captable_read", "table");
}

#[test]
fn version_2_without_its_makers_is_found() {
    let without = Reads(|image| read_with(image, Version::Two, |_| NO_MAKER));
    is_found(&without, "captable_read", "table");
}

/// Moves the last byte of each record of version 2 to its front, or the front to the end.
fn turned(image: &mut [u8], turn: fn(&mut [u8])) {
    for record in image[3..1987].chunks_exact_mut(31) {
        turn(record);
    }
}

/// An image that is read with the byte first is one whose first byte goes last.
fn read_first(image: &mut [u8]) -> raw::Outcome {
    let mut other = image.to_vec();
    if image.len() == 1987 && image[2] == 2 {
        turned(&mut other, |record| record.rotate_left(1));
    }
    Archive.read(&mut other)
}

#[test]
fn the_byte_read_first_in_the_record_is_found() {
    is_found_in(&Reads(read_first), "captable_read", "number");
}

/// An image of version 2 in the length of version 1 is taken, as one of version 1.
fn short_version_2(image: &mut [u8]) -> raw::Outcome {
    let mut other = image.to_vec();
    if let [0x07, 0x83, version @ 2, ..] = other.as_mut_slice() {
        *version = 1;
    }
    Archive.read(&mut other)
}

#[test]
fn a_version_2_image_of_1923_bytes_that_is_taken_is_found() {
    is_found_in(&Reads(short_version_2), "captable_read", "number");
}

/// Gives another number for an image that is refused by the first, where the image is such.
fn read_number(image: &mut [u8], right: u8, such: fn(&[u8]) -> bool, wrong: u8) -> raw::Outcome {
    let mut outcome = Archive.read(image);
    if outcome.number == right && such(image) {
        outcome.number = wrong;
    }
    outcome
}

/// No image of any version has such a length.
fn of_no_version(image: &[u8]) -> bool {
    !matches!(image.len(), 1923 | 1987)
}

#[test]
fn an_order_of_14_15_and_1_that_is_wrong_is_found() {
    let wrong: [fn(&mut [u8]) -> raw::Outcome; 5] = [
        // 14 before 15, by the slice and by the length field.
        |image| read_number(image, 15, of_no_version, 14),
        |image| read_number(image, 15, |image| mended(image.to_vec()) != image, 14),
        // 15 below three bytes.
        |image| read_number(image, 14, |image| image.len() < 3, 15),
        // 15 where version and length do not fit.
        |image| read_number(image, 14, |image| image.len() > 2, 15),
        // 1 before 14: the slice has the version's own length, and the field does not.
        |image| {
            let other = Archive.read(&mut mended(image.to_vec())).number;
            let mut outcome = Archive.read(image);
            if (outcome.number, other) == (14, 1) {
                outcome.number = 1;
            }
            outcome
        },
    ];
    for wrong in wrong {
        is_found(&Reads(wrong), "captable_read", "number");
    }
}

/// Writes version 2 in another way.
struct Writes(fn(&mut raw::Table, &mut [u8]) -> u8);

impl Calls for Writes {
    fn write(&self, table: &mut raw::Table, buffer: &mut [u8]) -> u8 {
        (self.0)(table, buffer)
    }
}

fn written_first(table: &mut raw::Table, buffer: &mut [u8]) -> u8 {
    let number = Archive.write(table, buffer);
    if number == 0 {
        turned(buffer, |record| record.rotate_right(1));
    }
    number
}

#[test]
fn the_byte_written_first_in_the_record_is_found() {
    is_found(&Writes(written_first), "captable_write", "buffer");
}

#[test]
fn version_2_written_without_makers_is_found() {
    let without = Writes(|table, buffer| {
        let mut other = to_raw(&without_makers(&to_model(table)));
        match Archive.sound(table) {
            0 => Archive.write(&mut other, buffer),
            number => number,
        }
    });
    is_found(&without, "captable_write", "buffer");
}

#[test]
fn version_2_that_is_refused_for_makers_is_found() {
    let refused = Writes(|table, buffer| match Archive.write_older(table, &mut []) {
        23 => 23,
        _ => Archive.write(table, buffer),
    });
    is_found_in(&refused, "captable_write", "number");
}

/// Writes version 1 in another way.
struct WritesOlder(fn(&mut raw::Table, &mut [u8]) -> u8);

impl Calls for WritesOlder {
    fn write_older(&self, table: &mut raw::Table, buffer: &mut [u8]) -> u8 {
        (self.0)(table, buffer)
    }
}

#[test]
fn a_23_after_16_is_found() {
    let late = WritesOlder(|table, buffer| match Archive.write_older(table, buffer) {
        23 if buffer.len() < 1923 => 16,
        number => number,
    });
    is_found(&late, "captable_write_older", "number");
}

#[test]
fn a_23_before_1_is_found() {
    let early = WritesOlder(|table, buffer| match Archive.write_older(table, buffer) {
        1 if to_model(table).has_makers() => 23,
        number => number,
    });
    is_found(&early, "captable_write_older", "number");
}

/// The same, where the table is unsound by its makers alone: without them it would be written.
#[test]
fn a_23_for_makers_that_are_not_sound_is_found() {
    let early = WritesOlder(|table, buffer| {
        let bare = without_makers(&to_model(table));
        match Archive.write_older(table, buffer) {
            1 if bare.is_sound() => 23,
            number => number,
        }
    });
    is_found(&early, "captable_write_older", "number");
}

#[test]
fn a_23_that_dead_makers_or_dead_objects_do_not_get_is_found() {
    let wrong: [fn(&mut raw::Table, &mut [u8]) -> u8; 2] = [
        |table, buffer| forgetful(table, buffer, |table, n| table.record(n).is_alive()),
        |table, buffer| {
            let alive_maker = |table: &Table, n| {
                let maker = table.record(n).maker;
                maker != NO_MAKER && table.record(maker).is_alive()
            };
            forgetful(table, buffer, alive_maker)
        },
    ];
    for wrong in wrong {
        is_found_in(&WritesOlder(wrong), "captable_write_older", "number");
    }
}

/// Writes the older form of a table with the makers of some records left out.
fn forgetful(table: &raw::Table, buffer: &mut [u8], kept: fn(&Table, u8) -> bool) -> u8 {
    let given = to_model(table);
    let mut other = given.clone();
    if given.is_sound() {
        for n in (0..64).filter(|&n| !kept(&given, n)) {
            other.record_mut(n).maker = NO_MAKER;
        }
    }
    Archive.write_older(&mut to_raw(&other), buffer)
}

#[test]
fn an_older_form_that_leaves_makers_out_is_found() {
    let lax = WritesOlder(|table, buffer| forgetful(table, buffer, |_, _| false));
    is_found_in(&lax, "captable_write_older", "number");
}

#[test]
fn an_older_form_that_asks_for_1987_bytes_is_found() {
    let greedy = WritesOlder(|table, buffer| match buffer.len() {
        1923..1987 => Archive.write_older(table, &mut buffer[..1922]),
        _ => Archive.write_older(table, buffer),
    });
    is_found_in(&greedy, "captable_write_older", "number");
}

/// Prints what `confine` prints for another input.
struct Confines(fn(&mut Vec<u8>));

impl Calls for Confines {
    fn confine(&self, input: &mut [u8], out: &mut [u8; 256]) -> usize {
        let mut other = input.to_vec();
        (self.0)(&mut other);
        Archive.confine(&mut other, out)
    }
}

#[test]
fn a_confine_that_takes_version_2_is_found() {
    let takes = Confines(|input| {
        if let Some(version @ 2) = input.get_mut(2) {
            *version = 1;
        }
    });
    is_found(&takes, "captable_confine", "buffer");
}

#[test]
fn a_confine_that_checks_14_before_15_is_found() {
    let early = Confines(|input| {
        if let [high, low, version, ..] = input.as_mut_slice() {
            if [*high, *low] != [0x07, 0x83] {
                *version = 1;
            }
        }
    });
    is_found(&early, "captable_confine", "buffer");
}

#[test]
fn a_confine_that_checks_15_before_17_is_found() {
    let early = Confines(|input| {
        if input.get(2).is_some_and(|&version| version != 1) {
            input.resize(1932, 0);
            input[1931] = 0;
        }
    });
    is_found(&early, "captable_confine", "buffer");
}

/// Judges a table by another one, which it takes it for.
struct Judges(fn(&mut Table));

impl Judges {
    fn other(&self, table: &raw::Table) -> raw::Table {
        let mut other = to_model(table);
        (self.0)(&mut other);
        to_raw(&other)
    }
}

impl Calls for Judges {
    fn sound(&self, table: &mut raw::Table) -> u8 {
        Archive.sound(&mut self.other(table))
    }
}

/// The same in the scan in C alone.
struct Scans(Judges);

impl Calls for Scans {
    fn scan(&self, table: &raw::Table) -> u8 {
        Archive.scan(&self.0.other(table))
    }
}

/// Takes makers for 64 of which this says so.
fn overlooked(table: &mut Table, such: fn(&Table, u8) -> bool) {
    let given = table.clone();
    for n in (0..64).filter(|&n| such(&given, n)) {
        table.record_mut(n).maker = NO_MAKER;
    }
}

fn unborn_with_born_maker(table: &Table, n: u8) -> bool {
    let record = table.record(n);
    record.status == UNBORN && table.is_born(record.maker)
}

fn unborn_maker(table: &Table, n: u8) -> bool {
    let maker = table.record(n).maker;
    maker < NO_MAKER && !table.is_born(maker)
}

fn maker_above_64(table: &Table, n: u8) -> bool {
    table.record(n).maker > NO_MAKER
}

#[test]
fn an_unborn_record_with_a_born_maker_that_is_sound_is_found() {
    let lax: fn(&mut Table) = |table| overlooked(table, unborn_with_born_maker);
    is_found(&Judges(lax), "captable_sound", "number");
    is_found(&Scans(Judges(lax)), "the scan in C", "number");
}

#[test]
fn a_maker_that_is_no_born_number_and_sound_is_found() {
    let lax: [fn(&mut Table); 2] = [
        |table| overlooked(table, unborn_maker),
        |table| overlooked(table, maker_above_64),
    ];
    for lax in lax {
        is_found(&Judges(lax), "captable_sound", "number");
        is_found(&Scans(Judges(lax)), "the scan in C", "number");
    }
}

/// The other way about: makers that are sound are taken for ones that are not.
#[test]
fn a_dead_maker_or_oneself_that_is_not_sound_is_found() {
    let strict: [fn(&mut Table); 2] = [
        |table| {
            let given = table.clone();
            for record in &mut table.records {
                if given.is_born(record.maker) && !given.record(record.maker).is_alive() {
                    record.maker = NO_MAKER + 1;
                }
            }
        },
        |table| {
            for (n, record) in (0..).zip(&mut table.records) {
                if record.maker == n {
                    record.maker = NO_MAKER + 1;
                }
            }
        },
    ];
    for strict in strict {
        is_found(&Judges(strict), "captable_sound", "number");
    }
}

/// Gives a table of zeros for the unborn one.
struct Zeros;

impl Calls for Zeros {
    fn unborn(&self) -> raw::Table {
        let mut zeros = Archive.unborn();
        for record in &mut zeros.records {
            record.maker = 0;
        }
        zeros
    }
}

#[test]
fn a_table_of_zeros_for_the_unborn_one_is_found() {
    is_found(&Zeros, "captable_unborn", "table");
}

#[test]
fn an_import_with_makers_is_found() {
    super::import_is_found("table", |outcome, _| {
        for (n, record) in (0..).zip(&mut outcome.table.records) {
            if record.status != UNBORN {
                record.maker = n;
            }
        }
    });
}

/// Makers are met in every way that is counted.
#[test]
fn every_kind_of_makers_is_met() {
    let mut counts = Counts::default();
    compare_requests(&Archive, 1, REQUESTS, &mut counts).expect("no difference");
    for kind in MakerKind::ALL {
        let met = counts.of_maker(kind);
        assert!(met >= 2, "{kind:?}: {met}\n{counts}");
    }
    for kind in [MakerKind::Recorded, MakerKind::RecordedByMade] {
        assert!(counts.of_maker(kind) >= 100, "{counts}");
    }
    assert!(counts.of_maker(MakerKind::DestroyedMade) >= 80, "{counts}");
}
