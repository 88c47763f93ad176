//! Document 02, 2.7, sentence by sentence, each on a small table. Bytes and numbers are worked by hand.

mod done;
mod held;
mod input;

use done::done;
use held::table_with;
use input::input_of;
use yavrinks_model::confine::confine;
use yavrinks_model::confinement::confinement_test;
use yavrinks_model::image::{encode, read, write, Version};
use yavrinks_model::runs::{clean_at_start, clean_part, run};
use yavrinks_model::set;
use yavrinks_model::step::{step, Request};
use yavrinks_model::table::{Capability, Record, Table};
use yavrinks_model::table::{ACTIVE, ALIVE, ALL_RIGHTS, DEAD, PASSIVE, SLOTS, UNBORN, WR};
use yavrinks_model::take_grant::import;

const HEAD_1: [u8; 3] = [0x07, 0x83, 1];
const HEAD_2: [u8; 3] = [0x07, 0xC3, 2];

fn makers(table: &Table) -> Vec<u8> {
    table.records.iter().map(|record| record.maker).collect()
}

/// The makers of all 64 records, where these alone are not 64.
fn makers_but(others: &[(usize, u8)]) -> Vec<u8> {
    let mut makers = vec![64; 64];
    for &(n, maker) in others {
        makers[n] = maker;
    }
    makers
}

/// An allocate with no pairs, to slot 7.
fn allocate(actor: u8, n: u8, kind: u8, part: &[u8]) -> Request {
    Request::Allocate {
        actor,
        n,
        kind,
        part: set::of(part),
        i: 7,
        list: vec![],
    }
}

/// Table K where the given record, which is born, has the maker.
fn k_with(n: u8, maker: u8) -> Table {
    let mut table = Table::k();
    table.record_mut(n).maker = maker;
    table
}

// Each record gains one byte, the number of the object that made it, or 64 for an object not made in a run.

#[test]
fn nothing_of_a_start_table_was_made_in_a_run() {
    for table in [Table::unborn(), Table::k(), table_with(&[1, 63], &[])] {
        assert_eq!(makers(&table), [64; 64]);
    }
}

/// 5 makes 10, which makes 11; 4 makes 12. Whoever made the maker, and who else there is, does not matter.
#[test]
fn an_allocate_records_its_actor() {
    let first = done(&Table::k(), &allocate(5, 10, ACTIVE, &[11]));
    assert_eq!(makers(&first), makers_but(&[(10, 5)]));
    let second = done(&first, &allocate(10, 11, PASSIVE, &[]));
    assert_eq!(makers(&second), makers_but(&[(10, 5), (11, 10)]));
    let third = done(&second, &allocate(4, 12, ACTIVE, &[]));
    assert_eq!(makers(&third), makers_but(&[(10, 5), (11, 10), (12, 4)]));
}

/// Numbers 0 and 63 can make, and be made: neither is the number that stands for nobody.
#[test]
fn the_first_and_the_last_number_are_makers_too() {
    for (actor, n) in [(0, 63), (63, 0)] {
        let mut table = table_with(&[actor], &[]);
        table.record_mut(actor).kind = ACTIVE;
        table.record_mut(actor).stock = set::single(n);
        let after = done(&table, &allocate(actor, n, PASSIVE, &[]));
        assert_eq!(makers(&after), makers_but(&[(usize::from(n), actor)]));
    }
}

/// The whole record of a new object, with a pair copied.
#[test]
fn a_new_record_is_as_before_with_the_maker() {
    let request = Request::Allocate {
        actor: 5,
        n: 10,
        kind: PASSIVE,
        part: set::of([11]),
        i: 1,
        list: vec![(0, 6)],
    };
    let mut slots = [Capability::EMPTY; SLOTS];
    slots[6] = Capability::new(1, WR);
    let made = Record {
        status: ALIVE,
        kind: PASSIVE,
        word: 0,
        stock: set::of([11]),
        slots,
        maker: 5,
    };
    let mut expected = Table::k();
    expected.records[10] = made;
    expected.records[5].stock = 0;
    expected.records[5].slots[1] = Capability::new(10, ALL_RIGHTS);
    assert_eq!(done(&Table::k(), &request), expected);
}

#[test]
fn a_refused_allocate_records_nothing() {
    for (request, number) in [
        (allocate(5, 12, ACTIVE, &[]), 9),
        (allocate(5, 10, ACTIVE, &[10]), 9),
        (allocate(1, 10, ACTIVE, &[]), 3),
        (allocate(5, 64, ACTIVE, &[]), 2),
    ] {
        assert_eq!(step(&Table::k(), &request), (number, Table::k()));
    }
}

/// 0 and 2, which 4 and 0 made, do everything but make: no maker changes, theirs neither.
#[test]
fn no_other_request_changes_a_maker() {
    let mut table = k_with(0, 4);
    table.records[2].maker = 0;
    table.records[0].slots[1] = Capability::new(2, ALL_RIGHTS);
    let requests = [
        Request::Read { actor: 0, t: 1 },
        Request::Write {
            actor: 0,
            t: 1,
            word: 9,
        },
        Request::Fetch {
            actor: 0,
            t: 1,
            i: 1,
            j: 2,
        },
        Request::Store {
            actor: 0,
            t: 1,
            i: 0,
            j: 5,
        },
        Request::Revoke {
            actor: 0,
            t: 1,
            j: 1,
        },
        Request::Send {
            actor: 0,
            t: 1,
            word: 3,
            list: vec![(0, 4)],
            reply: 3,
        },
    ];
    for request in requests {
        let after = done(&table, &request);
        assert_eq!(makers(&after), makers_but(&[(0, 4), (2, 0)]));
    }
}

// Unborn records have 64, and a dead one keeps its byte.

#[test]
fn unborn_records_have_64() {
    assert_eq!(Record::UNBORN.maker, 64);
    let after = done(&Table::k(), &allocate(5, 10, ACTIVE, &[11]));
    assert_eq!(after.records[11], Record::UNBORN);
}

/// 5 makes 10 and destroys it; then 4, which had made 3 before the run, does the same with that.
#[test]
fn a_dead_record_keeps_its_maker() {
    let made = done(&Table::k(), &allocate(5, 10, ACTIVE, &[11]));
    let dead = done(&made, &Request::Destroy { actor: 5, t: 7 });
    let record = Record {
        status: DEAD,
        kind: ACTIVE,
        word: 0,
        stock: 0,
        slots: [Capability::EMPTY; SLOTS],
        maker: 5,
    };
    assert_eq!(dead.records[10], record);
    assert_eq!(dead.records[5].stock, set::of([11]));
    assert!(dead.is_sound());
    for maker in [64, 4, 3, 0] {
        let destroy = Request::Destroy { actor: 4, t: 0 };
        let after = done(&k_with(3, maker), &destroy);
        assert_eq!(
            (after.records[3].status, after.records[3].maker),
            (2, maker)
        );
    }
}

/// The maker's death leaves the byte of what it made as it was, and the table sound.
#[test]
fn what_a_dead_object_made_still_names_it() {
    let mut table = Table::k();
    table.records[4].slots[1] = Capability::new(5, WR);
    let made = done(&table, &allocate(5, 10, ACTIVE, &[]));
    let after = done(&made, &Request::Destroy { actor: 4, t: 1 });
    assert_eq!(after.records[5].status, DEAD);
    assert_eq!(makers(&after), makers_but(&[(10, 5)]));
    assert!(after.is_sound());
}

// A sound table has in it 64 or a born number, and for an unborn record 64 alone.

/// Table K with 6 dead, and in one record each byte as its maker. 0 to 6 are born.
#[test]
fn sound_makers_are_64_and_the_born_numbers() {
    let mut k = Table::k();
    k.records[6].status = DEAD;
    for maker in 0..=255 {
        let sound = maker <= 6 || maker == 64;
        for n in [0, 1, 5, 6] {
            let mut table = k.clone();
            table.records[n].maker = maker;
            assert_eq!(table.is_sound(), sound, "record {n}, maker {maker}");
        }
        for n in [7, 10, 63] {
            let mut table = k.clone();
            table.records[n].maker = maker;
            assert_eq!(table.is_sound(), maker == 64, "record {n}, maker {maker}");
        }
    }
}

#[test]
fn an_object_may_be_its_own_maker_and_two_each_others() {
    assert!(k_with(3, 3).is_sound());
    let mut table = k_with(3, 4);
    table.records[4].maker = 3;
    assert!(table.is_sound());
}

/// Every call that looks at soundness refuses by 1 for the maker alone.
#[test]
fn an_unsound_maker_is_refused_by_1() {
    for table in [k_with(3, 7), k_with(3, 65), k_with(3, 255), k_with(12, 4)] {
        let reading = Request::Read { actor: 0, t: 0 };
        assert_eq!(step(&table, &reading), (1, table.clone()));
        let tested = confinement_test(&table, set::of([5]), &[(1, WR)]);
        assert_eq!((tested.number, tested.bound), (1, 0));
        let image = encode(Version::Two, &table);
        assert_eq!(read(&image), (1, Table::unborn()));
    }
}

/// What the test finds does not depend on who made what.
#[test]
fn makers_do_not_enter_the_test() {
    let expected = confinement_test(&Table::k(), set::of([5]), &[(1, WR)]);
    assert_eq!((expected.number, expected.bound), (0, set::of([0, 1, 2])));
    for table in [k_with(3, 5), k_with(5, 0), k_with(1, 1)] {
        assert_eq!(confinement_test(&table, set::of([5]), &[(1, WR)]), expected);
    }
}

#[test]
fn an_imported_table_has_64_throughout() {
    let (number, table) = import(&[0, 9, 1, 2, 1, 1, 16, 0, 0]);
    assert_eq!(number, 20);
    assert_eq!(makers(&table), [64; 64]);
    let (number, table) = import(&[0, 8, 1, 2, 1, 1, 16, 0]);
    assert_eq!(number, 0);
    assert_eq!(makers(&table), [64; 64]);
}

// Images get version 2, length 1,987, the maker as last byte of a record of 31 bytes.

/// A table with one record of which every byte is told, and the bytes of that.
fn one_record(maker: u8) -> (Table, Vec<u8>) {
    let mut table = Table::unborn();
    table.records[1].status = DEAD;
    let mut slots = [Capability::EMPTY; SLOTS];
    slots[0] = Capability::new(1, 9);
    slots[7] = Capability::new(2, 15);
    table.records[2] = Record {
        status: ALIVE,
        kind: ACTIVE,
        word: 0x0102_0304,
        stock: 0x0102_0304_0506_0700,
        slots,
        maker,
    };
    let bytes = [
        &[1, 1, 1, 2, 3, 4, 1, 2, 3, 4, 5, 6, 7, 0, 1, 9][..],
        &[0; 12],
        &[2, 15],
    ];
    (table, bytes.concat())
}

/// The image in version 2 of that table: three bytes of head, and the record of number n at 3 + 31 n.
fn image_2(maker: u8) -> Vec<u8> {
    let mut image = vec![0; 1987];
    image[..3].copy_from_slice(&HEAD_2);
    for n in 0..64 {
        image[3 + 31 * n + 30] = 64;
    }
    image[34] = 2;
    image[65..95].copy_from_slice(&one_record(maker).1);
    image[95] = maker;
    image
}

/// The image in version 1, with the record of number n at 3 + 30 n.
fn image_1() -> Vec<u8> {
    let mut image = vec![0; 1923];
    image[..3].copy_from_slice(&HEAD_1);
    image[33] = 2;
    image[63..93].copy_from_slice(&one_record(64).1);
    image
}

fn written(version: Version, table: &Table, room: usize) -> (u8, Vec<u8>) {
    let mut buffer = vec![0xA5; room];
    let number = write(version, table, &mut buffer);
    (number, buffer)
}

#[test]
fn the_maker_is_the_last_byte_of_31() {
    for maker in [64, 1, 2] {
        let (table, _) = one_record(maker);
        assert!(table.is_sound());
        assert_eq!(written(Version::Two, &table, 1987), (0, image_2(maker)));
        assert_eq!(read(&image_2(maker)), (0, table));
    }
    assert_eq!(read(&image_2(3)), (1, Table::unborn()));
}

#[test]
fn lengths_are_of_the_version() {
    for (version, number, record, image) in
        [(Version::One, 1, 30, 1923), (Version::Two, 2, 31, 1987)]
    {
        assert_eq!(Version::of(number), Some(version));
        assert_eq!(version.record_length(), record);
        assert_eq!(version.image_length(), image);
    }
    assert_eq!([0, 3, 255].map(Version::of), [None; 3]);
}

// A version 1 image moves up with 64 throughout, and moving it back gives equal bytes.

#[test]
fn version_1_moves_up_with_64_throughout() {
    let (number, table) = read(&image_1());
    assert_eq!((number, makers(&table)), (0, vec![64; 64]));
    assert_eq!(table, one_record(64).0);
    assert_eq!(written(Version::Two, &table, 1987), (0, image_2(64)));
}

#[test]
fn moving_up_and_back_gives_equal_bytes() {
    for image in [image_1(), encode(Version::One, &Table::k())] {
        let (_, table) = read(&image);
        let (number, up) = written(Version::Two, &table, 1987);
        assert_eq!(number, 0);
        let (number, moved) = read(&up);
        assert_eq!((number, &moved), (0, &table));
        assert_eq!(written(Version::One, &moved, 1923), (0, image));
    }
}

// The equal-records claim includes the byte.

#[test]
fn records_with_other_makers_are_not_equal() {
    assert_ne!(k_with(3, 4), Table::k());
    assert_ne!(k_with(3, 4).records[3], k_with(3, 5).records[3]);
}

/// On table K with the member 5 the objects 3, 4 and 6 are clean. In the second run the member makes things before
/// and after the clean 4 does; what 4 made has the same record, its maker too.
#[test]
fn what_a_clean_object_made_has_the_same_maker_in_both_runs() {
    let table = Table::k();
    let bound = confinement_test(&table, set::of([5]), &[(1, WR)]).bound;
    let clean = clean_at_start(&table, set::of([5]), bound);
    let making = allocate(4, 12, ACTIVE, &[]);
    let runs = [
        vec![making.clone()],
        vec![
            allocate(5, 10, ACTIVE, &[11]),
            making,
            allocate(10, 11, PASSIVE, &[]),
        ],
    ];
    let parts = runs.clone().map(|run| clean_part(&table, clean, &run));
    assert_eq!(parts[0], parts[1]);
    assert_eq!(parts[0].clean, set::of([3, 4, 6, 12]));
    let [one, other] = runs.map(|requests| run(&table, &requests).1);
    for n in set::numbers(parts[0].clean) {
        assert_eq!(one.record(n), other.record(n));
    }
    assert_eq!(makers(&one), makers_but(&[(12, 4)]));
    assert_eq!(makers(&other), makers_but(&[(10, 5), (11, 10), (12, 4)]));
}

// Writing now asks for 1,987 bytes at 16, or 1,923 for the older form.

#[test]
fn writing_asks_for_the_versions_length() {
    let (table, _) = one_record(64);
    for (version, image, short) in [
        (Version::One, image_1(), [0, 1, 1922]),
        (Version::Two, image_2(64), [1922, 1923, 1986]),
    ] {
        for room in short {
            assert_eq!(written(version, &table, room), (16, vec![0xA5; room]));
        }
        for more in [0, 1, 64, 100] {
            let expected = [&image[..], &vec![0xA5; more]].concat();
            let room = image.len() + more;
            assert_eq!(written(version, &table, room), (0, expected));
        }
    }
}

// A slice under three bytes gets 14.

fn expect_read(image: &[u8], number: u8) {
    let start = &image[..image.len().min(4)];
    let place = format!("{start:02x?}, {} bytes", image.len());
    assert_eq!(read(image), (number, Table::unborn()), "{place}");
}

#[test]
fn under_three_bytes_are_14() {
    for head in [HEAD_1, HEAD_2, [0, 0, 0], [7, 3, 3]] {
        for length in 0..3 {
            expect_read(&head[..length], 14);
        }
    }
}

// A version byte that is neither 1 nor 2 then gets 15, at any length.

#[test]
fn other_version_bytes_are_15_at_any_length() {
    for version in [0, 3, 4, 64, 255] {
        for length in [3, 4, 30, 1922, 1923, 1924, 1986, 1987, 1988, 4000] {
            for field in [[0x07, 0x83], [0x07, 0xC3], [0, 0], [0, 3]] {
                let mut image = vec![0; length];
                image[..2].copy_from_slice(&field);
                image[2] = version;
                expect_read(&image, 15);
            }
        }
    }
}

// After that 14 wants the version's own length, in the slice and in the length field.

#[test]
fn the_versions_own_length_is_wanted_in_the_slice() {
    for image in [image_1(), image_2(64)] {
        for length in [3, 4, 1922, 1923, 1924, 1986, 1987, 1988, 4000] {
            if length != image.len() {
                let mut other = image.clone();
                other.resize(length, 0);
                expect_read(&other, 14);
            }
        }
    }
}

#[test]
fn the_versions_own_length_is_wanted_in_the_length_field() {
    for (image, other) in [(image_1(), 0xC3), (image_2(64), 0x83)] {
        for field in [
            [7, other],
            [7, image[1] - 1],
            [7, image[1] + 1],
            [image[1], 7],
            [0, 3],
        ] {
            let mut changed = image.clone();
            changed[..2].copy_from_slice(&field);
            expect_read(&changed, 14);
        }
        // The head of the other version does not fit this slice, and its version alone neither.
        let mut changed = image.clone();
        changed[..3].copy_from_slice(if other == 0xC3 { &HEAD_2 } else { &HEAD_1 });
        expect_read(&changed, 14);
        changed[..2].copy_from_slice(&image[..2]);
        expect_read(&changed, 14);
    }
}

/// Soundness is looked at last: an unsound image has 14 and 15 still.
#[test]
fn reading_checks_1_last() {
    for image in [image_1(), image_2(64)] {
        let mut unsound = image;
        unsound[3] = 3;
        expect_read(&unsound, 1);
        let mut version = unsound.clone();
        version[2] = 3;
        expect_read(&version, 15);
        version[0] = 0;
        expect_read(&version, 15);
        unsound[0] = 0;
        expect_read(&unsound, 14);
    }
}

// `confine` goes on taking version 1 and prints `refused 15` at any other version byte.

/// The input of example 1 with another image.
fn example_1(image: &[u8]) -> Vec<u8> {
    input_of(image, set::of([5]), &[(1, WR)])
}

#[test]
fn confine_takes_version_1() {
    let image = encode(Version::One, &Table::k());
    assert_eq!(confine(&example_1(&image)), "accepted\n0\n1\n2\n");
}

#[test]
fn confine_prints_refused_15_at_any_other_version_byte() {
    let image = encode(Version::One, &Table::k());
    for version in (0..=255).filter(|&version| version != 1) {
        let mut other = image.clone();
        other[2] = version;
        assert_eq!(confine(&example_1(&other)), "refused 15\n");
        // Before the length field, that of version 2 too, and before soundness.
        for field in [[0, 0], [0x07, 0xC3]] {
            other[..2].copy_from_slice(&field);
            other[3] = 3;
            assert_eq!(confine(&example_1(&other)), "refused 15\n");
        }
    }
}

#[test]
fn confine_checks_17_then_15_then_14_then_1() {
    let mut image = encode(Version::One, &Table::k());
    image[3] = 3;
    assert_eq!(confine(&example_1(&image)), "refused 1\n");
    image[1] = 0xC3;
    assert_eq!(confine(&example_1(&image)), "refused 14\n");
    image[2] = 2;
    assert_eq!(confine(&example_1(&image)), "refused 15\n");
    let mut input = example_1(&image);
    input.push(0);
    assert_eq!(confine(&input), "refused 17\n");
    assert_eq!(confine(&image), "refused 17\n");
    assert_eq!(confine(&[]), "refused 17\n");
}

/// The lengths are those of version 1: the count byte is the one at 1,931, which in an image of version 2 is the
/// first of record 62's stock. Where that says as many entries as there are bytes, the version is refused.
#[test]
fn confine_counts_by_version_1_whatever_the_version() {
    let table = table_with(&[5, 62], &[]);
    let image = encode(Version::Two, &table);
    let input = input_of(&image, set::of([5]), &[]);
    assert_eq!((input.len(), input[1931]), (1996, 0));
    assert_eq!(confine(&input), "refused 17\n");
    let mut counting = table;
    counting.records[62].stock = set::single(61);
    let image = encode(Version::Two, &counting);
    let input = input_of(&image, set::of([5]), &[]);
    assert_eq!((input.len(), input[1931]), (1996, 32));
    assert_eq!(confine(&input), "refused 15\n");
}

// Turned away: 23, after 1 and before 16, if a table goes back to version 1 while some maker is not 64.

#[test]
fn a_maker_keeps_a_table_from_going_back() {
    for maker in [1, 2] {
        let (table, _) = one_record(maker);
        for room in [0, 1, 1922, 1923, 1987, 2000] {
            assert_eq!(written(Version::One, &table, room), (23, vec![0xA5; room]));
        }
        assert_eq!(written(Version::Two, &table, 1987).0, 0);
    }
}

/// Any one record is enough, the first and the last, and one that is dead.
#[test]
fn one_maker_in_any_record_is_enough() {
    let mut born = table_with(&(0..64).collect::<Vec<u8>>(), &[]);
    for n in 0..64 {
        for status in [ALIVE, DEAD] {
            born.records[n].status = status;
            assert_eq!(written(Version::One, &born, 1923).0, 0);
            for maker in [0, 63] {
                born.records[n].maker = maker;
                let expected = (23, vec![0xA5; 1923]);
                assert_eq!(written(Version::One, &born, 1923), expected);
            }
            born.records[n].maker = 64;
        }
    }
}

#[test]
fn an_unsound_table_is_refused_by_1_before_23_and_16() {
    let mut unsound = one_record(2).0;
    unsound.records[9].kind = 2;
    let of_its_maker = one_record(3).0;
    let mut of_nobody = Table::k();
    of_nobody.records[9].maker = 5;
    assert_eq!(of_nobody.records[9].status, UNBORN);
    for table in [unsound, of_its_maker, of_nobody] {
        for version in Version::ALL {
            for room in [0, 1922, 1923, 1986, 1987] {
                assert_eq!(written(version, &table, room), (1, vec![0xA5; room]));
            }
        }
    }
}

/// What was made and destroyed keeps a table from going back, since a dead record keeps its byte.
#[test]
fn a_table_with_a_dead_made_object_does_not_go_back() {
    let made = done(&Table::k(), &allocate(5, 10, ACTIVE, &[]));
    let dead = done(&made, &Request::Destroy { actor: 5, t: 7 });
    assert_eq!(written(Version::One, &dead, 1923).0, 23);
    // After a run in which nothing was made it can.
    let write = Request::Write {
        actor: 5,
        t: 0,
        word: 1,
    };
    let changed = done(&Table::k(), &write);
    assert_eq!(written(Version::One, &changed, 1923).0, 0);
}
