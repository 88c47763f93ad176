//! Document 02, 2.7, "Record who made it": each of its sentences on tables and images that are written here by hand.

mod common;

use captable::raw::{captable_read, captable_unborn};
use captable::{confine, AccessRefusal, ChainRefusal, PairList, Record, Request};
use captable::{StepRefusal, Table, TestRefusal, WriteOlderRefusal, WriteRefusal};
use captable::{ACTIVE, ALIVE, DEAD, IMAGE_BYTES, NO_MAKER, OLDER_IMAGE_BYTES, PASSIVE, WR};
use common::{cap, k, set, step_in_both_forms};

/// An allocate of n without a part and without pairs, held in slot i.
fn allocate(actor: u8, n: u8, kind: u8, i: u8) -> Request {
    allocate_with(actor, n, kind, &[], i)
}

/// The same with a part of the actor's stock.
fn allocate_with(actor: u8, n: u8, kind: u8, part: &[u8], i: u8) -> Request {
    let (part, list) = (set(part), PairList::EMPTY);
    Request::Allocate {
        actor,
        n,
        kind,
        part,
        i,
        list,
    }
}

/// The table after requests that have to be done.
#[track_caller]
fn after(mut table: Table, requests: &[Request]) -> Table {
    for request in requests {
        let (number, next) = step_in_both_forms(&table, request.to_bytes().as_slice());
        assert_eq!(number, 0, "{request:?}");
        table = next;
    }
    table
}

/// The makers of all 64 records.
fn makers(table: &Table) -> Vec<Option<u8>> {
    (0..64).map(|n| table.record(n).made_by()).collect()
}

/// Table K, in which 5 has made 10 and 11, and 10 is dead.
fn k_with_makers() -> Table {
    let destroy = Request::Destroy { actor: 5, t: 6 };
    after(
        k(),
        &[
            allocate(5, 10, ACTIVE, 6),
            allocate(5, 11, PASSIVE, 7),
            destroy,
        ],
    )
}

/// The bytes of Table K's image in a version: the head, and records of 30 bytes or, with a maker of 64 as the last
/// byte, of 31.
fn image_of_k(version: u8) -> Vec<u8> {
    let (head, size) = match version {
        1 => ([0x07, 0x83, 1], 30), // 1,923
        _ => ([0x07, 0xc3, 2], 31), // 1,987
    };
    let mut image = vec![0; 3 + 64 * size];
    image[..3].copy_from_slice(&head);
    for (n, record) in image[3..].chunks_exact_mut(size).enumerate() {
        record[0] = u8::from(n <= 6);
        record[1] = u8::from([0, 2, 4, 5].contains(&n));
        match n {
            0 => record[14..16].copy_from_slice(&[1, 1]),
            2 => record[14..18].copy_from_slice(&[1, 4, 6, 4]),
            4 => record[14..16].copy_from_slice(&[3, 2]),
            5 => record[14..16].copy_from_slice(&[1, 2]),
            _ => {}
        }
        match n {
            4 => record[12..14].copy_from_slice(&[0x10, 0]), // the stock {12}, in bytes 6 to 13
            5 => record[12..14].copy_from_slice(&[0x0c, 0]), // the stock {10, 11}
            _ => {}
        }
        if let Some(maker) = record.get_mut(30) {
            *maker = 64;
        }
    }
    image
}

/// The number that reading is refused by, with the wholly unborn table.
#[track_caller]
fn read_refusal(image: &[u8]) -> u8 {
    // SAFETY: pointer and length are of one slice.
    let outcome = unsafe { captable_read(image.as_ptr(), image.len()) };
    assert_eq!(outcome.table, *Table::unborn().as_raw());
    outcome.number
}

/// "Each record gains one byte, the number of the object that made it": of each actor, of either kind.
#[test]
fn an_allocate_records_its_actor() {
    let mut table = k();
    table.record_mut(0).stock = set(&[63]);
    assert_eq!(makers(&table), [None; 64]);
    let requests = [
        allocate(5, 11, ACTIVE, 7),
        allocate(4, 12, PASSIVE, 1),
        allocate(0, 63, ACTIVE, 1),
    ];
    let mut expected = vec![None; 64];
    expected[11] = Some(5);
    expected[12] = Some(4);
    expected[63] = Some(0);
    assert_eq!(makers(&after(table, &requests)), expected);
}

/// The maker is who asked, and not whose stock the number came from or who made the maker: 5 makes 10, which gets 11
/// from the stock of 5 and makes it.
#[test]
fn what_was_made_makes() {
    let part = allocate_with(5, 10, ACTIVE, &[11], 7);
    let table = after(k(), &[part, allocate(10, 11, ACTIVE, 0)]);
    assert_eq!(table.record(10).made_by(), Some(5));
    assert_eq!(table.record(11).made_by(), Some(10));
    assert_eq!(table.record(5).made_by(), None);
}

/// Nothing but an allocate that is done records a maker, and that changes no other record's. (What a reclaim takes away
/// is in `reclaim.rs`.)
#[test]
fn no_other_request_changes_a_maker() {
    let before = k_with_makers();
    let mut expected = vec![None; 64];
    expected[10] = Some(5);
    expected[11] = Some(5);
    assert_eq!(makers(&before), expected);
    let (actor, t) = (5, 7);
    for request in [
        Request::Read { actor, t },
        Request::Write { actor, t, word: 9 },
        Request::Fetch {
            actor,
            t,
            i: 0,
            j: 3,
        },
        Request::Store {
            actor,
            t,
            i: 0,
            j: 3,
        },
        Request::Revoke { actor, t, j: 3 },
        Request::Destroy { actor, t },
        allocate(4, 12, ACTIVE, 2),
    ] {
        let mut table = after(before.clone(), &[request]);
        *table.record_mut(12) = Record::UNBORN;
        assert_eq!(makers(&table), expected, "{request:?}");
    }
    // A refused one changes nothing.
    let mut table = before.clone();
    let again = allocate(5, 10, ACTIVE, 7);
    assert_eq!(table.step(&again), Err(StepRefusal::NotInStock));
    assert_eq!(table, before);
}

/// "or 64 for an object not made in a run": one that is brought in.
#[test]
fn what_is_brought_in_was_made_by_nobody() {
    let table = Table::import(&[0, 8, 1, 2, 1, 1, 16, 0]).expect("two entities");
    assert_eq!(table.record(1).status, ALIVE);
    assert_eq!(table.as_raw().records.map(|record| record.maker), [64; 64]);
}

/// "unborn records have 64": the crate's own constant and the archive's call are one table.
#[test]
fn unborn_records_have_64() {
    // SAFETY: the call takes nothing.
    let unborn = unsafe { captable_unborn() };
    assert_eq!(unborn, *Table::unborn().as_raw());
    assert_eq!(unborn.records.map(|record| record.maker), [64; 64]);
    assert!(Table::unborn().is_sound());
    assert_eq!((NO_MAKER, Record::UNBORN.made_by()), (64, None));
}

/// "and a dead one keeps its byte", also where its maker is dead.
#[test]
fn a_dead_object_keeps_its_maker() {
    let mut table = k();
    *table.slot_mut(4, 1) = cap(5, WR);
    let table = after(
        table,
        &[
            allocate(5, 10, ACTIVE, 7),
            Request::Destroy { actor: 5, t: 7 },
            Request::Destroy { actor: 4, t: 1 },
        ],
    );
    let dead = |maker, kind| Record {
        status: DEAD,
        kind,
        maker,
        ..Record::UNBORN
    };
    assert_eq!(*table.record(10), dead(5, ACTIVE));
    assert_eq!(*table.record(5), dead(64, ACTIVE));
    assert!(table.is_sound());
}

/// "A sound table has in it 64 or a born number": of an alive record and of a dead one, all that the byte can be.
#[test]
fn a_maker_is_64_or_a_born_number() {
    let mut table = k();
    table.record_mut(20).status = DEAD;
    for n in [1, 20] {
        for maker in 0..=255 {
            table.record_mut(n).maker = maker;
            let born = maker <= 6 || maker == 20;
            assert_eq!(table.is_sound(), born || maker == 64, "{maker} made {n}");
        }
        table.record_mut(n).maker = 64;
    }
}

/// "and for an unborn record 64 alone".
#[test]
fn an_unborn_record_has_the_maker_64_alone() {
    let mut table = k();
    for maker in 0..=255 {
        table.record_mut(30).maker = maker;
        assert_eq!(table.is_sound(), maker == 64, "{maker}");
    }
}

/// So a table of zeros is refused by every call that takes a table, and nothing is changed or filled.
#[test]
fn a_table_of_zeros_is_refused_everywhere() {
    let mut zeros = Table::unborn();
    for n in 0..64 {
        zeros.record_mut(n).maker = 0;
    }
    let before = zeros.clone();
    assert!(!zeros.is_sound());
    let read = Request::Read { actor: 0, t: 0 };
    let (number, same) = step_in_both_forms(&zeros, read.to_bytes().as_slice());
    assert_eq!((number, same), (1, before));
    assert_eq!(zeros.potential_access(), Err(AccessRefusal::TableUnsound));
    let (members, list) = (set(&[0]), [cap(1, WR)]);
    assert_eq!(zeros.test(members, &list), Err(TestRefusal::TableUnsound));
    let chain = zeros.chain(members, &list, 1);
    assert_eq!(chain, Err(ChainRefusal::TableUnsound));
    assert_eq!(zeros.to_image(), Err(WriteRefusal::TableUnsound));
    let older = zeros.to_older_image();
    assert_eq!(older, Err(WriteOlderRefusal::TableUnsound));
}

/// "Images get version 2, length 1,987, the maker as last byte of a record of 31 bytes."
#[test]
fn an_image_of_version_2_byte_by_byte() {
    assert_eq!(IMAGE_BYTES, 1987);
    assert_eq!(k().to_image().expect("sound").to_vec(), image_of_k(2));
    assert_eq!(Table::from_image(&image_of_k(2)), Ok(k()));

    let table = k_with_makers();
    let image = table.to_image().expect("sound");
    assert_eq!(image.len(), 1987);
    let mut expected = image_of_k(2);
    let record = |n: usize| 3 + 31 * n;
    expected[record(5) + 12] = 0; // nothing is left of the stock
    expected[record(5) + 26..][..4].copy_from_slice(&[10, 15, 11, 15]);
    expected[record(10)..][..2].copy_from_slice(&[DEAD, ACTIVE]);
    expected[record(10) + 30] = 5;
    expected[record(11)] = ALIVE;
    expected[record(11) + 30] = 5;
    assert_eq!(image.to_vec(), expected);
    assert_eq!(Table::from_image(&image), Ok(table));
}

/// Reading hands over each maker as it stands, and looks whether the table is sound with it.
#[test]
fn an_image_with_any_maker_is_read_or_refused_by_1() {
    let mut image = image_of_k(2);
    for (n, record) in [(6, 3 + 31 * 6), (63, 3 + 31 * 63)] {
        for maker in 0..=255 {
            image[record + 30] = maker;
            if maker == 64 || n == 6 && maker <= 6 {
                let table = Table::from_image(&image).expect("sound");
                assert_eq!(table.record(n).maker, maker);
            } else {
                assert_eq!(read_refusal(&image), 1, "{maker} made {n}");
            }
        }
        image[record + 30] = 64;
    }
}

/// "A version 1 image moves up with 64 throughout, and moving it back gives equal bytes."
#[test]
fn a_version_1_image_moves_up_and_back() {
    let older = image_of_k(1);
    assert_eq!((older.len(), OLDER_IMAGE_BYTES), (1923, 1923));
    let table = Table::from_image(&older).expect("sound");
    assert_eq!(makers(&table), [None; 64]);
    assert_eq!(table, k());
    let newer = table.to_image().expect("sound");
    assert_eq!(newer.to_vec(), image_of_k(2));
    let again = Table::from_image(&newer).expect("sound");
    assert_eq!(again.to_older_image().expect("no makers").to_vec(), older);
}

/// "The equal-records claim includes the byte": records that differ in it alone are not equal, nor are their tables.
#[test]
fn records_with_different_makers_differ() {
    let mut table = k();
    table.record_mut(6).maker = 6;
    assert_ne!(*table.record(6), *k().record(6));
    assert_ne!(table, k());
    assert!(table.is_sound());
}

/// "Writing now asks for 1,987 bytes at 16, or 1,923 for the older form." No byte after the image is touched, and none
/// at all on a refusal.
#[test]
fn writing_asks_for_the_length_of_the_version() {
    let write: fn(&mut [u8]) -> u8 = |buffer| {
        k().write_image(buffer)
            .map_or_else(WriteRefusal::number, |()| 0)
    };
    let write_older: fn(&mut [u8]) -> u8 = |buffer| {
        let answer = k().write_older_image(buffer);
        answer.map_or_else(WriteOlderRefusal::number, |()| 0)
    };
    for (write, own, image) in [
        (write, 1987, image_of_k(2)),
        (write_older, 1923, image_of_k(1)),
    ] {
        for length in [0, 1, 1922, 1923, 1924, 1986, 1987, 1988, 2100] {
            let mut buffer = vec![0xaa; length];
            let mut expected = buffer.clone();
            let number = match expected.get_mut(..own) {
                Some(filled) => {
                    filled.copy_from_slice(&image);
                    0
                }
                None => 16,
            };
            assert_eq!(write(&mut buffer), number, "{own}, {length}");
            assert_eq!(buffer, expected, "{own}, {length}");
        }
    }
}

/// "A slice under three bytes gets 14", whatever its bytes are.
#[test]
fn under_three_bytes_is_14() {
    for bytes in [&[][..], &[7], &[7, 0x83], &[7, 0xc3], &[0, 2], &[3, 3]] {
        assert_eq!(read_refusal(bytes), 14, "{bytes:?}");
    }
}

/// "A version byte that is neither 1 nor 2 then gets 15, at any length", with any length field, sound or not.
#[test]
fn any_other_version_is_15_at_any_length() {
    for version in [0, 3, 4, 64, 128, 255] {
        for length in [3, 4, 1922, 1923, 1924, 1986, 1987, 1988, 4000] {
            for mut image in [image_of_k(1), image_of_k(2), vec![0xff; 4000]] {
                image.resize(length, 0);
                image[2] = version;
                assert_eq!(read_refusal(&image), 15, "{version}, {length}");
            }
        }
    }
}

/// "After that 14 wants the version's own length, in the slice and in the length field": before 1, and the other
/// version's length will not do.
#[test]
fn then_14_wants_the_versions_own_length() {
    for (version, own) in [(1, 1923), (2, 1987)] {
        for length in [3, 4, 1922, 1923, 1924, 1986, 1987, 1988, 4000] {
            for field in [0, 3, 1922, 1923, 1924, 1986, 1987, 1988, 4000_u16] {
                let mut image = image_of_k(version);
                image.resize(length, 0);
                image[..2].copy_from_slice(&field.to_be_bytes());
                let right = length == own && usize::from(field) == own;
                if right {
                    assert_eq!(Table::from_image(&image), Ok(k()));
                } else {
                    assert_eq!(read_refusal(&image), 14, "{version}, {length}, {field}");
                }
                if let Some(status) = image.get_mut(3) {
                    *status = 3;
                    let number = if right { 1 } else { 14 };
                    assert_eq!(read_refusal(&image), number, "{version}, {length}, {field}");
                }
            }
        }
    }
}

/// "`confine` goes on taking version 1 and prints `refused 15` at any other version byte", once the input has its length
/// (17), and before the image's length field is looked at (14) and its table (1).
#[test]
fn confine_takes_version_1_alone() {
    let input_of = |image: &[u8]| {
        let mut input = image.to_vec();
        input.extend(set(&[5]).bits().to_be_bytes());
        input.extend([1, 1, WR]);
        input
    };
    let mut input = input_of(&image_of_k(1));
    assert_eq!(confine(&input).as_bytes(), b"accepted\n0\n1\n2\n");
    for version in (0..=255).filter(|&version| version != 1) {
        input[2] = version;
        assert_eq!(confine(&input).as_bytes(), b"refused 15\n", "{version}");
    }
    input[1] = 0xc3;
    input[3] = 3;
    assert_eq!(confine(&input).as_bytes(), b"refused 15\n");
    input[2] = 1;
    assert_eq!(confine(&input).as_bytes(), b"refused 14\n");
    input[1] = 0x83;
    assert_eq!(confine(&input).as_bytes(), b"refused 1\n");
    input[2] = 2;
    input.push(0);
    assert_eq!(confine(&input).as_bytes(), b"refused 17\n");
    let longer = input_of(&image_of_k(2));
    assert_eq!(confine(&longer).as_bytes(), b"refused 17\n");
}

/// "Turned away: 23, after 1 and before 16, if a table goes back to version 1 while some maker is not 64": of an alive
/// object or of a dead one, and wherever it stands.
#[test]
fn the_older_form_has_no_place_for_a_maker() {
    let mut buffers = [0, 1922, 1923, 2000].map(|length| vec![0xaa; length]);
    let mut refused = |table: &Table, refusal: WriteOlderRefusal| {
        for buffer in &mut buffers {
            assert_eq!(table.write_older_image(buffer), Err(refusal));
            assert!(buffer.iter().all(|&byte| byte == 0xaa));
        }
    };
    for n in 0..64 {
        for status in [ALIVE, DEAD] {
            let mut table = Table::unborn();
            table.record_mut(n).status = status;
            table.record_mut(n).maker = n;
            refused(&table, WriteOlderRefusal::MakerRecorded);
            table.record_mut(63 - n).word = 1; // unborn with a word
            refused(&table, WriteOlderRefusal::TableUnsound);
        }
    }
    let table = k_with_makers();
    refused(&table, WriteOlderRefusal::MakerRecorded);
    let mut short = [0xaa; 1923];
    let answer = table.write_image(&mut short);
    assert_eq!(answer, Err(WriteRefusal::BufferShort));
    assert_eq!(short, [0xaa; 1923]);
    assert_eq!(WriteOlderRefusal::MakerRecorded.number(), 23);
}
