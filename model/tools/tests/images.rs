//! Images in both versions and the program's input: round trips, exact bytes, and every refusal reached.
//! The bytes are compared with fields taken from their places by hand.

use std::collections::BTreeMap;

use yavrinks_model::confine::confine;
use yavrinks_model::confinement::{confinement_test, Tested};
use yavrinks_model::image::{encode, read, write, Version, VERSION_AT};
use yavrinks_model::table::Table;
use yavrinks_tools::generate::{
    any_sound_table, confine_input, confinement_case, encode_input, image_case, image_of,
    without_makers, write_case, CONFINEMENT_NUMBERS, CONFINE_NUMBERS, IMAGE_NUMBERS,
    INPUT_COUNT_AT, WRITE_NUMBERS,
};
use yavrinks_tools::rng::Rng;

#[test]
fn written_tables_read_back_equal() {
    let mut rng = Rng::new(30);
    for version in Version::ALL {
        for _ in 0..500 {
            let table = match version {
                Version::One => without_makers(&any_sound_table(&mut rng)),
                Version::Two => any_sound_table(&mut rng),
            };
            let extra = rng.between(0, 9) as usize;
            let mut buffer = vec![0xC3; version.image_length() + extra];
            assert_eq!(write(version, &table, &mut buffer), 0);
            let (image, rest) = buffer.split_at(version.image_length());
            assert!(rest.iter().all(|&byte| byte == 0xC3));
            assert_eq!(read(image), (0, table));
        }
    }
}

/// A version 1 image moves up with 64 throughout, and moving it back gives equal bytes.
#[test]
fn images_move_up_and_back() {
    let mut rng = Rng::new(36);
    for _ in 0..300 {
        let image = image_of(&mut rng, Version::One, 0);
        let (_, table) = read(&image);
        assert!(!table.has_makers());
        let mut up = vec![0; 1987];
        assert_eq!(write(Version::Two, &table, &mut up), 0);
        assert_eq!(read(&up), (0, table.clone()));
        let mut back = vec![0; 1923];
        assert_eq!(write(Version::One, &read(&up).1, &mut back), 0);
        assert_eq!(back, image);
    }
}

#[test]
fn every_field_has_its_place() {
    let mut rng = Rng::new(31);
    for _ in 0..200 {
        let table = any_sound_table(&mut rng);
        let older = encode(Version::One, &table);
        assert_eq!(older.len(), 3 + 64 * 30);
        assert_eq!(older[..3], [0x07, 0x83, 0x01]);
        let image = encode(Version::Two, &table);
        assert_eq!(image.len(), 3 + 64 * 31);
        assert_eq!(image[..3], [0x07, 0xC3, 0x02]);
        for (n, record) in table.records.iter().enumerate() {
            let part = &image[3 + 31 * n..3 + 31 * (n + 1)];
            assert_eq!(part[..30], older[3 + 30 * n..3 + 30 * (n + 1)]);
            assert_eq!(part[30], record.maker);
            assert_eq!(part[..2], [record.status, record.kind]);
            for k in 0..4 {
                assert_eq!(part[2 + k], (record.word >> (24 - 8 * k)) as u8);
            }
            for k in 0..8 {
                assert_eq!(part[6 + k], (record.stock >> (56 - 8 * k)) as u8);
                let slot = record.slots[k];
                assert_eq!(part[14 + 2 * k..16 + 2 * k], [slot.target, slot.rights]);
            }
        }
    }
}

#[test]
fn every_number_of_reading_is_reached() {
    let mut rng = Rng::new(32);
    let mut counts: BTreeMap<u8, u32> = BTreeMap::new();
    for aim in IMAGE_NUMBERS {
        for _ in 0..300 {
            let image = image_case(&mut rng, aim);
            let (number, table) = read(&image);
            assert_eq!(number, aim);
            match Version::of(*image.get(VERSION_AT).unwrap_or(&0)) {
                Some(version) if number == 0 => assert_eq!(encode(version, &table), image),
                _ => assert_eq!(table, Table::unborn()),
            }
            *counts.entry(number).or_default() += 1;
        }
    }
    assert!(counts.len() == 4 && counts.values().all(|&count| count == 300));
}

/// In which ways an image is refused: how long it is, by the lengths of the two versions, and what the version byte
/// and the length field say.
#[test]
fn images_are_refused_in_every_way() {
    let mut rng = Rng::new(37);
    let mut ways: BTreeMap<(u8, &str, &str), u32> = BTreeMap::new();
    for aim in [14, 15] {
        for _ in 0..2000 {
            let image = image_case(&mut rng, aim);
            let length = match image.len() {
                0..=2 => "no head",
                1923 => "1,923",
                1987 => "1,987",
                _ => "another length",
            };
            let head = match image.get(..3) {
                None => "",
                Some([0x07, 0x83, 1] | [0x07, 0xC3, 2]) => "whole",
                Some([0x07, 0x83, 2] | [0x07, 0xC3, 1]) => "of the other version",
                Some([0x07, 0x83 | 0xC3, _]) => "of no version",
                Some([_, _, 1 | 2]) => "with another length",
                Some(_) => "with neither",
            };
            *ways.entry((aim, length, head)).or_default() += 1;
        }
    }
    println!("{ways:?}");
    for (length, head) in [
        ("no head", ""),
        ("another length", "whole"),
        ("1,923", "of the other version"),
        ("1,987", "of the other version"),
        ("1,923", "with another length"),
        ("1,987", "with another length"),
    ] {
        assert!(ways[&(14, length, head)] > 20, "{length}, {head}");
    }
    for length in ["1,923", "1,987", "another length"] {
        assert!(ways[&(15, length, "of no version")] > 20, "{length}");
    }
    for length in ["1,923", "1,987"] {
        assert!(ways[&(15, length, "with neither")] > 20, "{length}");
    }
}

#[test]
fn every_number_of_writing_is_reached() {
    let mut rng = Rng::new(38);
    for (version, aim) in WRITE_NUMBERS {
        let mut short = 0;
        for _ in 0..200 {
            let case = write_case(&mut rng, version, aim);
            let mut buffer = vec![0xA5; case.room];
            assert_eq!(write(version, &case.table, &mut buffer), aim);
            let untouched = buffer.iter().all(|&byte| byte == 0xA5);
            assert_eq!(untouched, aim != 0);
            short += u32::from(case.room < version.image_length());
        }
        // A number before 16 comes with short buffers too.
        match aim {
            0 => assert_eq!(short, 0),
            16 => assert_eq!(short, 200),
            _ => assert!((50..150).contains(&short), "{short}"),
        }
    }
}

#[test]
fn every_answer_of_the_program_is_reached() {
    let mut rng = Rng::new(33);
    let mut counts: BTreeMap<String, u32> = BTreeMap::new();
    for aim in CONFINE_NUMBERS {
        for _ in 0..200 {
            let text = confine(&confine_input(&mut rng, aim));
            let first = text.lines().next().expect("line").to_string();
            let expected = match aim {
                0 => String::from("accepted"),
                _ => format!("refused {aim}"),
            };
            assert_eq!(first, expected);
            assert!(text.ends_with('\n'));
            assert!(aim == 0 || text.lines().count() == 1);
            *counts.entry(first).or_default() += 1;
        }
    }
    assert!(counts.len() == 9 && counts.values().all(|&count| count == 200));
}

#[test]
fn the_program_prints_what_the_test_returns() {
    let mut rng = Rng::new(34);
    for aim in CONFINEMENT_NUMBERS {
        for _ in 0..100 {
            let mut case = confinement_case(&mut rng, aim);
            case.table = without_makers(&case.table);
            let Tested { number, bound, .. } =
                confinement_test(&case.table, case.members, &case.list);
            let text = confine(&encode_input(&case));
            let mut lines = text.lines();
            match number {
                0 => assert_eq!(lines.next(), Some("accepted")),
                _ => assert_eq!(lines.next(), Some(format!("refused {number}").as_str())),
            }
            let printed: Vec<u32> = lines.map(|line| line.parse().expect("number")).collect();
            let expected: Vec<u32> = (0..64).filter(|&n| bound >> n & 1 == 1).collect();
            assert_eq!(printed, expected);
        }
    }
}

#[test]
fn input_length_is_checked_before_everything() {
    let mut rng = Rng::new(35);
    let case = confinement_case(&mut rng, 0);
    let input = encode_input(&case);
    for length in 0..input.len() {
        assert_eq!(confine(&input[..length]), "refused 17\n");
    }
    let mut zeros = vec![0; INPUT_COUNT_AT];
    assert_eq!(confine(&zeros), "refused 17\n");
    zeros.push(0);
    assert_eq!(confine(&zeros), "refused 15\n");
    zeros[VERSION_AT] = 1;
    assert_eq!(confine(&zeros), "refused 14\n");
    zeros.push(0);
    assert_eq!(confine(&zeros), "refused 17\n");
}
