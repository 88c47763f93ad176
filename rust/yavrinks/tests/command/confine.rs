//! What `yavrinks confine` answers: the bytes are those of document 01's examples and of the test vectors,
//! and the status tells a refusal from an acceptance.

use crate::run::{example_1, feed, image_k, input, put_slot, yavrinks};
use std::fs;
use std::path::Path;

/// The command on an input must print exactly this, with this status and nothing on standard error.
#[track_caller]
fn assert_answer(input: &[u8], printed: &str, status: i32) {
    let output = feed(&mut yavrinks(&["confine"]), input);
    assert_eq!(String::from_utf8_lossy(&output.stdout), printed);
    assert_eq!(output.status.code(), Some(status));
    assert_eq!(output.stderr, b"");
}

#[test]
fn examples_1_and_2_are_accepted() {
    assert_answer(&example_1(), "accepted\n0\n1\n2\n", 0);
    let mut weak = image_k();
    put_slot(&mut weak, 5, 0, 1, 4);
    assert_answer(&input(&weak, &[5], &[(1, 4)]), "accepted\n", 0);
    assert_answer(&input(&weak, &[5], &[]), "accepted\n", 0);
}

/// Rights 5 are rd and wk. Beside rd, wk has to be listed too.
#[test]
fn wk_beside_rd_has_to_be_listed_and_wk_alone_has_not() {
    let mut image = image_k();
    put_slot(&mut image, 5, 0, 1, 5);
    assert_answer(&input(&image, &[5], &[]), "refused 12\n", 1);
    assert_answer(&input(&image, &[5], &[(1, 1)]), "refused 12\n", 1);
    let both = [(1, 1), (1, 4)];
    assert_answer(&input(&image, &[5], &both), "accepted\n0\n1\n2\n", 0);
    // What the other slots read through wk alone needs no entry, and adds nothing.
    for (j, target) in [(1, 0), (2, 2), (3, 3), (4, 4), (5, 6), (6, 6), (7, 1)] {
        put_slot(&mut image, 5, j, target, 4);
    }
    assert_answer(&input(&image, &[5], &both), "accepted\n0\n1\n2\n", 0);
    assert_answer(&input(&image, &[5], &[(1, 1)]), "refused 12\n", 1);
}

#[test]
fn examples_3_to_5_are_refused() {
    let k = image_k();
    assert_answer(&input(&k, &[5], &[]), "refused 12\n", 1);
    let mut held = k.clone();
    put_slot(&mut held, 0, 1, 5, 4);
    assert_answer(&input(&held, &[5], &[(1, 2)]), "refused 13\n", 1);
    assert_answer(&input(&k, &[], &[]), "refused 10\n", 1);
    assert_answer(&input(&k, &[10], &[]), "refused 10\n", 1);
}

#[test]
fn images_that_do_not_read_are_refused() {
    let mut old = example_1();
    old[2] = 0;
    assert_answer(&old, "refused 15\n", 1); // example 12
    let mut length = example_1();
    length[1] = 0x82;
    assert_answer(&length, "refused 14\n", 1);
    // The version byte is looked at before the length field.
    length[2] = 2;
    assert_answer(&length, "refused 15\n", 1);
    let mut unsound = example_1();
    unsound[3] = 3; // object 0's status
    assert_answer(&unsound, "refused 1\n", 1);
}

/// Document 02, 2.7: "`confine` goes on taking version 1 and prints `refused 15` at any other version byte." Version 2
/// is another one, in an image of 1,923 bytes with either length field; a whole image of version 2 is 64 bytes longer,
/// and its input gets 17, unless what stands at the count's place makes the length right.
#[test]
fn any_other_version_is_refused_by_15() {
    for version in [0, 2, 3, 128, 255] {
        for field in [[0x07, 0x83], [0x07, 0xc3], [0, 0]] {
            let mut image = image_k();
            image[..2].copy_from_slice(&field);
            image[2] = version;
            assert_answer(&input(&image, &[5], &[(1, 2)]), "refused 15\n", 1);
        }
    }
    let mut image = vec![0; 1987];
    image[..3].copy_from_slice(&[0x07, 0xc3, 0x02]);
    for record in image[3..].chunks_exact_mut(31) {
        record[30] = 64;
    }
    assert_answer(&input(&image, &[], &[]), "refused 17\n", 1);
    // 1,987 bytes, eight of members, a count: 1,996 in all, as an input with 32 entries has. The byte at 1,931 counts
    // them there.
    image[1931] = 32;
    assert_answer(&input(&image, &[], &[]), "refused 15\n", 1);
}

#[test]
fn inputs_of_wrong_length_are_refused_by_17() {
    let right = example_1();
    for length in [0, 1, 1922, 1923, 1931, 1932, right.len() - 1] {
        assert_answer(&right[..length], "refused 17\n", 1);
    }
    let mut long = right.clone();
    long.push(0);
    assert_answer(&long, "refused 17\n", 1);
    // 255 entries make 2,442 bytes, which is a right length with a list above 8. No count makes more right.
    let mut longest = input(&image_k(), &[5], &[(1, 2); 255]);
    assert_eq!(longest.len(), 2442);
    assert_answer(&longest, "refused 11\n", 1);
    longest.push(0);
    assert_answer(&longest, "refused 17\n", 1);
    longest.resize(1 << 20, 0);
    assert_answer(&longest, "refused 17\n", 1);
}

#[test]
fn the_test_vectors_agree_byte_for_byte() {
    let folder = Path::new(env!("CARGO_MANIFEST_DIR")).join("../../model/vectors/confine");
    let (mut accepted, mut refused) = (0, 0);
    for entry in fs::read_dir(folder).expect("the folder of vectors") {
        let path = entry.expect("an entry").path();
        if path.extension().is_none_or(|extension| extension != "in") {
            continue;
        }
        let given = fs::read(&path).expect("an input");
        let expected = fs::read_to_string(path.with_extension("out")).expect("its output");
        let status = match expected.lines().next() {
            Some("accepted") => 0,
            _ => 1,
        };
        assert_answer(&given, &expected, status);
        match status {
            0 => accepted += 1,
            _ => refused += 1,
        }
    }
    assert!(accepted > 0 && refused > 0, "{accepted}, {refused}");
}

#[test]
fn a_file_is_read_like_standard_input() {
    let folder = Path::new(env!("CARGO_TARGET_TMPDIR"));
    for (name, bytes, printed, status) in [
        ("accepted input", example_1(), "accepted\n0\n1\n2\n", 0),
        (
            "refused input",
            input(&image_k(), &[5], &[]),
            "refused 12\n",
            1,
        ),
        ("empty input", Vec::new(), "refused 17\n", 1),
    ] {
        let file = folder.join(name);
        fs::write(&file, bytes).expect("a file");
        let output = yavrinks(&["confine"])
            .arg(&file)
            .output()
            .expect("the command runs");
        assert_eq!(String::from_utf8_lossy(&output.stdout), printed);
        assert_eq!(output.status.code(), Some(status));
        assert_eq!(output.stderr, b"");
    }
}

#[test]
fn an_input_without_end_is_answered() {
    let output = yavrinks(&["confine", "/dev/zero"])
        .output()
        .expect("the command runs");
    assert_eq!(output.stdout, b"refused 17\n");
    assert_eq!(output.status.code(), Some(1));
}
