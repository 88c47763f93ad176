//! README's table of numbers and the header say of every cause the number and the word that it has here.

use captable::{AccessRefusal, ChainRefusal, ImportRefusal, ReadRefusal};
use captable::{StepRefusal, TestRefusal, WriteOlderRefusal, WriteRefusal};
use std::fmt::{Debug, Display};

/// A number, and the name of its cause.
type Named = (u8, String);

fn named(number: u8, cause: impl Debug) -> Named {
    (number, format!("`{cause:?}`"))
}

/// Every cause of this crate, each once; in the place of 17, which no call gives, the name that it is told.
fn causes(named_17: &str) -> Vec<Named> {
    use StepRefusal::*;
    let mut all: Vec<Named> = [
        TableUnsound,
        FieldInvalid,
        ActorUnfit,
        SlotEmpty,
        TargetDead,
        RightAbsent,
        TargetPassive,
        ActorItself,
        NotInStock,
    ]
    .map(|cause| named(cause.number(), cause))
    .to_vec();
    all.extend(
        [
            TestRefusal::MembersInvalid,
            TestRefusal::ListInvalid,
            TestRefusal::RightUnlisted,
            TestRefusal::MemberHeld,
        ]
        .map(|cause| named(cause.number(), cause)),
    );
    all.extend(
        [ReadRefusal::LengthWrong, ReadRefusal::VersionWrong]
            .map(|cause| named(cause.number(), cause)),
    );
    all.push(named(
        WriteRefusal::BufferShort.number(),
        WriteRefusal::BufferShort,
    ));
    all.push((17, named_17.to_string()));
    all.extend(
        [ChainRefusal::ObjectInvalid, ChainRefusal::OutsideBound]
            .map(|cause| named(cause.number(), cause)),
    );
    all.extend(IMPORT.map(|cause| named(cause.number(), cause)));
    let recorded = WriteOlderRefusal::MakerRecorded;
    all.push(named(recorded.number(), recorded));
    all.push(named(TargetAlive.number(), TargetAlive));
    all
}

/// Why an import is refused.
const IMPORT: [ImportRefusal; 3] = [
    ImportRefusal::ImportLengthWrong,
    ImportRefusal::ImportVersionWrong,
    ImportRefusal::ImportValueWrong,
];

#[test]
fn the_table_in_readme_has_every_cause_and_no_other() {
    let readme = include_str!("../../../README.md");
    let section = readme
        .split("\n## The numbers\n")
        .nth(1)
        .expect("a section");
    let rows = section
        .lines()
        .skip_while(|line| !line.starts_with("| 0 |"));
    let listed: Vec<Named> = rows
        .take_while(|line| line.starts_with('|'))
        .map(|row| {
            let cells: Vec<&str> = row.split('|').map(str::trim).collect();
            (cells[1].parse().expect("a number"), cells[2].to_string())
        })
        .collect();
    let mut expected = vec![(0, String::new())];
    expected.extend(causes(""));
    assert_eq!(listed, expected);
}

/// The name of a cause as the header writes it.
fn in_c(cause: &str) -> String {
    let mut name = "CAPTABLE".to_string();
    for letter in cause.trim_matches('`').chars() {
        if letter.is_uppercase() {
            name.push('_');
        }
        name.push(letter.to_ascii_uppercase());
    }
    name
}

#[test]
fn the_header_has_every_cause_and_no_other() {
    let header = include_str!("../../../include/captable.h");
    let after = header
        .split("enum captable_number {")
        .nth(1)
        .expect("the enum");
    let body = after.split("};").next().expect("its end");
    let listed: Vec<Named> = body
        .lines()
        .filter_map(|line| {
            let (name, rest) = line.trim().split_once(" = ")?;
            let digits: String = rest.chars().take_while(char::is_ascii_digit).collect();
            Some((digits.parse().expect("a number"), name.to_string()))
        })
        .collect();
    let mut expected = vec![(0, "CAPTABLE_DONE".to_string())];
    let causes = causes("`InputWrong`").into_iter();
    expected.extend(causes.map(|(n, cause)| (n, in_c(&cause))));
    assert_eq!(listed, expected);
}

#[test]
fn the_header_has_the_same_version() {
    let header = include_str!("../../../include/captable.h");
    let stated = format!("\n#define CAPTABLE_VERSION {}\n", captable::VERSION);
    assert!(header.contains(&stated));
}

#[test]
fn an_unsound_table_is_1_everywhere() {
    assert_eq!(AccessRefusal::TableUnsound.number(), 1);
    assert_eq!(TestRefusal::TableUnsound.number(), 1);
    assert_eq!(ChainRefusal::TableUnsound.number(), 1);
    assert_eq!(ReadRefusal::TableUnsound.number(), 1);
    assert_eq!(WriteRefusal::TableUnsound.number(), 1);
    assert_eq!(WriteOlderRefusal::TableUnsound.number(), 1);
}

/// Both forms of an image are refused by the same number, name and words where they are refused for the same.
#[test]
fn the_older_form_is_refused_as_the_other_is() {
    for (whole, older) in [
        (WriteRefusal::TableUnsound, WriteOlderRefusal::TableUnsound),
        (WriteRefusal::BufferShort, WriteOlderRefusal::BufferShort),
    ] {
        assert_eq!(named(whole.number(), whole), named(older.number(), older));
        assert_eq!(whole.to_string(), older.to_string());
    }
}

/// Who asks for a chain gets the test's refusals by the same number, name and words.
#[test]
fn a_chain_is_refused_as_its_test_is() {
    for (test, chain) in [
        (TestRefusal::TableUnsound, ChainRefusal::TableUnsound),
        (TestRefusal::MembersInvalid, ChainRefusal::MembersInvalid),
        (TestRefusal::ListInvalid, ChainRefusal::ListInvalid),
        (TestRefusal::RightUnlisted, ChainRefusal::RightUnlisted),
        (TestRefusal::MemberHeld, ChainRefusal::MemberHeld),
    ] {
        assert_eq!(named(test.number(), test), named(chain.number(), chain));
        assert_eq!(test.to_string(), chain.to_string());
    }
}

/// The words of the header's `captable_reason` for a name of its enum.
fn reason(header: &str, name: &str) -> String {
    let case = format!("    case {name}:\n        return \"");
    let after = header.split(case.as_str()).nth(1).expect("a reason");
    let words = after.split("\";").next().expect("its end");
    words.to_string()
}

#[test]
fn the_header_gives_the_same_reasons_for_tests_and_from_18_on() {
    let header = include_str!("../../../include/captable.h");
    let same = |number: u8, cause: &dyn Debug, told: &dyn Display| {
        let name = in_c(&format!("{cause:?}"));
        let reason = format!("refused {number}: {}", reason(header, &name));
        assert_eq!(told.to_string(), reason);
    };
    for refusal in [
        TestRefusal::MembersInvalid,
        TestRefusal::ListInvalid,
        TestRefusal::RightUnlisted,
        TestRefusal::MemberHeld,
    ] {
        same(refusal.number(), &refusal, &refusal);
    }
    for refusal in [ChainRefusal::ObjectInvalid, ChainRefusal::OutsideBound] {
        same(refusal.number(), &refusal, &refusal);
    }
    for refusal in IMPORT {
        same(refusal.number(), &refusal, &refusal);
    }
    let recorded = WriteOlderRefusal::MakerRecorded;
    same(recorded.number(), &recorded, &recorded);
    let alive = StepRefusal::TargetAlive;
    same(alive.number(), &alive, &alive);
}
