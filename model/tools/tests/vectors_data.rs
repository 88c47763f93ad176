//! The cases of the program `vectors`: enough of each kind, every refusal and every request reached,
//! and the files in the program's crate are those that the generator makes.

use std::collections::{BTreeMap, BTreeSet};
use std::fs;

use yavrinks_model::chain::chain as shown_chain;
use yavrinks_model::confinement::{confinement_test, Tested};
use yavrinks_model::image::{read, write, Version, VERSION_AT};
use yavrinks_model::step::{step, step_in_place, Request};
use yavrinks_model::table::{Capability, Table, TX, UNBORN};
use yavrinks_model::take_grant::import;
use yavrinks_tools::copies::reply_slot;
use yavrinks_tools::generate::{can_meet, without_makers, StepCase, WriteCase, STEP_REPLIES};
use yavrinks_tools::repository::root;
use yavrinks_tools::shared::{shared_images, shared_imports, ImageLine};
use yavrinks_tools::shared::{shared_tests, shared_tests_with_makers};
use yavrinks_tools::vectors::{
    access_cases, chain, edges, image_cases, import_cases, output, parts, shown_cases, step_cases,
    test_cases, test_rounds, write_cases,
};

/// How often each outcome comes.
fn counts<T: Ord>(outcomes: impl IntoIterator<Item = T>) -> BTreeMap<T, usize> {
    let mut counts = BTreeMap::new();
    for outcome in outcomes {
        *counts.entry(outcome).or_insert(0) += 1;
    }
    counts
}

/// Fails unless exactly the given outcomes come, each often enough.
fn expect(counts: &BTreeMap<u8, usize>, least: &[(u8, usize)]) {
    println!("{counts:?}");
    assert!(counts.keys().eq(least.iter().map(|(outcome, _)| outcome)));
    for (outcome, times) in least {
        assert!(counts[outcome] >= *times, "{outcome}: {counts:?}");
    }
}

/// The number that writing gives into a buffer of so many bytes.
fn written(version: Version, table: &Table, room: usize) -> u8 {
    write(version, table, &mut vec![0; room])
}

#[test]
fn images_are_whole_in_both_versions_and_reach_every_refusal() {
    let cases = image_cases();
    let numbers = cases.iter().map(|case| read(&case.image).0);
    expect(&counts(numbers), &[(0, 100), (1, 48), (14, 40), (15, 15)]);
    assert!(cases.len() >= 220);
    for version in Version::ALL {
        let of_version = cases.iter().filter(|case| {
            let number = case.image.get(VERSION_AT);
            number == Some(&version.number())
        });
        let numbers = counts(of_version.map(|case| read(&case.image).0));
        expect(&numbers, &[(0, 50), (1, 18), (14, 15)]);
    }
    let of_version = |version| {
        let tables = cases.iter().map(|case| (read(&case.image).1, case.room));
        counts(tables.map(|(table, room)| written(version, &table, room)))
    };
    expect(&of_version(Version::Two), &[(0, 100), (16, 60)]);
    expect(&of_version(Version::One), &[(0, 100), (16, 40), (23, 20)]);
    let rooms = counts(cases.iter().map(|case| case.room));
    for room in [0, 1, 1922, 1923, 1924, 1986, 1987, 1988] {
        assert!(rooms[&room] >= 15, "{room}: {rooms:?}");
    }
}

/// Heads that do not fit, by the length of the slice.
#[test]
fn images_have_every_wrong_head() {
    let heads: BTreeSet<(usize, Vec<u8>)> = image_cases()
        .into_iter()
        .map(|case| (case.image.len(), case.image.into_iter().take(3).collect()))
        .collect();
    let has = |length, head: &[u8]| heads.contains(&(length, head.to_vec()));
    for (length, head) in [
        (1923, [0x07, 0xC3, 2]),
        (1923, [0x07, 0xC3, 1]),
        (1923, [0x07, 0x83, 2]),
        (1987, [0x07, 0x83, 1]),
        (1987, [0x07, 0x83, 2]),
        (1987, [0x07, 0xC3, 1]),
        (1922, [0x07, 0x82, 1]),
        (1988, [0x07, 0xC4, 2]),
        (1924, [0x07, 0x84, 1]),
        (1986, [0x07, 0xC2, 2]),
    ] {
        assert!(has(length, &head), "{length}: {head:02x?}");
    }
    for version in [0, 3, 255] {
        let at = |length| {
            let mut of_length = heads.iter().filter(|head| head.0 == length);
            of_length.any(|(_, head)| head[VERSION_AT] == version)
        };
        assert!([3, 4, 1922, 1923, 1987, 1988].into_iter().all(at));
    }
    assert!((0..3).all(|length| heads.iter().any(|head| head.0 == length)));
}

#[test]
fn tables_are_written_and_refused() {
    let cases = write_cases();
    let of_version = |version| {
        let numbers = cases
            .iter()
            .map(|case| written(version, &case.table, case.room));
        counts(numbers)
    };
    expect(&of_version(Version::Two), &[(0, 10), (1, 55), (16, 20)]);
    expect(
        &of_version(Version::One),
        &[(0, 8), (1, 55), (16, 8), (23, 16)],
    );
}

/// A maker is the only offence of some tables, of each kind, in the first and in the last record too.
#[test]
fn makers_alone_make_tables_unsound() {
    let mut kinds = BTreeSet::new();
    for WriteCase { table, .. } in write_cases() {
        if table.is_sound() || !without_makers(&table).is_sound() {
            continue;
        }
        for (n, record) in (0..).zip(&table.records) {
            let kind = match (record.status, record.maker) {
                (_, 64) => continue,
                (_, 65..) => "no number",
                (UNBORN, maker) if table.is_born(maker) => "of an unborn record",
                (UNBORN, _) => "an unborn number, of an unborn record",
                (_, maker) if table.is_born(maker) => continue,
                _ => "an unborn number",
            };
            let place = match n {
                0 => "first",
                63 => "last",
                _ => "between",
            };
            kinds.insert((kind, place));
        }
    }
    for kind in [
        "no number",
        "of an unborn record",
        "an unborn number, of an unborn record",
        "an unborn number",
    ] {
        for place in ["first", "last"] {
            assert!(kinds.contains(&(kind, place)), "{kind}, {place}");
        }
    }
}

/// All 48 shared images: those that are read as images, those that are written as tables.
#[test]
fn the_shared_images_are_there() {
    let (images, writes) = (image_cases(), write_cases());
    for line in shared_images() {
        let there = match line {
            ImageLine::Read { bytes, .. } => images.iter().any(|case| case.image == bytes),
            ImageLine::Write { table, before, .. } => {
                let room = before.len();
                writes.contains(&WriteCase { table, room })
            }
        };
        assert!(there);
    }
}

#[test]
fn steps_reach_every_reply_of_every_request() {
    let cases = step_cases();
    assert!(cases.len() >= 420);
    let replies = counts(cases.iter().map(|case| {
        let reply = step(&case.table, &case.request).0;
        (case.request.code(), reply)
    }));
    println!("{replies:?}");
    for code in 0..=255 {
        for reply in STEP_REPLIES
            .into_iter()
            .filter(|&reply| can_meet(code, reply))
        {
            let known = (1..=9).contains(&code);
            let least = match reply {
                0 => 12,
                _ if known => 4,
                _ => 0,
            };
            let times = replies.get(&(code, reply)).copied().unwrap_or(0);
            assert!(times >= least, "code {code}, reply {reply}: {times}");
        }
    }
    assert!(replies.keys().all(|&(code, reply)| can_meet(code, reply)));
    assert!(
        replies
            .keys()
            .filter(|(code, _)| !(1..=9).contains(code))
            .count()
            >= 10
    );
}

/// Document 01 has the actor's slots copied as they were before the request. If a pair copied what one before
/// it wrote, some sends to the actor itself would leave other slots.
#[test]
fn sends_to_oneself_tell_slots_before_the_request_from_slots_on_the_way() {
    let mut telling = 0;
    for StepCase { table, request } in step_cases() {
        let Request::Send {
            actor, t, ref list, ..
        } = request
        else {
            continue;
        };
        let (reply, after) = step(&table, &request);
        if reply != 0 || table.record(actor).slots[usize::from(t)].target != actor {
            continue;
        }
        let mut slots = table.record(actor).slots;
        for &(from, to) in list {
            let copy = slots[usize::from(from)];
            if !copy.is_empty() {
                slots[usize::from(to)] = copy;
            }
        }
        if let Some(slot) = reply_slot(&request) {
            slots[usize::from(slot)] = Capability::new(actor, TX);
        }
        telling += usize::from(after.record(actor).slots != slots);
    }
    assert!(telling >= 8, "{telling}");
}

#[test]
fn the_chain_is_mostly_done_and_does_every_request() {
    let chain = chain();
    let mut table = chain.start;
    assert_eq!(chain.requests.len(), 2000);
    let mut done = Vec::new();
    let mut late = 0;
    for (k, request) in chain.requests.iter().enumerate() {
        if step_in_place(&mut table, request) == 0 {
            done.push(request.code());
            late += usize::from(k >= 1500);
        }
    }
    let least: Vec<(u8, usize)> = (1..=9).map(|code| (code, 10)).collect();
    expect(&counts(done.iter().copied()), &least);
    assert!(done.len() >= 1400 && late >= 300, "{} {late}", done.len());
}

#[test]
fn the_edges_have_every_code_and_every_length() {
    let chain = edges();
    let codes = counts(chain.requests.iter().map(Request::code));
    assert!((0..=255).all(|code| codes.contains_key(&code)));
    let mut table = chain.start;
    let mut done = Vec::new();
    let mut lengths = Vec::new();
    for request in &chain.requests {
        let reply = step_in_place(&mut table, request);
        if reply == 0 {
            done.push(request.code());
        }
        if let Request::Send { list, .. } | Request::Allocate { list, .. } = request {
            assert!(reply == 2 || list.len() <= 4);
            lengths.push((request.code(), list.len()));
        }
    }
    let lengths = counts(lengths);
    assert!((0..=255).all(|length| lengths.contains_key(&(6, length))));
    assert!((0..=255).all(|length| lengths.contains_key(&(7, length))));
    let least: Vec<(u8, usize)> = (1..=9).map(|code| (code, 3)).collect();
    expect(&counts(done), &least);
}

#[test]
fn tests_reach_every_verdict() {
    let cases = test_cases();
    assert!(cases.len() >= 320);
    let verdicts = cases
        .iter()
        .map(|case| confinement_test(&case.table, case.members, &case.list));
    let verdicts: Vec<Tested> = verdicts.collect();
    let least = [(0, 100), (1, 40), (10, 40), (11, 40), (12, 40), (13, 40)];
    let numbers = verdicts.iter().map(|verdict| verdict.number);
    expect(&counts(numbers), &least);
    let bounds = counts(verdicts.iter().map(|verdict| verdict.bound));
    assert!(bounds.len() >= 40, "{} bounds", bounds.len());
    for length in 0..=10 {
        assert!(cases.iter().any(|case| case.list.len() == length));
    }
    assert!(cases.iter().any(|case| case.list.len() == 255));
    let shared = shared_tests().into_iter().chain(shared_tests_with_makers());
    for shared in shared {
        assert!(cases.contains(&shared.test));
    }
}

/// The rounds of accepted tests, and of what the holder of the list reaches, of refused ones too.
#[test]
fn tests_take_few_rounds_and_many() {
    let cases = test_cases();
    let tested = cases
        .iter()
        .map(|case| confinement_test(&case.table, case.members, &case.list));
    let rounds = counts(
        tested
            .filter(Tested::is_accepted)
            .map(|tested| tested.rounds),
    );
    println!("{rounds:?}");
    let least = [
        (0, 20),
        (1, 20),
        (2, 15),
        (3, 8),
        (4, 12),
        (5, 10),
        (6, 5),
        (7, 3),
        (8, 4),
        (10, 1),
        (21, 2),
        (32, 2),
        (62, 2),
        (63, 10),
    ];
    for (number, times) in least {
        assert!(rounds[&number] >= times, "{number}: {rounds:?}");
    }
    assert_eq!(rounds.keys().last(), Some(&63));
    let reached = counts(cases.iter().map(test_rounds));
    println!("{reached:?}");
    assert!(reached.keys().eq(rounds.keys()) && reached[&0] > rounds[&0]);
}

#[test]
fn relations_are_of_full_and_of_unsound_tables_too() {
    let tables = access_cases();
    assert!(tables.len() >= 52);
    let full = tables
        .iter()
        .filter(|table| table.records.iter().all(|record| record.is_born()));
    assert!(full.count() >= 20);
    assert!(tables.iter().filter(|table| !table.is_sound()).count() >= 5);
}

#[test]
fn chains_are_shown_for_every_outcome() {
    let cases = shown_cases();
    assert!((215..=240).contains(&cases.len()), "{}", cases.len());
    let answers: Vec<(u8, Vec<u8>)> = cases
        .iter()
        .map(|case| {
            let test = &case.test;
            shown_chain(&test.table, test.members, &test.list, case.object)
        })
        .collect();
    let least = [
        (0, 90),
        (1, 11),
        (10, 11),
        (11, 14),
        (12, 11),
        (13, 11),
        (18, 35),
        (19, 25),
    ];
    expect(&counts(answers.iter().map(|answer| answer.0)), &least);
    let lengths = counts(answers.iter().map(|answer| answer.1.len()));
    println!("{lengths:?}");
    assert!((0..=6).all(|length| lengths.contains_key(&length)));
    assert!(lengths[&63] >= 6 && lengths.len() >= 20);
    for object in [0, 63] {
        let numbers = cases
            .iter()
            .zip(&answers)
            .filter(|(case, _)| case.object == object);
        let numbers = counts(numbers.map(|(_, answer)| answer.0));
        assert!([0, 18, 19]
            .iter()
            .all(|number| numbers.contains_key(number)));
    }
    for object in [64, 255] {
        assert!(cases.iter().any(|case| case.object == object));
    }
}

#[test]
fn imports_reach_every_number_and_are_short() {
    let cases = import_cases();
    assert!((250..=300).contains(&cases.len()), "{}", cases.len());
    assert!(cases.starts_with(&shared_imports()));
    let numbers = cases.iter().map(|bytes| import(bytes).0);
    let least = [(0, 100), (20, 100), (21, 25), (22, 45)];
    expect(&counts(numbers), &least);
    let lengths = counts(cases.iter().map(Vec::len));
    assert!((0..=16).all(|length| lengths.contains_key(&length)));
    assert!(lengths.contains_key(&1092));
    // All data together has a limit, which leaves no room for long ones.
    let bytes: usize = cases.iter().map(|bytes| bytes.len() + 2).sum();
    assert!(bytes < 14_000, "{bytes}");
}

/// A change of the generator or of the model is to be followed by the command `vectors`.
#[test]
fn the_files_of_the_program_are_up_to_date() {
    let folder = root().join("crates/vectors");
    let parts = parts();
    // The chain's file serves two parts.
    let sizes: BTreeMap<&str, usize> = parts
        .iter()
        .map(|part| (part.file, part.data.len()))
        .collect();
    assert!(sizes.values().sum::<usize>() < 3_000_000);
    if !folder.exists() {
        return;
    }
    for part in &parts {
        assert!(fs::read(folder.join("data").join(part.file)).unwrap() == part.data);
    }
    assert!(fs::read_to_string(folder.join("stdout")).unwrap() == output(&parts));
}
