//! The test vectors in `vectors/`: steps, potential access, tests, inputs of `confine`, chains, imports, rounds
//! and images.
//! Every line of every file is compared in full, potential access and tests by groups too. Where a later request
//! amends a line of the base or of an earlier request, the line is named here, and what it says now is worked in
//! another way.

mod lines;

use std::fs;
use std::path::PathBuf;

use lines::{byte, bytes, field, hexadecimal, index, number_set, pairs, table};
use lines::{ImageLine, Json, StepLine, TestLine};
use yavrinks_model::access::{potential_access, Access};
use yavrinks_model::chain::chain;
use yavrinks_model::confine::confine;
use yavrinks_model::confinement::{confinement_test, Tested};
use yavrinks_model::groups::{access_by_groups, test_by_groups};
use yavrinks_model::image::{read, write};
use yavrinks_model::set;
use yavrinks_model::step::{step, step_in_place, Request};
use yavrinks_model::table::{Capability, Table, WK};
use yavrinks_model::take_grant::import;

fn vectors() -> PathBuf {
    PathBuf::from(env!("CARGO_MANIFEST_DIR")).join("vectors")
}

/// The values of a file that holds one JSON value a line, which must be so many.
fn values(file: &str, count: usize) -> Vec<Json> {
    let text = fs::read_to_string(vectors().join(file)).expect("vector file");
    let values = lines::values(&text);
    assert_eq!(values.len(), count, "{file}");
    values
}

/// Compares a file of steps, in both forms of the step; the amended lines with what they say now.
fn expect_steps(file: &str, count: usize, amended: &[usize]) {
    let mut left = amended.iter();
    for (number, value) in (1..).zip(values(file, count)) {
        let line = StepLine::of(&value);
        let place = format!("{file}, line {number}");
        if amended.contains(&number) {
            assert_eq!(left.next(), Some(&number), "{place}");
            expect_step(&line, &amended_answer(&line), &place);
        } else {
            expect_step(&line, &line.answer, &place);
        }
    }
    assert_eq!(left.next(), None, "{file}");
}

fn expect_step(line: &StepLine, answer: &(u8, Table), place: &str) {
    assert_eq!(&step(&line.table, &line.request), answer, "{place}");
    let mut lent = line.table.clone();
    let reply = step_in_place(&mut lent, &line.request);
    assert_eq!(&(reply, lent), answer, "{place}");
}

/// The lines of the base's steps that 2.4 amends, then those of the steps of 2.3. Each is a store of an
/// empty slot on a filled one.
const AMENDED_BY_2_4: [usize; 1] = [105];
const AMENDED_BY_2_4_IN_2_3: [usize; 1] = [83];

/// The lines of the base's steps that 2.7 amends, then those of the steps of 2.3 and, under the same numbers,
/// of 2.4. Each is an allocate that is done.
const AMENDED_BY_2_7: [usize; 25] = [
    3, 4, 9, 32, 40, 43, 48, 50, 52, 57, 58, 67, 71, 101, 102, 103, 109, 110, 111, 114, 116, 122,
    123, 128, 142,
];
const AMENDED_BY_2_7_IN_2_3: [usize; 11] = [3, 4, 9, 32, 40, 43, 48, 50, 52, 56, 57];

/// The lines of two amendments together, in order.
fn both(one: &[usize], other: &[usize]) -> Vec<usize> {
    let mut lines = [one, other].concat();
    lines.sort_unstable();
    lines
}

/// What an amended line says now. It was answered 0, and still is.
fn amended_answer(line: &StepLine) -> (u8, Table) {
    let (reply, mut after) = line.answer.clone();
    assert_eq!(reply, 0);
    match line.request {
        Request::Store { actor, t, i, j } => {
            keep_slot(&line.table, &mut after, [actor, t, i, j]);
            assert_eq!(after, line.table);
        }
        Request::Allocate { actor, n, .. } => {
            assert_eq!(after.record(n).maker, 64);
            after.record_mut(n).maker = actor;
        }
        _ => panic!("no request that is amended: {:?}", line.request),
    }
    (reply, after)
}

/// 2.4: the slot that a store emptied keeps what it held.
fn keep_slot(before: &Table, after: &mut Table, [actor, t, i, j]: [u8; 4]) {
    let own = before.record(actor).slots;
    assert!(own[usize::from(i)].is_empty());
    let target = own[usize::from(t)].target;
    let held = before.record(target).slots[usize::from(j)];
    let slot = &mut after.record_mut(target).slots[usize::from(j)];
    assert!(slot.is_empty() && !held.is_empty());
    *slot = held;
}

#[test]
fn steps() {
    expect_steps("steps.jsonl", 360, &both(&AMENDED_BY_2_4, &AMENDED_BY_2_7));
}

#[test]
fn steps_of_2_3() {
    let amended = both(&AMENDED_BY_2_4_IN_2_3, &AMENDED_BY_2_7_IN_2_3);
    expect_steps("2.3/steps.jsonl", 160, &amended);
}

#[test]
fn steps_of_2_4() {
    expect_steps("2.4/steps.jsonl", 160, &AMENDED_BY_2_7_IN_2_3);
}

#[test]
fn steps_of_2_7() {
    expect_steps("2.7/steps.jsonl", 160, &[]);
}

#[test]
fn steps_of_2_8() {
    expect_steps("2.8/steps.jsonl", 160, &[]);
}

/// Lines by their number, each with a reply.
type Replies = &'static [(usize, u8)];

/// The lines with code 9 before 2.8: the file, how many lines it has, and for each line its number and the reply that
/// every reclaim gets now, whichever slot it uses. Such a line says 1, for a table that is not sound, or 2; it names no
/// slot, so that as it stands it is no request still. Both actors of 2.7 can act and hold nothing, so that a reclaim
/// is refused by 4.
const CODE_9_BEFORE_2_8: [(&str, usize, Replies); 3] = [
    ("steps.jsonl", 360, &[(276, 1)]),
    ("2.3/steps.jsonl", 160, &[(151, 1)]),
    ("2.7/steps.jsonl", 160, &[(47, 4), (56, 4)]),
];

#[test]
fn code_9_is_amended_by_2_8() {
    for (file, count, amended) in CODE_9_BEFORE_2_8 {
        let mut left = amended.iter();
        for (number, value) in (1..).zip(values(file, count)) {
            let line = StepLine::of(&value);
            let Request::Unknown { code: 9, actor } = line.request else {
                continue;
            };
            let &(named, reply) = left.next().expect("line that is not named");
            assert_eq!(number, named, "{file}");
            assert_eq!(line.answer.0, if reply == 1 { 1 } else { 2 }, "{file}");
            for t in 0..8 {
                let now = (reply, line.table.clone());
                assert_eq!(step(&line.table, &Request::Reclaim { actor, t }), now);
            }
        }
        assert_eq!(left.next(), None, "{file}");
    }
}

#[test]
fn access() {
    for (line, value) in (1..).zip(values("access.jsonl", 30)) {
        let mut expected = Access::none();
        for (holder, row) in field(&value, "rows").as_object().expect("rows") {
            for (target, rights) in row.as_object().expect("row") {
                expected.rights[index(holder)][index(target)] = byte(rights);
            }
        }
        let expected = (byte(field(&value, "number")), expected);
        let table = table(field(&value, "table"));
        assert_eq!(potential_access(&table), expected, "line {line}");
        assert_eq!(access_by_groups(&table), expected, "line {line}");
    }
}

/// The lines of the base's tests that 2.3 amends. Each says 12, for capabilities with wk alone.
const AMENDED_BY_2_3: [usize; 7] = [52, 88, 89, 124, 163, 166, 172];

/// The answer that the test gives to a line, the same by groups.
fn tested(line: &TestLine) -> Tested {
    let tested = confinement_test(&line.table, line.members, &line.list);
    let by_groups = test_by_groups(&line.table, line.members, &line.list);
    assert_eq!(by_groups, tested);
    tested
}

/// Compares a file of tests, but for the lines that are amended: of these it gives number and content.
fn expect_tests(file: &str, count: usize, amended: &[usize]) -> Vec<(usize, TestLine)> {
    let mut left = Vec::new();
    for (number, value) in (1..).zip(values(file, count)) {
        let line = TestLine::of(&value);
        if amended.contains(&number) {
            left.push((number, line));
        } else {
            let found = tested(&line);
            let answer = (found.number, found.bound);
            assert_eq!(answer, line.answer, "{file}, line {number}");
        }
    }
    left
}

/// The table without the members' capabilities to non-members that have wk alone.
fn without_weak(line: &TestLine) -> Table {
    let mut table = line.table.clone();
    for member in set::numbers(line.members) {
        for slot in &mut table.record_mut(member).slots {
            if slot.rights == WK && !set::contains(line.members, slot.target) {
                *slot = Capability::EMPTY;
            }
        }
    }
    table
}

/// An amended line is now answered as if the members did not hold what needs no entry. On the table
/// without that, every right has to be listed, as before.
#[test]
fn tests() {
    let amended = expect_tests("tests.jsonl", 180, &AMENDED_BY_2_3);
    assert_eq!(amended.len(), AMENDED_BY_2_3.len());
    for (number, mut line) in amended {
        assert_eq!(line.answer, (12, 0), "line {number}");
        let found = tested(&line);
        assert!(found.is_accepted(), "line {number}");
        let bare = without_weak(&line);
        assert_ne!(line.table, bare);
        line.table = bare;
        assert_eq!(found, tested(&line), "line {number}");
    }
}

#[test]
fn tests_of_2_3() {
    expect_tests("2.3/tests.jsonl", 80, &[]);
}

#[test]
fn tests_of_2_4() {
    expect_tests("2.4/tests.jsonl", 80, &[]);
}

#[test]
fn tests_of_2_7() {
    expect_tests("2.7/tests.jsonl", 80, &[]);
}

#[test]
fn tests_of_2_8() {
    expect_tests("2.8/tests.jsonl", 80, &[]);
}

#[test]
fn confine_cases() {
    let folder = vectors().join("confine");
    let mut count = 0;
    for entry in fs::read_dir(folder).expect("vector folder") {
        let path = entry.expect("entry").path();
        if path.extension().is_some_and(|extension| extension == "in") {
            let input = fs::read(&path).expect("input");
            let output = fs::read_to_string(path.with_extension("out")).expect("output");
            assert_eq!(confine(&input), output, "{}", path.display());
            count += 1;
        }
    }
    assert_eq!(count, 48);
}

#[test]
fn chains() {
    for (line, value) in (1..).zip(values("2.1/chains.jsonl", 161)) {
        let outcome = chain(
            &table(field(&value, "table")),
            number_set(field(&value, "members")),
            &pairs(field(&value, "list")),
            byte(field(&value, "object")),
        );
        let expected = (byte(field(&value, "number")), bytes(field(&value, "chain")));
        assert_eq!(outcome, expected, "line {line}");
    }
}

#[test]
fn imports() {
    for (line, value) in (1..).zip(values("2.2/imports.jsonl", 160)) {
        let outcome = import(&hexadecimal(field(&value, "bytes")));
        let expected = (byte(field(&value, "number")), table(field(&value, "table")));
        assert_eq!(outcome, expected, "line {line}");
    }
}

#[test]
fn rounds() {
    let file = "2.6/rounds.jsonl";
    expect_tests(file, 160, &[]);
    for (number, value) in (1..).zip(values(file, 160)) {
        let line = TestLine::of(&value);
        let rounds = tested(&line).rounds;
        assert_eq!(Some(rounds), line.rounds, "{file}, line {number}");
    }
}

#[test]
fn images() {
    for (number, value) in (1..).zip(values("2.7/images.jsonl", 48)) {
        match ImageLine::of(&value) {
            ImageLine::Read { bytes, answer } => {
                assert_eq!(read(&bytes), answer, "line {number}");
            }
            ImageLine::Write {
                version,
                table,
                before,
                answer,
            } => {
                let mut buffer = before;
                let reply = write(version, &table, &mut buffer);
                assert_eq!((reply, buffer), answer, "line {number}");
            }
        }
    }
}
