//! Both ways of potential access and of the confinement test, by the rules and by groups, against the version that is
//! written for speed and against the model, on tables of many groups and of few.

use std::hint::black_box;
use std::process::ExitCode;

use captable::raw;
use yavrinks_model::access::potential_access;
use yavrinks_model::confinement::confinement_test;
use yavrinks_model::table::Table;
use yavrinks_tools::generate::ConfinementCase;
use yavrinks_tools::progress::Progress;

use super::measure::{all_in_turn, least, middle_ratio, ROUNDS};
use crate::archive::{Archive, Calls};
use crate::convert::to_raw;
use crate::fast;
use crate::group_samples::{group_tables, group_tests};
use crate::groups::groups_of;
use crate::samples::list_bytes;

/// How the figures are to be read.
const NOTE: &str = "\
Nanoseconds a call are the least of the rounds, a ratio is the middle one of the rounds' own. The version written
for speed takes the table where it is; a call takes it by value, and the copy is in its time. All of them check
soundness first; `scan` is `captable_sound`, which does that and nothing else.
";

/// A side by name, with the call that it makes.
type Side<T> = (&'static str, fn(&mut T));

/// The sides of potential access. Ratios are of the first to the others.
const ACCESS: [Side<AccessInput>; 5] = [
    ("groups", |input| {
        black_box(&Archive.access_by_groups(black_box(&mut input.table)));
    }),
    ("rules", |input| {
        black_box(&Archive.access(black_box(&mut input.table)));
    }),
    ("fast", |input| {
        fast::access(black_box(&input.table), black_box(&mut input.answer));
    }),
    ("model", |input| {
        black_box(&potential_access(black_box(&input.model)));
    }),
    ("scan", |input| {
        black_box(Archive.sound(black_box(&mut input.table)));
    }),
];

/// The sides of the test.
const TEST: [Side<TestInput>; 4] = [
    ("groups", |input| {
        let TestInput { table, list, case } = black_box(input);
        black_box(&Archive.test_by_groups(table, case.members, list));
    }),
    ("rules", |input| {
        let TestInput { table, list, case } = black_box(input);
        black_box(&Archive.test(table, case.members, list));
    }),
    ("fast", |input| {
        let TestInput { table, list, case } = black_box(input);
        black_box(&fast::test(table, case.members, list));
    }),
    ("model", |input| {
        let case = &black_box(input).case;
        black_box(&confinement_test(&case.table, case.members, &case.list));
    }),
];

/// A table on both sides, and a place for the answer that is not given back.
struct AccessInput {
    table: raw::Table,
    model: Table,
    answer: raw::Relation,
}

/// A test on both sides.
struct TestInput {
    table: raw::Table,
    list: Vec<u8>,
    case: ConfinementCase,
}

/// Times everything, and prints two tables.
pub fn command() -> ExitCode {
    let (tables, tests) = (group_tables(), group_tests());
    let all = tables.len() + tests.len();
    eprintln!("bench groups: {all} inputs to be timed, about half a second each");
    let mut progress = Progress::new("bench groups: inputs timed", all as u64);
    println!("{ROUNDS} rounds of each side, taken in turn.\n{NOTE}");
    head("potential access", &["groups"], &names(&ACCESS));
    for (k, one) in tables.iter().enumerate() {
        progress.at(k as u64);
        let mut input = AccessInput {
            table: to_raw(&one.table),
            model: one.table.clone(),
            answer: raw::Relation {
                rows: [0; 256],
                number: 0,
            },
        };
        let groups = groups_of(&one.table).len().to_string();
        line(&one.name, &[groups], &times(&mut input, &ACCESS));
    }
    println!();
    head("confinement test", &["number", "rounds"], &names(&TEST));
    for (k, one) in tests.iter().enumerate() {
        progress.at((tables.len() + k) as u64);
        let case = &one.case;
        let tested = confinement_test(&case.table, case.members, &case.list);
        let mut input = TestInput {
            table: to_raw(&case.table),
            list: list_bytes(&case.list),
            case: case.clone(),
        };
        let facts = [tested.number, tested.rounds].map(|fact| fact.to_string());
        line(&one.name, &facts, &times(&mut input, &TEST));
    }
    ExitCode::SUCCESS
}

fn names<T>(sides: &[Side<T>]) -> Vec<&'static str> {
    sides.iter().map(|side| side.0).collect()
}

fn times<T>(input: &mut T, sides: &[Side<T>]) -> Vec<Vec<f64>> {
    let calls: Vec<fn(&mut T)> = sides.iter().map(|side| side.1).collect();
    all_in_turn(input, &calls)
}

/// The head of a table: what the lines are, facts of the input, the times, and the ratios of the first side.
fn head(what: &str, facts: &[&str], names: &[&str]) {
    let facts = facts.iter().map(|fact| fact.to_string());
    let nanos = names.iter().map(|name| format!("{name} ns"));
    let (first, others) = (names[0], &names[1..]);
    let ratios = others.iter().map(|other| format!("{first} / {other}"));
    let cells: Vec<String> = facts.chain(nanos).chain(ratios).collect();
    println!("| {what} | {} |", cells.join(" | "));
    println!("|---|{}", "---|".repeat(cells.len()));
}

fn line(name: &str, facts: &[String], times: &[Vec<f64>]) {
    let nanos = times.iter().map(|times| grouped(least(times)));
    let ratios = times[1..].iter().map(|other| {
        let ratio = middle_ratio(&times[0], other);
        let places = if ratio < 0.1 { 3 } else { 2 };
        format!("{ratio:.places$}")
    });
    let cells: Vec<String> = facts.iter().cloned().chain(nanos).chain(ratios).collect();
    println!("| {name} | {} |", cells.join(" | "));
}

/// A whole number with a comma before each three digits.
fn grouped(number: f64) -> String {
    let digits = format!("{number:.0}");
    let mut text = String::new();
    for (k, digit) in digits.chars().enumerate() {
        if k > 0 && (digits.len() - k) % 3 == 0 {
            text.push(',');
        }
        text.push(digit);
    }
    text
}
