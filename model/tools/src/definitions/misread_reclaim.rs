//! Wrong readings of 2.8, each by what it would answer to a question of the definitions: to a reclaim, and to who is
//! clean and whose maker is compared at the end of a run.

use super::cases::{Answer, Case, Part, Question};
use crate::misread_reclaim::{Misread, MisreadClean};
use yavrinks_model::runs::{compared_at_start, CleanPart};
use yavrinks_model::step::{step, step_in_place, Request};
use yavrinks_model::table::Table;

/// For each wrong reading of a reclaim, the first step that it answers otherwise, with that answer.
pub fn misread_steps(cases: &[Case]) -> Vec<Case> {
    let first = |misread: Misread| {
        cases.iter().find_map(|case| {
            let Question::Step { table, request } = &case.question else {
                return None;
            };
            let (number, after) = misread.step(table, request);
            let answer = Answer::Table(number, after);
            (answer != case.answer).then(|| Case {
                question: case.question.clone(),
                answer,
            })
        })
    };
    Misread::ALL.into_iter().filter_map(first).collect()
}

/// For each wrong reading of who is clean after a request, every request after which it says otherwise, with that
/// answer.
pub fn misread_after(cases: &[Case]) -> Vec<Case> {
    let told = |misread: MisreadClean| {
        cases.iter().filter_map(move |case| {
            let Question::CleanAfter {
                table,
                clean,
                request,
            } = &case.question
            else {
                return None;
            };
            let reply = step(table, request).0;
            let answer = Answer::Set(misread.after(table, *clean, request, reply));
            (answer != case.answer).then(|| Case {
                question: case.question.clone(),
                answer,
            })
        })
    };
    MisreadClean::ALL.into_iter().flat_map(told).collect()
}

/// A wrong reading of what clean objects have of a run: what it says of the table at the start, the clean objects
/// there and the requests, with what is right.
type Reading = (Part, fn(&Table, u64, &[Request], &mut CleanPart));

/// The wrong readings: three of who is clean, two of whose maker is compared.
const READINGS: [Reading; 5] = [
    (Part::AtEnd, |table, clean, requests, part| {
        part.clean = clean_by(MisreadClean::ByFirstMaking, table, clean, requests);
    }),
    (Part::AtEnd, |table, clean, requests, part| {
        part.clean = clean_by(MisreadClean::UnbornStays, table, clean, requests);
    }),
    (Part::AtEnd, |table, clean, requests, part| {
        part.clean = clean_by(MisreadClean::UntilDeath, table, clean, requests);
    }),
    // Every maker is compared, as before 2.8.
    (Part::Compared, |_, _, _, part| part.compared = part.clean),
    // None of what was born at the start is.
    (Part::Compared, |table, clean, _, part| {
        part.compared &= !compared_at_start(table, clean);
    }),
];

/// How many wrong readings there are of what clean objects have of a run.
pub const CLEAN_READINGS: usize = READINGS.len();

/// The clean objects at the end of a run by a wrong reading.
fn clean_by(misread: MisreadClean, table: &Table, start: u64, requests: &[Request]) -> u64 {
    let (mut table, mut clean) = (table.clone(), start);
    for request in requests {
        let before = table.clone();
        let reply = step_in_place(&mut table, request);
        clean = misread.after(&before, clean, request, reply);
    }
    clean
}

/// For each of those, the shortest run of which it says something else, with that answer. That part is asked alone.
pub fn misread_clean(cases: &[Case]) -> Vec<Case> {
    let told = |(part, reading): Reading| {
        let wrong = cases.iter().filter_map(|case| {
            let (
                Question::Clean {
                    start, requests, ..
                },
                Answer::Clean(clean, along),
            ) = (&case.question, &case.answer)
            else {
                return None;
            };
            let mut wrong = along.clone();
            reading(&start.table, *clean, requests, &mut wrong);
            (wrong != *along).then(|| {
                let question = Question::Clean {
                    start: start.clone(),
                    requests: requests.clone(),
                    parts: vec![part],
                };
                let answer = Answer::Clean(*clean, wrong);
                (requests.len(), Case { question, answer })
            })
        });
        wrong
            .min_by_key(|(length, _)| *length)
            .map(|(_, case)| case)
    };
    READINGS.into_iter().filter_map(told).collect()
}
