//! Wrong answers on purpose. The checker has to refuse each of them: a statement that it would
//! accept with any answer checks nothing.

use super::cases::{Answer, Case, Part, Question};
use super::misread_groups::misread_groups;
use super::misread_makers;
use super::misread_reclaim::{misread_after, misread_clean, misread_steps};
use crate::copies::landed_by;
use crate::empty_kinds::empty_kinds;
use crate::misread_rounds::{Misreading, MISREADINGS};
use crate::rights::{all_cells, rows_of_model, with_altered, Column};
use crate::rng::Rng;
use std::mem::discriminant;
use yavrinks_model::confinement::Tested;
use yavrinks_model::runs::CleanPart;
use yavrinks_model::step::{weaken, Request};
use yavrinks_model::table::{Capability, Table, ACTIVE, ALIVE, ALL_RIGHTS, WK};

/// For every kind of question, a case with a wrong number and one with a right number and wrong
/// content, as far as the given cases have such; of clean objects, one for each part that is asked; of
/// imports also one that is refused and yet brings something in; of capabilities that pass and of copies that
/// land, one for each that is asked about; of what rights are worth, one for each thing that is said of the values
/// 0 to 15; of what is there after rounds, one round more for each that adds something; of steps also some where an
/// empty copy empties; of tests also one for each wrong reading of how many rounds there are; of soundness, one for
/// each maker; and one for each wrong reading of 2.7, of 2.8 and of 2.9.
pub fn wrong_cases(rng: &mut Rng, cases: &[Case]) -> Vec<Case> {
    let mut wrong = Vec::new();
    let mut seen = Vec::new();
    for case in cases {
        let kind = (discriminant(&case.question), case.answer.number() == 0);
        if !seen.contains(&kind) && !is_silent(&case.answer) {
            seen.push(kind);
            wrong.extend(made_wrong(rng, case));
        }
    }
    wrong.extend(emptied(cases));
    wrong.extend(MISREADINGS.iter().filter_map(|one| misread(one, cases)));
    wrong.extend(cases.iter().flat_map(wrong_makers));
    let of_makers = misread_makers::MISREADINGS.iter();
    wrong.extend(of_makers.filter_map(|one| misread_maker(one, cases)));
    wrong.extend(misread_steps(cases));
    wrong.extend(misread_clean(cases));
    wrong.extend(misread_after(cases));
    wrong.extend(misread_groups(rng));
    wrong
}

/// The first case that a wrong reading of 2.7 answers otherwise, with that answer.
fn misread_maker(reading: &misread_makers::Misreading, cases: &[Case]) -> Option<Case> {
    cases.iter().find_map(|case| {
        let answer = reading.wrong_answer(case)?;
        Some(with_answer(case, answer))
    })
}

/// Each maker by itself, since the checker refuses a short list sooner, with the other answer.
fn wrong_makers(case: &Case) -> Vec<Case> {
    let (Question::Sound { table, n, makers }, Answer::Sound(truths)) =
        (&case.question, &case.answer)
    else {
        return Vec::new();
    };
    let with_one = |(&maker, &sound): (&u8, &bool)| Case {
        question: Question::Sound {
            table: table.clone(),
            n: *n,
            makers: vec![maker],
        },
        answer: Answer::Sound(vec![!sound]),
    };
    makers.iter().zip(truths).map(with_one).collect()
}

/// The first test of which a wrong reading reports other rounds, with these.
fn misread(reading: &Misreading, cases: &[Case]) -> Option<Case> {
    cases.iter().find_map(|case| {
        let (Question::Test(test), Answer::Tested(tested)) = (&case.question, &case.answer) else {
            return None;
        };
        let rounds = reading.rounds(test);
        let wrong = Answer::Tested(Tested { rounds, ..*tested });
        (rounds != tested.rounds).then(|| with_answer(case, wrong))
    })
}

/// Steps with the table that they left before 2.4, when an empty copy emptied its destination: one for each
/// kind of empty copy where that differs.
fn emptied(cases: &[Case]) -> Vec<Case> {
    let mut wrong = Vec::new();
    let mut seen = Vec::new();
    for case in cases {
        let Question::Step { table, request } = &case.question else {
            continue;
        };
        let Answer::Table(0, after) = &case.answer else {
            continue;
        };
        let mut before_2_4 = after.clone();
        if let Some((holder, slots)) = landed_by(table, request, |_, copied| copied.copy()) {
            before_2_4.record_mut(holder).slots = slots;
        }
        let kinds = empty_kinds(table, request);
        if before_2_4 != *after && kinds.iter().any(|kind| !seen.contains(kind)) {
            seen.extend(kinds);
            wrong.push(with_answer(case, Answer::Table(0, before_2_4)));
        }
    }
    wrong
}

/// Whether no clean object asked anything along a run.
fn is_silent(answer: &Answer) -> bool {
    matches!(answer, Answer::Clean(_, along) if along.replies.is_empty())
}

fn made_wrong(rng: &mut Rng, case: &Case) -> Vec<Case> {
    match &case.answer {
        Answer::Clean(start, along) => {
            let parts = Part::ALL.iter();
            parts
                .map(|part| wrong_part(case, *part, *start, along))
                .collect()
        }
        Answer::Passing(truths) => (0..truths.len())
            .map(|place| with_answer(case, other_truth(truths, place)))
            .collect(),
        Answer::Slots(slots) => match &case.question {
            Question::Weakening { held } => wrong_weakening(held),
            question => (0..slots.len())
                .map(|place| with_answer(case, other_landing(question, slots, place)))
                .collect(),
        },
        Answer::Worth(_) => wrong_worth(&case.question),
        Answer::Sound(_) | Answer::Sets(_) => Vec::new(),
        Answer::Set(_) if matches!(case.question, Question::BoundByGroups(_)) => Vec::new(),
        Answer::Rows(0, _) if matches!(case.question, Question::AccessByGroups { .. }) => {
            Vec::new()
        }
        Answer::There(sets) => one_round_more(&case.question, sets),
        answer if answer.number() == 0 => vec![with_answer(case, other_content(rng, answer))],
        answer => {
            let mut wrong = vec![with_answer(case, other_number(answer))];
            if let Question::Import { .. } = case.question {
                wrong.push(with_answer(case, half_imported(answer.number())));
            }
            wrong
        }
    }
}

/// What is there a round later, in the place of one of the sets, where the model says that it is more.
fn one_round_more(question: &Question, sets: &[u64]) -> Vec<Case> {
    let Question::There { test, after } = question else {
        return Vec::new();
    };
    let right = Case::new(question.clone());
    let later = Case::new(Question::There {
        test: test.clone(),
        after: after.iter().map(|k| k + 1).collect(),
    });
    let Answer::There(later) = later.answer else {
        return Vec::new();
    };
    let places = (0..sets.len()).filter(|&place| later[place] != sets[place]);
    places
        .map(|place| {
            let mut sets = sets.to_vec();
            sets[place] = later[place];
            with_answer(&right, Answer::There(sets))
        })
        .collect()
}

/// One of the answers the other way round.
fn other_truth(truths: &[bool], place: usize) -> Answer {
    let mut truths = truths.to_vec();
    truths[place] = !truths[place];
    Answer::Passing(truths)
}

/// One of the slots with the other thing that could be in it: what it held, or the copy.
fn other_landing(question: &Question, slots: &[Capability], place: usize) -> Answer {
    let mut slots = slots.to_vec();
    if let Question::Landing { held, copies } = question {
        let taken = slots[place];
        slots[place] = if taken == *held { copies[place] } else { *held };
    }
    Answer::Slots(slots)
}

/// The values 0 to 15 alone, since the checker refuses a short list sooner; with each cell that is asked for in turn
/// the other way round.
fn wrong_worth(question: &Question) -> Vec<Case> {
    let values = (0..=ALL_RIGHTS).collect();
    let needs_alone = matches!(question, Question::Needs { .. });
    let right = Case::new(match needs_alone {
        true => Question::Needs { values },
        false => Question::Worth { values },
    });
    let rows = rows_of_model();
    all_cells()
        .filter(|(_, column)| !needs_alone || *column != Column::Weakened)
        .map(|(value, column)| {
            let rows = with_altered(&rows, value, column);
            let cells = rows.iter().map(|row| row.cells).collect();
            with_answer(&right, Answer::Worth(cells))
        })
        .collect()
}

/// The same of weakening: wk where it is empty, and empty where it is wk.
fn wrong_weakening(held: &[Capability]) -> Vec<Case> {
    let held = &held[..=usize::from(ALL_RIGHTS)];
    let right = Case::new(Question::Weakening {
        held: held.to_vec(),
    });
    let slots: Vec<Capability> = held.iter().copied().map(weaken).collect();
    (0..slots.len())
        .map(|place| {
            let mut slots = slots.clone();
            slots[place] = match slots[place] {
                Capability::EMPTY => Capability::new(held[place].target, WK),
                _ => Capability::EMPTY,
            };
            with_answer(&right, Answer::Slots(slots))
        })
        .collect()
}

/// A refusal that leaves the first entity in the table.
fn half_imported(number: u8) -> Answer {
    let mut table = Table::unborn();
    (table.records[0].status, table.records[0].kind) = (ALIVE, ACTIVE);
    Answer::Table(number, table)
}

fn with_answer(case: &Case, answer: Answer) -> Case {
    Case {
        question: case.question.clone(),
        answer,
    }
}

fn other_number(answer: &Answer) -> Answer {
    let other = answer.number() + 1;
    let mut answer = answer.clone();
    match &mut answer {
        Answer::Table(number, _)
        | Answer::Chain(number, _)
        | Answer::Rows(number, _)
        | Answer::Buffer(number, _)
        | Answer::Decided(number, _) => *number = other,
        Answer::Tested(tested) => tested.number = other,
        Answer::Run(replies, _) => {
            if let Some(reply) = replies.last_mut() {
                *reply = other;
            }
        }
        Answer::Ask(request) => *request = Request::Read { actor: 0, t: 0 },
        Answer::Entries(list) => list.push((0, 0)),
        Answer::Passing(truths) | Answer::Sound(truths) => truths.push(true),
        Answer::There(sets) | Answer::Sets(sets) => sets.push(0),
        Answer::Slots(slots) => slots.push(Capability::EMPTY),
        Answer::Worth(rows) => rows.push([false; 4]),
        Answer::Clean(start, _) => *start ^= 1,
        Answer::Set(set) => *set ^= 1,
    }
    answer
}

fn other_content(rng: &mut Rng, answer: &Answer) -> Answer {
    let mut answer = answer.clone();
    match &mut answer {
        Answer::Table(_, table) | Answer::Run(_, table) => change_table(rng, table),
        Answer::Tested(tested) => tested.bound ^= 1 << rng.between(0, 63),
        Answer::Chain(_, chain) => {
            let place = rng.between(0, chain.len() as u64 - 1) as usize;
            chain[place] ^= rng.byte(1, 63);
        }
        Answer::Rows(_, rows) => {
            let row = rng.between(0, rows.len() as u64 - 1) as usize;
            rows[row] ^= 1 << rng.between(0, 63);
        }
        Answer::Buffer(_, bytes) => {
            let place = rng.between(0, bytes.len() as u64 - 1) as usize;
            bytes[place] ^= rng.byte(1, 255);
        }
        Answer::Ask(request) => {
            let actor = request.actor();
            *request = Request::Unknown { code: 0, actor };
        }
        Answer::Entries(list) => list.push((0, 0)),
        Answer::Decided(_, bound) => *bound ^= 1 << rng.between(0, 63),
        Answer::Set(set) => *set ^= 1 << rng.between(0, 63),
        Answer::Passing(truths) | Answer::Sound(truths) => truths.push(true),
        Answer::There(sets) | Answer::Sets(sets) => sets.push(0),
        Answer::Slots(slots) => slots.push(Capability::EMPTY),
        Answer::Worth(rows) => rows.push([false; 4]),
        Answer::Clean(start, _) => *start ^= 1,
    }
    answer
}

/// One part of what is asked of clean objects, alone, since the checker takes long to refuse several
/// at once: another clean object, a request left out, or another reply.
fn wrong_part(case: &Case, part: Part, mut start: u64, along: &CleanPart) -> Case {
    let mut question = case.question.clone();
    if let Question::Clean { parts, .. } = &mut question {
        *parts = vec![part];
    }
    let mut along = along.clone();
    match part {
        Part::AtStart => start ^= 1,
        Part::AtEnd => along.clean ^= 1,
        Part::Compared => along.compared ^= 1,
        Part::Requests => drop(along.requests.remove(0)),
        Part::Replies => along.replies[0] += 1,
    }
    Case {
        question,
        answer: Answer::Clean(start, along),
    }
}

/// Changes one field of one record.
fn change_table(rng: &mut Rng, table: &mut Table) {
    let record = table.record_mut(rng.byte(0, 63));
    let slot = &mut record.slots[rng.between(0, 7) as usize];
    match rng.between(0, 6) {
        0 => record.status ^= 1,
        1 => record.kind ^= 1,
        2 => record.word ^= 1 << rng.between(0, 31),
        3 => record.stock ^= 1 << rng.between(0, 63),
        4 => record.maker ^= 1 << rng.between(0, 7),
        5 => slot.target ^= 1 << rng.between(0, 7),
        _ => slot.rights ^= 1 << rng.between(0, 7),
    }
}
