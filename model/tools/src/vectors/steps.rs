//! Requests, each on a table of its own: shared steps, every kind of empty copy, makers, reclaims, every reply of
//! every request, lists of all lengths, and codes that mean nothing.

use super::{digest, layout, Part};
use crate::empty_kinds::{empty_kinds, EmptyKind};
use crate::generate::{allocate_by_made, can_meet, destroy_of_made, empty_copy_case};
use crate::generate::{reclaim_case, reclaim_through, step_case};
use crate::generate::{ReclaimKind, StepCase, STEP_REPLIES};
use crate::rng::Rng;
use crate::shared::{shared_steps, shared_steps_with_reclaims};
use yavrinks_model::step::{step, Code, Pair, Request};
use yavrinks_model::table::{Capability, ALL_RIGHTS, RD, TX, WK, WR};

/// Codes that are not 1 to 9.
const NONSENSE: [u8; 5] = [0, 10, 64, 128, 255];
/// Lengths of lists, up to what a count of one byte can say. The edges have all others.
const LENGTHS: [usize; 7] = [0, 1, 2, 3, 4, 5, 255];
/// Lengths of lists of sends to the actor itself, of which two pairs can be told apart at least.
const TO_ITSELF: [usize; 12] = [2, 3, 4, 4, 4, 4, 4, 4, 4, 4, 4, 4];

/// Rights of the slot that a refused reclaim uses: over an alive target 24 refuses it, with wr or without, and over a
/// dead one 6.
const OVER_ALIVE: [u8; 6] = [WR, WR | WK, ALL_RIGHTS, RD, WK, RD | WK | TX];
const OVER_DEAD: [u8; 4] = [RD, WK, RD | WK, RD | WK | TX];

/// How many cases are done at least, and how many get each refusal, of each request.
const DONE: usize = 12;
const REFUSED: usize = 4;
/// How many of either are random at least.
const RANDOM: usize = 1;

/// How often a kind of empty copy is aimed at. Those that alone tell a wrong reading apart come more often.
fn times(kind: EmptyKind) -> usize {
    match kind {
        EmptyKind::Store | EmptyKind::AllocateEmptyAfterFilled | EmptyKind::Revoke => 9,
        EmptyKind::Allocate => 8,
        EmptyKind::SendEmptyAfterFilled
        | EmptyKind::SendFilledAfterEmpty
        | EmptyKind::AllocateFilledAfterEmpty => 5,
        _ => 4,
    }
}

/// The shared steps of 2.8, and those of 2.4 where a slot keeps what it held: of the others there, which have no
/// makers, data leaves no room for more.
pub fn shared_step_cases() -> Vec<StepCase> {
    let of_2_4 = shared_steps().into_iter().map(|one| one.step);
    let keeping = of_2_4.filter(|case| {
        let done = step(&case.table, &case.request).0 == 0;
        done && empty_kinds(&case.table, &case.request).contains(&EmptyKind::Store)
    });
    let of_2_8 = shared_steps_with_reclaims().into_iter().map(|one| one.step);
    of_2_8.chain(keeping).collect()
}

/// The shared steps, empty copies, steps that have to do with makers, reclaims, lists and codes that mean nothing; then
/// random cases until every request has every reply often enough.
pub fn step_cases() -> Vec<StepCase> {
    let mut rng = Rng::new(0x57E95);
    let mut cases = shared_step_cases();
    for kind in EmptyKind::ALL {
        cases.extend((0..times(kind)).map(|_| empty_copy_case(&mut rng, kind)));
    }
    cases.extend((0..3).map(|_| allocate_by_made(&mut rng)));
    cases.extend((0..6).map(|_| destroy_of_made(&mut rng)));
    cases.extend(ReclaimKind::ALL.map(|kind| reclaim_case(&mut rng, kind)));
    cases.extend(OVER_ALIVE.map(|rights| reclaim_through(&mut rng, 24, rights)));
    cases.extend(OVER_DEAD.map(|rights| reclaim_through(&mut rng, 6, rights)));
    for length in LENGTHS {
        cases.push(with_list(&mut rng, 6, length));
        cases.push(with_list(&mut rng, 7, length));
    }
    cases.extend(TO_ITSELF.map(|length| send_to_itself(&mut rng, length)));
    for code in NONSENSE {
        for aim in [1, 2] {
            cases.push(step_case(&mut rng, code, aim));
        }
    }
    let replies: Vec<(u8, u8)> = cases.iter().map(code_and_reply).collect();
    for code in Code::ALL.map(Code::number) {
        for aim in STEP_REPLIES.into_iter().filter(|&aim| can_meet(code, aim)) {
            let least = if aim == 0 { DONE } else { REFUSED };
            let there = replies.iter().filter(|&&one| one == (code, aim)).count();
            let more = least.saturating_sub(there).max(RANDOM);
            cases.extend((0..more).map(|_| step_case(&mut rng, code, aim)));
        }
    }
    cases
}

fn code_and_reply(case: &StepCase) -> (u8, u8) {
    (case.request.code(), step(&case.table, &case.request).0)
}

/// A send or an allocate that is done but for the length of its list.
fn with_list(rng: &mut Rng, code: u8, length: usize) -> StepCase {
    let mut case = step_case(rng, code, 0);
    if let Request::Send { list, .. } | Request::Allocate { list, .. } = &mut case.request {
        *list = any_pairs(rng, length);
    }
    case
}

/// A send to the actor itself. Each pair reads the slot that the pair before it wrote.
fn send_to_itself(rng: &mut Rng, length: usize) -> StepCase {
    let mut case = step_case(rng, 6, 0);
    let actor = case.request.actor();
    if let Request::Send { t, list, .. } = &mut case.request {
        let first = rng.byte(0, 7);
        *list = (0..length as u8)
            .map(|k| ((first + k) % 8, (first + k + 1) % 8))
            .collect();
        let own = Capability::new(actor, ALL_RIGHTS);
        case.table.record_mut(actor).slots[usize::from(*t)] = own;
    }
    case
}

fn any_pairs(rng: &mut Rng, length: usize) -> Vec<Pair> {
    (0..length)
        .map(|_| (rng.byte(0, 7), rng.byte(0, 7)))
        .collect()
}

pub fn part() -> Part {
    let mut part = Part::new("steps", "steps: case, number, table after");
    let mut rng = Rng::new(0x57E96);
    for case in step_cases() {
        let mut bytes = layout::table(&case.table);
        bytes.extend(layout::request(&mut rng, &case.request));
        let (reply, after) = step(&case.table, &case.request);
        let digest = digest::text(digest::of_table(&after));
        part.add(&bytes, format!("{reply} {digest}"));
    }
    part
}
