//! Random runs from accepted tests, in which clean objects and others ask whatever could be taken for
//! something else: objects made on the way, dead ones, unborn numbers, numbers that were reclaimed and made anew, and
//! actors that no object is.

use super::cases::{Part, Question};
use super::draw::UNKNOWN_CODES;
use crate::generate::{actor_mut, any_request, step_case, ConfinementCase, StepCase};
use crate::rng::Rng;
use crate::two_runs::requests::{
    able_actors, allocate, clean_request, other_request, through_slot,
};
use crate::two_runs::rules::Rules;
use crate::two_runs::runs::Run;
use crate::two_runs::start::arranged_case;
use yavrinks_model::set;
use yavrinks_model::step::{Code, Request};
use yavrinks_model::table::{Table, DEAD};

/// Who asks what.
#[derive(Clone, Copy, Debug, PartialEq, Eq)]
enum Aim {
    Clean,
    Other,
    /// A clean object makes another.
    Making,
    /// A clean object asks for a number that is not in its stock.
    MakingInVain,
    MakingByOther,
    /// An object asks that a clean one made, or that another made.
    Made,
    MadeByOther,
    /// A clean object destroys another, or another does.
    Killing,
    KillingByOther,
    /// A clean object reclaims a number, or another does.
    Reclaiming,
    ReclaimingByOther,
    /// A number asks that was reclaimed.
    Reclaimed,
    /// A number that was reclaimed is made anew, by a clean object or by another.
    MakingAnew,
    MakingAnewByOther,
    DeadClean,
    UnknownCode,
    /// No object, but for its low bits a clean one.
    AboveAll,
    Unborn,
}

impl Aim {
    /// How often it is taken: what is made, destroyed, reclaimed and made anew more often than what comes anyway.
    fn percent(self) -> u64 {
        match self {
            Aim::Making | Aim::MakingByOther | Aim::MadeByOther | Aim::Killing => 85,
            Aim::Reclaiming | Aim::Reclaimed | Aim::MakingAnew => 85,
            Aim::KillingByOther | Aim::ReclaimingByOther | Aim::MakingAnewByOther => 95,
            _ => 60,
        }
    }
}

/// The requests of a run in order. What makes or kills comes before what asks thereafter.
const AIMS: [Aim; 20] = [
    Aim::Other,
    Aim::Unborn,
    Aim::MakingInVain,
    Aim::Making,
    Aim::Made,
    Aim::Clean,
    Aim::MakingByOther,
    Aim::MadeByOther,
    Aim::UnknownCode,
    Aim::Killing,
    Aim::DeadClean,
    Aim::KillingByOther,
    Aim::ReclaimingByOther,
    Aim::Reclaiming,
    Aim::Reclaimed,
    Aim::MakingAnewByOther,
    Aim::MakingAnew,
    Aim::AboveAll,
    Aim::Other,
    Aim::Clean,
];

/// A run from an accepted test with clean objects. The first is empty, and some requests are missing in each of the
/// others. All is asked of it but for one part, in turn the clean objects at the end or those of them whose makers are
/// compared, so that the checker computes one statement within its limit.
pub fn clean_run(rng: &mut Rng, turn: usize) -> Question {
    let (start, mut run) = draw_begun(rng);
    let mut requests = Vec::new();
    for aim in AIMS {
        if turn > 0 && rng.percent(aim.percent()) {
            let request = aimed(rng, &start, &run, aim);
            run.take(&Rules::DOCUMENT, &request);
            requests.push(request);
        }
    }
    let left_out = match turn % 2 {
        0 => Part::Compared,
        _ => Part::AtEnd,
    };
    Question::Clean {
        start,
        requests,
        parts: Part::ALL
            .into_iter()
            .filter(|part| *part != left_out)
            .collect(),
    }
}

/// How many requests are asked by themselves.
pub const AFTERS: usize = 8;

/// The clean objects after one request that is done: an allocate by a clean actor and by another, of a number that is
/// clean and of one that is not, a reclaim by either of a clean number, a destroy of one, and last an allocate that is
/// refused. Any numbers are clean before it.
pub fn clean_after_one(rng: &mut Rng, turn: usize) -> Question {
    let place = turn % AFTERS;
    let (code, aim) = match place {
        0..=3 => (Code::Allocate, 0),
        4 | 5 => (Code::Reclaim, 0),
        6 => (Code::Destroy, 0),
        _ => (Code::Allocate, 9),
    };
    let StepCase { table, request } = step_case(rng, code.number(), aim);
    let actor = request.actor();
    let named = match &request {
        Request::Allocate { n, .. } => *n,
        other => other
            .used_slot()
            .map_or(0, |(t, _)| table.record(actor).slots[usize::from(t)].target),
    };
    let with = |set: u64, n: u8, inside: bool| match inside {
        true => set | set::single(n),
        false => set & !set::single(n),
    };
    let clean = with(rng.bits(), named, !matches!(place, 1 | 3));
    let clean = with(clean, actor, matches!(place, 0 | 1 | 4 | 6));
    Question::CleanAfter {
        table,
        clean,
        request,
    }
}

fn draw_begun(rng: &mut Rng) -> (ConfinementCase, Run) {
    loop {
        let case = arranged_case(rng);
        match Run::begin(&Rules::DOCUMENT, &case.table, case.members, &case.list) {
            Some(run) if run.clean != 0 => return (case, run),
            _ => {}
        }
    }
}

/// A request aimed as told, or else one of a clean object.
fn aimed(rng: &mut Rng, start: &ConfinementCase, run: &Run, aim: Aim) -> Request {
    let (table, clean) = (&run.table, run.clean);
    let made = table.born() & !start.table.born();
    let found = match aim {
        Aim::Clean => None,
        Aim::Other => Some(other_request(rng, table, clean)),
        Aim::Making => making(rng, table, clean),
        Aim::MakingInVain => making(rng, table, clean).and_then(|mut request| {
            if let Request::Allocate { actor, n, .. } = &mut request {
                *n = any_of(rng, !table.record(*actor).stock & !table.born())?;
            }
            Some(request)
        }),
        Aim::MakingByOther => making(rng, table, !clean),
        Aim::Made => asked_by(rng, made & clean),
        Aim::MadeByOther => asked_by(rng, made & !clean),
        Aim::Killing => through(rng, run, clean, Code::Destroy),
        Aim::KillingByOther => through(rng, run, !clean, Code::Destroy),
        Aim::Reclaiming => through(rng, run, clean, Code::Reclaim),
        Aim::ReclaimingByOther => through(rng, run, !clean, Code::Reclaim),
        Aim::Reclaimed => asked_by(rng, run.reclaimed() & !table.born()),
        Aim::MakingAnew => making_anew(rng, run, clean),
        Aim::MakingAnewByOther => making_anew(rng, run, !clean),
        Aim::DeadClean => asked_by(rng, clean & dead(table)),
        Aim::UnknownCode => any_of(rng, clean).map(|actor| Request::Unknown {
            code: rng.pick(&UNKNOWN_CODES).unwrap_or(0),
            actor,
        }),
        Aim::AboveAll => {
            let mut request = clean_request(rng, table, clean);
            *actor_mut(&mut request) += rng.pick(&[64, 128, 192]).unwrap_or(64);
            Some(request)
        }
        Aim::Unborn => asked_by(rng, !table.born()),
    };
    found.unwrap_or_else(|| clean_request(rng, table, clean))
}

/// A request with the code by one of the numbers, through a slot that serves it.
fn through(rng: &mut Rng, run: &Run, of: u64, code: Code) -> Option<Request> {
    let mut able = able_actors(&run.table, of).into_iter();
    able.find_map(|actor| through_slot(rng, &run.table, actor, code, run.clean))
}

/// An allocate of a number that was reclaimed, by one of the numbers.
fn making_anew(rng: &mut Rng, run: &Run, of: u64) -> Option<Request> {
    let stock = |n: u8| run.table.record(n).stock & run.reclaimed();
    let mut able = able_actors(&run.table, of);
    able.retain(|&n| stock(n) != 0);
    let actor = rng.pick(&able)?;
    let again = any_of(rng, stock(actor))?;
    let mut request = making(rng, &run.table, set::single(actor))?;
    if let Request::Allocate { n, part, .. } = &mut request {
        (*n, *part) = (again, 0);
    }
    Some(request)
}

/// An allocate by one of the numbers that has a stock.
fn making(rng: &mut Rng, table: &Table, of: u64) -> Option<Request> {
    let able = |n: &u8| table.record(*n).can_act() && table.record(*n).stock != 0;
    let actor = any_of(rng, set::of(set::numbers(of).filter(able)))?;
    allocate(rng, table, actor)
}

/// Any request by one of the numbers.
fn asked_by(rng: &mut Rng, numbers: u64) -> Option<Request> {
    let mut request = any_request(rng);
    *actor_mut(&mut request) = any_of(rng, numbers)?;
    Some(request)
}

fn any_of(rng: &mut Rng, numbers: u64) -> Option<u8> {
    let numbers: Vec<u8> = set::numbers(numbers).collect();
    rng.pick(&numbers)
}

fn dead(table: &Table) -> u64 {
    set::of((0..64).filter(|&n| table.record(n).status == DEAD))
}
