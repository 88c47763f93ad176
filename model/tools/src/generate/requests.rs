//! Random requests: some that a table is likely to grant, and cases aimed at each reply.
//! An aimed case may also meet later checks, so that the order of the checks is tried.

use super::empty_requests::turn_to_empty;
use super::tables::{any_damage, any_word, numbers_where, sound_table, Shape};
use crate::rng::Rng;
use yavrinks_model::set;
use yavrinks_model::step::{Code, Fields, Pair, Request, MAX_PAIRS, NO_REPLY};
use yavrinks_model::table::{Capability, Record, Table};
use yavrinks_model::table::{ACTIVE, ALIVE, ALL_RIGHTS, DEAD, PASSIVE};

/// A table and a request for it.
#[derive(Clone, Debug, PartialEq, Eq)]
pub struct StepCase {
    pub table: Table,
    pub request: Request,
}

/// Every reply that a request can get: 0, then the refusals in the order of the checks.
pub const STEP_REPLIES: [u8; 11] = [0, 1, 2, 3, 4, 24, 5, 6, 7, 8, 9];

/// Whether a request with this code can get the reply `aim`, one of the above.
pub fn can_meet(code: u8, aim: u8) -> bool {
    let known = Code::of(code).is_some();
    match aim {
        1 | 2 => true,
        0 | 3 => known,
        4 | 6 => known && code != 7,
        5 => known && code != 7 && code != 9,
        7 => code == 6,
        8 => code == 8,
        9 => code == 7,
        24 => code == 9,
        _ => false,
    }
}

/// A case whose reply is `aim`. The code must be able to meet it.
pub fn step_case(rng: &mut Rng, code: u8, aim: u8) -> StepCase {
    assert!(can_meet(code, aim), "code {code} cannot meet {aim}");
    loop {
        if let Some(case) = try_case(rng, code, aim) {
            return case;
        }
    }
}

/// A case, or none if the random table has no object that it needs.
fn try_case(rng: &mut Rng, code: u8, aim: u8) -> Option<StepCase> {
    match (code, aim) {
        (_, 1) => {
            let mut case = case_with_later_aim(rng, code, aim);
            any_damage(rng, &mut case.table);
            Some(case)
        }
        (0 | 10..=255, _) => Some(unknown_case(rng, code)),
        (_, 2) => {
            let mut case = case_with_later_aim(rng, code, aim);
            put_out_of_range(rng, &mut case.request);
            Some(case)
        }
        (_, 3) => {
            let mut case = case_with_later_aim(rng, code, aim);
            make_actor_unfit(rng, &mut case);
            Some(case)
        }
        (7, _) => allocate_case(rng, aim),
        _ => used_slot_case(rng, code, aim),
    }
}

/// A case that would be done, or refused by a check after `aim`.
fn case_with_later_aim(rng: &mut Rng, code: u8, aim: u8) -> StepCase {
    let checks = STEP_REPLIES.into_iter().skip_while(|&a| a != aim).skip(1);
    let later: Vec<u8> = checks.filter(|&a| can_meet(code, a)).collect();
    let chosen = rng.pick(&later);
    match chosen {
        Some(later) if rng.percent(40) || !can_meet(code, 0) => step_case(rng, code, later),
        _ => step_case(rng, code, 0),
    }
}

fn unknown_case(rng: &mut Rng, code: u8) -> StepCase {
    let shape = Shape::mixed(rng);
    StepCase {
        table: sound_table(rng, &shape),
        request: Request::Unknown {
            code,
            actor: loose_byte(rng, 63),
        },
    }
}

/// Aims 0, 4 to 8 and 24: the capability that leads to the reply is put into a slot of the actor.
fn used_slot_case(rng: &mut Rng, code: u8, aim: u8) -> Option<StepCase> {
    let shape = Shape::mixed(rng);
    let mut table = sound_table(rng, &shape);
    let actor = rng.pick(&numbers_where(&table, Record::can_act))?;
    let request = valid_request(rng, Code::of(code)?, actor);
    let (t, needed) = request.used_slot()?;
    let mut targets = match (aim, code) {
        (8, _) => vec![actor],
        (5, _) | (0 | 6, 9) => numbers_where(&table, |record| record.status == DEAD),
        (7, _) => numbers_where(&table, |record| record.is_alive() && !record.is_active()),
        (0, 6) => numbers_where(&table, Record::can_act),
        _ => numbers_where(&table, Record::is_alive),
    };
    if (aim, code) == (0, 8) {
        targets.retain(|&n| n != actor);
    }
    if rng.percent(10) && targets.contains(&actor) {
        targets = vec![actor];
    }
    let mut rights = rng.byte(1, ALL_RIGHTS);
    while aim != 5 && aim != 24 && (rights & needed == 0) != (aim == 6) {
        rights = rng.byte(1, ALL_RIGHTS);
    }
    table.record_mut(actor).slots[usize::from(t)] = if aim == 4 {
        Capability::EMPTY
    } else {
        Capability::new(rng.pick(&targets)?, rights)
    };
    Some(StepCase { table, request })
}

/// Aims 0 and 9 for allocate.
fn allocate_case(rng: &mut Rng, aim: u8) -> Option<StepCase> {
    let shape = Shape::mixed(rng);
    let table = sound_table(rng, &shape);
    let makers = numbers_where(&table, |record| record.can_act() && record.stock != 0);
    let actor = rng.pick(&makers)?;
    let stock = table.record(actor).stock;
    let own: Vec<u8> = set::numbers(stock).collect();
    let mut n = rng.pick(&own)?;
    let mut part = random_part(rng, stock & !set::single(n));
    if aim == 9 {
        let outside: Vec<u8> = set::numbers(!stock).collect();
        match rng.between(0, 2) {
            0 => n = rng.pick(&outside)?,
            1 => part |= set::single(rng.pick(&outside)?),
            _ => part |= set::single(n),
        }
    }
    let request = allocate(rng, actor, n, part);
    Some(StepCase { table, request })
}

/// Nothing, everything or a random part of a set.
fn random_part(rng: &mut Rng, whole: u64) -> u64 {
    match rng.between(0, 3) {
        0 => 0,
        1 => whole,
        _ => whole & rng.bits(),
    }
}

fn allocate(rng: &mut Rng, actor: u8, n: u8, part: u64) -> Request {
    Request::Allocate {
        actor,
        n,
        kind: rng.byte(PASSIVE, ACTIVE),
        part,
        i: rng.byte(0, 7),
        list: valid_list(rng),
    }
}

/// A request with a known code and every field in range. An allocate has any n and part.
fn valid_request(rng: &mut Rng, code: Code, actor: u8) -> Request {
    let fields = Fields {
        actor,
        t: rng.byte(0, 7),
        i: rng.byte(0, 7),
        j: rng.byte(0, 7),
        word: any_word(rng),
        ..Fields::default()
    };
    match code {
        Code::Send => code.request(Fields {
            list: valid_list(rng),
            reply: rng.byte(0, NO_REPLY),
            ..fields
        }),
        Code::Allocate => {
            let (n, part) = (rng.byte(0, 63), rng.bits());
            allocate(rng, actor, n, part)
        }
        _ => code.request(fields),
    }
}

/// A list of 0 to 4 pairs.
fn valid_list(rng: &mut Rng) -> Vec<Pair> {
    let length = rng.between(0, MAX_PAIRS as u64);
    (0..length)
        .map(|_| (rng.byte(0, 7), rng.byte(0, 7)))
        .collect()
}

/// The actor of a request, to be changed.
pub fn actor_mut(request: &mut Request) -> &mut u8 {
    match request {
        Request::Read { actor, .. }
        | Request::Write { actor, .. }
        | Request::Fetch { actor, .. }
        | Request::Store { actor, .. }
        | Request::Revoke { actor, .. }
        | Request::Send { actor, .. }
        | Request::Allocate { actor, .. }
        | Request::Destroy { actor, .. }
        | Request::Reclaim { actor, .. }
        | Request::Unknown { actor, .. } => actor,
    }
}

/// The fields of a request that have a highest value, with that value. The actor is the first, and the
/// fields of pairs are the last.
pub fn bounded_fields(request: &mut Request) -> Vec<(&mut u8, u8)> {
    match request {
        Request::Read { actor, t }
        | Request::Write { actor, t, .. }
        | Request::Destroy { actor, t }
        | Request::Reclaim { actor, t } => vec![(actor, 63), (t, 7)],
        Request::Fetch { actor, t, i, j } | Request::Store { actor, t, i, j } => {
            vec![(actor, 63), (t, 7), (i, 7), (j, 7)]
        }
        Request::Revoke { actor, t, j } => vec![(actor, 63), (t, 7), (j, 7)],
        Request::Send {
            actor,
            t,
            list,
            reply,
            ..
        } => {
            let mut fields = vec![(actor, 63), (t, 7), (reply, NO_REPLY)];
            fields.extend(list.iter_mut().flat_map(|(i, j)| [(i, 7), (j, 7)]));
            fields
        }
        Request::Allocate {
            actor,
            n,
            kind,
            i,
            list,
            ..
        } => {
            let mut fields = vec![(actor, 63), (n, 63), (kind, ACTIVE), (i, 7)];
            fields.extend(list.iter_mut().flat_map(|(i, j)| [(i, 7), (j, 7)]));
            fields
        }
        Request::Unknown { actor, .. } => vec![(actor, 63)],
    }
}

/// Puts one field out of range, or makes the list too long.
fn put_out_of_range(rng: &mut Rng, request: &mut Request) {
    if let Request::Send { list, .. } | Request::Allocate { list, .. } = request {
        if rng.percent(25) {
            let length = rng.pick(&[5, 5, 6, 9, 255]).unwrap_or(5);
            while list.len() < length {
                list.push((rng.byte(0, 7), rng.byte(0, 7)));
            }
            return;
        }
    }
    let mut fields = bounded_fields(request);
    let chosen = rng.between(0, fields.len() as u64 - 1) as usize;
    let (field, highest) = &mut fields[chosen];
    **field = rng.byte_above(*highest);
}

/// Makes the actor passive, or lets a number act that is not alive or is passive.
fn make_actor_unfit(rng: &mut Rng, case: &mut StepCase) {
    let unfit = numbers_where(&case.table, |record| !record.can_act());
    match rng.pick(&unfit) {
        Some(n) if rng.percent(60) => *actor_mut(&mut case.request) = n,
        _ => case.table.record_mut(case.request.actor()).kind = PASSIVE,
    }
}

/// A byte that is mostly at most `highest`.
fn loose_byte(rng: &mut Rng, highest: u8) -> u8 {
    if rng.percent(90) {
        rng.byte(0, highest)
    } else {
        rng.byte(0, 255)
    }
}

/// A request without regard to any table: each field is mostly in range.
pub fn any_request(rng: &mut Rng) -> Request {
    let code = if rng.percent(95) {
        rng.byte(1, 9)
    } else {
        rng.byte(0, 255)
    };
    let actor = loose_byte(rng, 63);
    let Some(known) = Code::of(code) else {
        return Request::Unknown { code, actor };
    };
    let mut request = valid_request(rng, known, actor);
    if rng.percent(10) {
        put_out_of_range(rng, &mut request);
    }
    request
}

/// A request that the table is likely to grant, if any of its objects can act.
pub fn likely_request(rng: &mut Rng, table: &Table) -> Request {
    let actor = rng.pick(&numbers_where(table, Record::can_act));
    match actor {
        Some(actor) if rng.percent(95) => granted_request(rng, table, actor),
        _ => any_request(rng),
    }
}

/// A request of the given actor for which, if possible, a slot or a number of its own serves.
fn granted_request(rng: &mut Rng, table: &Table, actor: u8) -> Request {
    // Destroy is rarer than the others, so that a run does not soon end with all dead.
    let codes = [1, 2, 3, 3, 3, 4, 4, 4, 5, 6, 6, 6, 7, 7, 7, 8, 9];
    let code = rng.pick(&codes).and_then(Code::of).unwrap_or(Code::Read);
    let record = table.record(actor);
    if code == Code::Allocate {
        let own: Vec<u8> = set::numbers(record.stock).collect();
        if let Some(n) = rng.pick(&own) {
            let part = random_part(rng, record.stock & !set::single(n));
            let request = allocate(rng, actor, n, part);
            return sometimes_empty(rng, table, request);
        }
    }
    let mut request = valid_request(rng, code, actor);
    for _ in 0..20 {
        if slot_serves(table, &request) {
            return sometimes_empty(rng, table, request);
        }
        request = valid_request(rng, code, actor);
    }
    request
}

/// The request, one in four turned towards empty copies.
fn sometimes_empty(rng: &mut Rng, table: &Table, mut request: Request) -> Request {
    if rng.percent(25) {
        turn_to_empty(rng, table, &mut request);
    }
    request
}

/// Whether the used slot names an alive object with a needed right; for reclaim a dead one.
fn slot_serves(table: &Table, request: &Request) -> bool {
    let status = match request {
        Request::Reclaim { .. } => DEAD,
        _ => ALIVE,
    };
    match request.used_slot() {
        Some((t, needed)) => {
            let used = table.record(request.actor()).slots[usize::from(t)];
            used.has_any(needed) && table.record(used.target).status == status
        }
        None => false,
    }
}
