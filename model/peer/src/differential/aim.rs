//! Requests aimed at a reply on the table as it is. Aiming only makes every reply common: whether it
//! was met is for the model to say.

use yavrinks_model::step::{Code, Fields, Pair, Request, MAX_PAIRS, NO_REPLY};
use yavrinks_model::table::{Record, Table, ACTIVE, OBJECTS, SLOTS};
use yavrinks_tools::generate::{actor_mut, bounded_fields, turn_to_empty};
use yavrinks_tools::rng::Rng;

/// A code and a reply to aim at; some several times, so that they are drawn more often. Destroys that
/// are done are rare, as often as reclaims: a table should not soon be dead.
#[rustfmt::skip]
const AIMS: [(u8, u8); 70] = [
    (1, 0), (1, 0), (1, 0), (2, 0), (2, 0), (2, 0), (3, 0), (3, 0), (3, 0), (3, 0),
    (3, 0), (4, 0), (4, 0), (4, 0), (4, 0), (4, 0), (5, 0), (5, 0), (6, 0), (6, 0),
    (6, 0), (6, 0), (6, 0), (6, 0), (6, 0), (7, 0), (7, 0), (7, 0), (7, 0), (7, 0),
    (8, 0), (1, 4), (2, 4), (3, 4), (4, 4), (5, 4), (6, 4), (8, 4), (1, 5), (2, 5),
    (3, 5), (4, 5), (5, 5), (6, 5), (8, 5), (1, 6), (2, 6), (3, 6), (4, 6), (5, 6),
    (6, 6), (8, 6), (6, 7), (6, 7), (8, 8), (8, 8), (7, 9), (7, 9), (7, 9), (7, 9),
    (8, 0), (8, 0), (9, 0), (9, 0), (9, 0), (9, 4), (9, 6), (9, 6), (9, 24), (9, 24),
];

/// A request aimed at one of the replies 0, 2 to 9 and 24.
pub fn aimed(rng: &mut Rng, table: &Table) -> Request {
    let (code, aim) = AIMS[rng.between(0, AIMS.len() as u64 - 1) as usize];
    let mut request = match Code::of(code).expect("every aim has a request") {
        Code::Allocate => allocate(rng, table, aim),
        through => through_slot(rng, table, through, aim),
    };
    match rng.between(0, 15) {
        0 => put_out_of_range(rng, &mut request),
        1 => let_another_act(rng, &mut request),
        _ => {}
    }
    request
}

/// The requests that copy slots, and revoke, which empties one.
const COPYING: [u8; 9] = [3, 3, 3, 4, 4, 6, 6, 7, 5];

/// A request aimed at 0 whose copies come out empty, or some of them, where the table has empty slots; or a revoke.
pub fn empty_copy(rng: &mut Rng, table: &Table) -> Request {
    let code = rng.pick(&COPYING).and_then(Code::of);
    let mut request = match code.unwrap_or(Code::Fetch) {
        Code::Allocate => allocate(rng, table, 0),
        through => through_slot(rng, table, through, 0),
    };
    // Where a table is not sound, a target may be no object, and all is refused by 1.
    if table.is_sound() {
        turn_to_empty(rng, table, &mut request);
    }
    request
}

/// A request with every field in range, without regard to any table.
pub fn in_range(rng: &mut Rng, code: Code, actor: u8, t: u8) -> Request {
    let bits = rng.bits();
    let word = if bits & 64 == 0 {
        (bits >> 32) as u32
    } else {
        (bits >> 32 & 3) as u32
    };
    let fields = Fields {
        actor,
        t,
        i: bits as u8 & 7,
        j: (bits >> 3) as u8 & 7,
        word,
        ..Fields::default()
    };
    code.request(match code {
        Code::Send => Fields {
            list: pairs(rng, MAX_PAIRS as u64),
            reply: rng.byte(0, NO_REPLY),
            ..fields
        },
        Code::Allocate => Fields {
            n: rng.byte(0, 63),
            kind: rng.byte(0, ACTIVE),
            part: rng.bits(),
            list: pairs(rng, MAX_PAIRS as u64),
            ..fields
        },
        _ => fields,
    })
}

/// A list of at most so many pairs.
fn pairs(rng: &mut Rng, most: u64) -> Vec<Pair> {
    let length = rng.between(0, most);
    (0..length).map(|_| pair(rng)).collect()
}

/// A pair of slots.
pub fn pair(rng: &mut Rng) -> Pair {
    let bits = rng.bits();
    (bits as u8 & 7, (bits >> 3) as u8 & 7)
}

/// A request whose actor has a slot that leads to the reply, if there is one in the table.
fn through_slot(rng: &mut Rng, table: &Table, code: Code, aim: u8) -> Request {
    let (first_actor, first_slot) = (rng.byte(0, 63), rng.byte(0, 7));
    let mut fallback = first_actor;
    for k in 0..OBJECTS as u8 {
        let actor = (first_actor + k) % 64;
        if !table.record(actor).can_act() {
            continue;
        }
        fallback = actor;
        for s in 0..SLOTS as u8 {
            let t = (first_slot + s) % 8;
            if leads_to(table, code, aim, actor, t) {
                return in_range(rng, code, actor, t);
            }
        }
    }
    in_range(rng, code, fallback, first_slot)
}

/// Does the actor's slot lead a request of the code to the reply?
fn leads_to(table: &Table, code: Code, aim: u8, actor: u8, t: u8) -> bool {
    let used = table.record(actor).slots[usize::from(t)];
    if used.is_empty() {
        return aim == 4;
    }
    let Some(target) = table.records.get(usize::from(used.target)) else {
        return false;
    };
    let Some(needed) = code.needs() else {
        return false;
    };
    match (code, target.is_alive()) {
        (Code::Reclaim, true) => return aim == 24,
        (Code::Reclaim, false) | (_, true) => {}
        (_, false) => return aim == 5,
    }
    if !used.has_any(needed) {
        return aim == 6;
    }
    match code {
        Code::Send if !target.is_active() => aim == 7,
        Code::Destroy if used.target == actor => aim == 8,
        _ => aim == 0,
    }
}

/// The first number from a random one on whose record is as wanted.
fn find(rng: &mut Rng, table: &Table, wanted: impl Fn(&Record) -> bool) -> Option<u8> {
    let first = rng.byte(0, 63);
    let mut numbers = (0..64).map(|k| (first + k) % 64);
    numbers.find(|&n| wanted(table.record(n)))
}

/// An allocate of a number of the actor's own stock; for 9 with a number or a part from outside.
fn allocate(rng: &mut Rng, table: &Table, aim: u8) -> Request {
    let maker = find(rng, table, |record| record.can_act() && record.stock != 0);
    let actor = maker
        .or_else(|| find(rng, table, Record::can_act))
        .unwrap_or(0);
    let stock = table.record(actor).stock;
    let mut request = in_range(rng, Code::Allocate, actor, 0);
    if let Request::Allocate { n, part, .. } = &mut request {
        *n = number_of(rng, stock);
        *part &= stock & !(1 << *n);
        match rng.between(0, 3) {
            0 if aim == 9 => *n = number_of(rng, !stock),
            1 if aim == 9 => *part |= 1 << *n,
            _ if aim == 9 => *part |= 1 << number_of(rng, !stock),
            0 => *part = 0,
            _ => {}
        }
    }
    request
}

/// A number of the set, or any number if it is empty.
fn number_of(rng: &mut Rng, set: u64) -> u8 {
    let turn = rng.byte(0, 63);
    let after = set.rotate_right(u32::from(turn)).trailing_zeros() as u8;
    (turn + after % 64) % 64
}

/// Puts one field out of range.
fn put_out_of_range(rng: &mut Rng, request: &mut Request) {
    let mut fields = bounded_fields(request);
    let chosen = rng.between(0, fields.len() as u64 - 1) as usize;
    let (field, highest) = &mut fields[chosen];
    **field = rng.byte_above(*highest);
}

/// Any number acts, most often one that cannot.
fn let_another_act(rng: &mut Rng, request: &mut Request) {
    *actor_mut(request) = rng.byte(0, 63);
}
