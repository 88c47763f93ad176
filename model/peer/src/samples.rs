//! The tables, tests, requests and imports that time, stack and instructions are measured on.

use yavrinks_model::confinement::Entry;
use yavrinks_model::links::Links;
use yavrinks_model::set;
use yavrinks_model::step::{step_in_place, Code, Fields, Request, NO_REPLY};
use yavrinks_model::table::{Capability, Record, Table};
use yavrinks_model::table::{ALL_RIGHTS, DEAD, RD, SLOTS, TX, WK, WR};
use yavrinks_model::take_grant::{READ, STORE};
use yavrinks_model::wire::decode_list;
use yavrinks_tools::generate::{full_import, numbers_where, sound_table, ConfinementCase, Shape};
use yavrinks_tools::rng::Rng;

/// A table to measure on, with an object that no other names: the member of its confinement test.
#[derive(Clone, Debug)]
pub struct Place {
    pub name: &'static str,
    pub table: Table,
    pub member: u8,
}

/// Table K and the filled table.
pub fn places() -> [Place; 2] {
    let filled = filled_table();
    [
        Place {
            name: "table K",
            table: busy_table(),
            member: 4,
        },
        Place {
            name: "every slot filled",
            member: last_alive(&filled),
            table: filled,
        },
    ]
}

/// 64 objects in a row, upwards and downwards, of which the first is the member: the chain to the last is as long as
/// a chain can be, and the test takes as many rounds as there can be.
pub fn rows() -> [Place; 2] {
    [
        Place {
            name: "64 in a row",
            table: row_table(|n| n.checked_add(1)),
            member: 0,
        },
        Place {
            name: "64 in a row, downwards",
            table: row_table(|n| n.checked_sub(1)),
            member: 63,
        },
    ]
}

/// The same row, held in every slot.
pub fn with_slots_filled(row: &Place) -> Place {
    Place {
        table: first_in_all_slots(&row.table),
        ..row.clone()
    }
}

/// The table with what the first slot of an object holds in all of its slots.
pub fn first_in_all_slots(table: &Table) -> Table {
    let mut filled = table.clone();
    for record in &mut filled.records {
        record.slots = [record.slots[0]; SLOTS];
    }
    filled
}

/// Table K of document 01 with a few more capabilities, so that each request can be done.
pub fn busy_table() -> Table {
    let mut table = Table::k();
    table.records[5].slots[1] = Capability::new(2, 15);
    table.records[5].slots[2] = Capability::new(6, WR);
    table
}

/// 63 alive objects with every slot filled, half of them active. The number that is left is in the
/// stock of one of them, so that each request can be done; nobody else names the last object.
pub fn filled_table() -> Table {
    let shape = Shape {
        born: 63,
        dead_percent: 0,
        active_percent: 50,
        stocked_percent: 0,
        filled_percent: 100,
        weak_percent: 25,
        made_percent: 0,
    };
    let mut table = sound_table(&mut Rng::new(7), &shape);
    let (member, unborn) = (last_alive(&table), numbers_where(&table, |r| !r.is_born()));
    let first = if table.record(0).is_alive() { 0 } else { 1 };
    for (n, record) in table.records.iter_mut().enumerate() {
        for slot in &mut record.slots {
            if slot.target == member && n != usize::from(member) {
                slot.target = first;
            }
        }
    }
    if let Some(maker) = table.records.iter_mut().find(|record| record.can_act()) {
        maker.stock = set::of(&unborn);
    }
    table
}

/// The filled table in which every object was made in a run, each by the next one.
pub fn made_table() -> Table {
    let mut table = filled_table();
    let born = numbers_where(&table, Record::is_born);
    for (&n, &maker) in born.iter().zip(born.iter().cycle().skip(1)) {
        table.record_mut(n).maker = maker;
    }
    table
}

/// The highest number that is alive.
fn last_alive(table: &Table) -> u8 {
    let alive = numbers_where(table, Record::is_alive);
    alive.last().copied().unwrap_or(0)
}

/// 64 objects, each with rd over the next one, if there is one.
fn row_table(next: impl Fn(u8) -> Option<u8>) -> Table {
    let mut table = Table::unborn();
    for n in 0..64 {
        let record = table.record_mut(n);
        record.status = 1;
        record.kind = 1;
        if let Some(next) = next(n).filter(|&next| next < 64) {
            record.slots[0] = Capability::new(next, RD);
        }
    }
    table
}

/// What a member holds over others, as the bytes of a list.
pub fn held_list(table: &Table, member: u8) -> Vec<u8> {
    let held = table.record(member).capabilities();
    held.filter(|capability| capability.target != member)
        .flat_map(|capability| [capability.target, capability.rights])
        .collect()
}

/// Two bytes for each entry.
pub fn list_bytes(list: &[Entry]) -> Vec<u8> {
    list.iter()
        .flat_map(|&(target, rights)| [target, rights])
        .collect()
}

/// The test of a place's member alone, with the list of what it holds: accepted.
pub fn own_test(place: &Place) -> ConfinementCase {
    ConfinementCase {
        table: place.table.clone(),
        members: set::single(place.member),
        list: decode_list(&held_list(&place.table, place.member)),
    }
}

/// Eight members that hold wk alone in all their 64 slots, over the 56 other objects, which hold nothing; the
/// list is empty: accepted, with an empty bound.
pub fn material_test() -> ConfinementCase {
    let mut table = Table::unborn();
    for (n, record) in table.records.iter_mut().enumerate() {
        record.status = 1;
        record.kind = u8::from(n >= 56);
        record.word = n as u32;
    }
    for k in 0..64 {
        table.records[56 + k / 8].slots[k % 8] = Capability::new(k as u8 % 56, WK);
    }
    ConfinementCase {
        table,
        members: set::of(56_u8..64),
        list: Vec::new(),
    }
}

/// The object of an accepted test whose chain has the most links, and of several the lowest. Each round adds
/// the objects one link from what is there; the last ones are the farthest.
pub fn farthest(test: &ConfinementCase) -> Option<u8> {
    let links = Links::among(&test.table, test.table.born() & !test.members);
    let listed = test.list.iter().filter(|entry| entry.1 != WK);
    let (mut there, mut added) = (0, set::of(listed.map(|entry| entry.0)));
    let mut last = None;
    while added != 0 {
        last = set::numbers(added).next();
        there |= added;
        let linked = set::numbers(added).map(|n| links.from[usize::from(n)]);
        added = linked.fold(0, |all, more| all | more) & !there;
    }
    last
}

/// A take-and-grant table to measure on.
#[derive(Clone, Debug)]
pub struct Import {
    pub name: &'static str,
    pub bytes: Vec<u8>,
}

/// The longest import, 64 entities with eight capabilities each, and one of three entities that Store joins.
pub fn imports() -> [Import; 2] {
    [
        Import {
            name: "full",
            bytes: full_import(&mut Rng::new(7)),
        },
        Import {
            name: "small",
            bytes: vec![0, 13, 1, 3, 1, 1, STORE, 0, 2, 1, STORE, 0, READ],
        },
    ]
}

/// The bytes with a length field that says how many they are, if they have one.
pub fn mended(mut bytes: Vec<u8>) -> Vec<u8> {
    let length = (bytes.len() as u16).to_be_bytes();
    if let Some(field) = bytes.get_mut(..2) {
        field.copy_from_slice(&length);
    }
    bytes
}

/// A request, and the table to measure it on.
#[derive(Clone, Debug)]
pub struct NamedStep {
    pub name: &'static str,
    pub table: Table,
    pub request: Request,
}

/// Three requests that are done and leave every slot. The copies of two come out empty: a send of four empty slots
/// onto filled ones, and a fetch that is weakened to nothing, onto a filled slot too. A third is a fetch that is
/// weakened to what the slot holds already. But for those four all slots of all 64 objects are filled.
pub fn keeping() -> [NamedStep; 3] {
    let mut table = Table::unborn();
    for (n, record) in table.records.iter_mut().enumerate() {
        record.status = 1;
        record.kind = 1;
        record.slots = [Capability::new(n as u8, WR | TX); SLOTS];
    }
    let (actor, target) = (0, 63);
    table.record_mut(actor).slots[0] = Capability::new(target, WK | TX);
    let fetch = Request::Fetch {
        actor,
        t: 0,
        i: 7,
        j: 7,
    };
    let mut sender = table.clone();
    for j in 4..SLOTS {
        sender.record_mut(actor).slots[j] = Capability::EMPTY;
    }
    let mut weak = table.clone();
    weak.record_mut(actor).slots[7] = Capability::new(target, WK);
    weak.record_mut(target).slots[7] = Capability::new(target, ALL_RIGHTS);
    let send = Request::Send {
        actor,
        t: 0,
        word: 7,
        list: vec![(4, 1), (5, 2), (6, 3), (7, 4)],
        reply: NO_REPLY,
    };
    [
        NamedStep {
            name: "send of four empty slots",
            table: sender,
            request: send,
        },
        NamedStep {
            name: "fetch weakened to nothing",
            table,
            request: fetch.clone(),
        },
        NamedStep {
            name: "fetch weakened to wk",
            table: weak,
            request: fetch,
        },
    ]
}

/// Three reclaims that are done: on table K, where 2 holds the number too, and on a table with every slot of 63 alive
/// objects filled. There the last number is dead, and either every slot names it and it made all others, or nothing
/// names it but the slot that is used.
pub fn reclaims() -> [NamedStep; 3] {
    let (actor, t, target) = (5, 2, 6);
    let mut small = busy_table();
    small.record_mut(target).status = DEAD;
    let mut alone = Table::unborn();
    for (n, record) in alone.records.iter_mut().enumerate() {
        record.status = 1;
        record.kind = 1;
        record.slots = [Capability::new((n as u8 + 1) % 63, WR); SLOTS];
    }
    *alone.record_mut(63) = Record {
        status: DEAD,
        kind: 1,
        ..Record::UNBORN
    };
    let mut named = alone.clone();
    for record in &mut named.records[..63] {
        record.slots = [Capability::new(63, WR); SLOTS];
        record.maker = 63;
    }
    alone.record_mut(actor).slots[usize::from(t)].target = 63;
    let request = Request::Reclaim { actor, t };
    [
        ("reclaim, small table", small),
        ("reclaim, 504 slots emptied", named),
        ("reclaim, one slot emptied", alone),
    ]
    .map(|(name, table)| NamedStep {
        name,
        table,
        request: request.clone(),
    })
}

/// Each of the eight requests of document 01, done, then one refused by 6, a reclaim refused by 24 and a nonsense code.
pub fn requests(table: &Table) -> Vec<(String, Request)> {
    let done = Code::ALL
        .into_iter()
        .filter_map(|code| Some((code.name().to_string(), find_request(table, code, 0)?)));
    let refused = [(Code::Write, 6), (Code::Reclaim, 24)];
    let refused = refused.into_iter().filter_map(|(code, reply)| {
        let name = format!("refused {}", code.name());
        Some((name, find_request(table, code, reply)?))
    });
    let nonsense = Request::Unknown { code: 99, actor: 2 };
    done.chain(refused)
        .chain([(String::from("nonsense code"), nonsense)])
        .collect()
}

/// The first request of the code that gets the reply. All but allocate, destroy and reclaim get it again on the
/// table that they leave.
fn find_request(table: &Table, code: Code, reply: u8) -> Option<Request> {
    let places = (0..64).flat_map(|actor| (0..8).map(move |t| (actor, t)));
    let mut candidates = places.map(|(actor, t)| candidate(table, code, actor, t));
    candidates.find(|request| {
        let mut after = table.clone();
        step_in_place(&mut after, request) == reply
            && (matches!(code, Code::Allocate | Code::Destroy | Code::Reclaim)
                || step_in_place(&mut after, request) == reply)
    })
}

fn candidate(table: &Table, code: Code, actor: u8, t: u8) -> Request {
    code.request(Fields {
        actor,
        t,
        i: if code == Code::Allocate { t } else { 1 },
        j: 6,
        n: set::numbers(table.record(actor).stock).next().unwrap_or(0),
        kind: 1,
        part: 0,
        word: 7,
        list: vec![(0, 1), (1, 2), (2, 3), (3, 4)],
        reply: 5,
    })
}

/// The numbers whose records a request changes.
pub fn changed_numbers(table: &Table, request: &Request) -> Vec<u8> {
    let mut after = table.clone();
    step_in_place(&mut after, request);
    (0..64)
        .filter(|&n| after.record(n) != table.record(n))
        .collect()
}

/// The table with an offence in its last record, where none but a scan to the end finds it.
pub fn unsound_at_the_end(table: &Table) -> Table {
    let mut damaged = table.clone();
    damaged.records[63].kind = 2;
    damaged
}
