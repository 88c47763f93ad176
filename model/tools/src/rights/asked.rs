//! Requests through a slot of each rights value, with the reply and the table that rows say. Nothing but the
//! rights can refuse them. What a request does is written out here, apart from the model's step.

use super::row::{Column, Row};
use yavrinks_model::refusal::Refusal;
use yavrinks_model::set;
use yavrinks_model::step::{Code, Fields, Request};
use yavrinks_model::table::{Capability, Record, Table, ACTIVE, ALIVE, ALL_RIGHTS, DEAD, TX, WK};

/// Who asks, whom it asks, and what that has capabilities over.
const ACTOR: u8 = 40;
const TARGET: u8 = 3;
const OTHER: u8 = 50;
/// The actor's slot that is used, and the target's that is fetched.
const USED: u8 = 7;
const FOUND: u8 = 6;
/// A slot that both have filled, one that both have empty, and the one for a reply.
const FILLED: u8 = 2;
const FREE: u8 = 4;
const REPLY: u8 = 5;
/// The word of a write and of a send.
const WORD: u32 = 77;
/// What the actor can make.
const UNMADE: u8 = 60;
/// The target when it is dead, as a destroy leaves it and a reclaim finds it.
const DEAD_RECORD: Record = Record {
    status: DEAD,
    kind: ACTIVE,
    ..Record::UNBORN
};

/// A request, and what is to come of it.
#[derive(Clone, Debug, PartialEq, Eq)]
pub struct Asked {
    /// The rights values of the slot that is used and of the one that a fetch finds.
    pub used: u8,
    pub found: u8,
    pub table: Table,
    pub request: Request,
    pub reply: u8,
    pub after: Table,
}

/// Every request that uses a slot, through a slot of each value: as the rows say. A fetch comes once for each value
/// that it finds, to a filled slot and to an empty one.
pub fn asked(rows: &[Row]) -> Vec<Asked> {
    let mut all = Vec::new();
    for used in rows {
        for column in Column::ALL {
            let others = column.codes().iter().filter(|code| **code != Code::Fetch);
            all.extend(others.map(|&code| one(used, column, code)));
        }
        for found in rows {
            all.extend([FILLED, FREE].map(|j| fetch(used, found, j)));
        }
    }
    all
}

/// Every request on tables where a slot has a value above 15: the one that is used, or the one that a fetch finds.
pub fn asked_above() -> Vec<Asked> {
    let refused = |used, found, code| {
        let table = table(used, found);
        Asked {
            used,
            found,
            request: request(code, FILLED),
            reply: Refusal::TableNotSound.number(),
            after: table.clone(),
            table,
        }
    };
    let each = |value| {
        let through = Code::ALL.map(|code| refused(value, WK, code));
        through.into_iter().chain([refused(WK, value, Code::Fetch)])
    };
    (ALL_RIGHTS + 1..=u8::MAX).flat_map(each).collect()
}

/// The first request that a step answers otherwise.
pub fn first_fault(
    asked: &[Asked],
    step: impl Fn(&Table, &Request) -> (u8, Table),
) -> Option<&Asked> {
    let is_right = |one: &Asked| step(&one.table, &one.request) == (one.reply, one.after.clone());
    asked.iter().find(|one| !is_right(one))
}

/// All three are alive and active, and actor and target have a word and a stock. For a reclaim the target dies.
fn table(used: u8, found: u8) -> Table {
    let mut table = Table::unborn();
    for (n, word) in [(ACTOR, 5), (TARGET, 9), (OTHER, 0)] {
        let record = table.record_mut(n);
        (record.status, record.kind, record.word) = (ALIVE, ACTIVE, word);
    }
    table.record_mut(ACTOR).stock = set::single(UNMADE);
    table.record_mut(TARGET).stock = set::of([20, 63]);
    for (n, slot, held) in [
        (ACTOR, USED, holding(TARGET, used)),
        (ACTOR, FILLED, Capability::new(ACTOR, ALL_RIGHTS)),
        (TARGET, FILLED, Capability::new(OTHER, TX)),
        (TARGET, FOUND, holding(OTHER, found)),
    ] {
        *slot_mut(&mut table, n, slot) = held;
    }
    table
}

/// A slot with the rights over the target; with none it is empty.
fn holding(target: u8, rights: u8) -> Capability {
    match rights {
        0 => Capability::EMPTY,
        rights => Capability::new(target, rights),
    }
}

fn slot_mut(table: &mut Table, n: u8, slot: u8) -> &mut Capability {
    &mut table.record_mut(n).slots[usize::from(slot)]
}

/// A request of the actor. What is fetched goes to slot `j`; what is stored and sent comes from the filled slot and
/// goes to the free one, and the filled one is revoked.
fn request(code: Code, j: u8) -> Request {
    code.request(Fields {
        actor: ACTOR,
        t: USED,
        i: match code {
            Code::Fetch => FOUND,
            _ => FILLED,
        },
        j: match code {
            Code::Store => FREE,
            _ => j,
        },
        n: UNMADE,
        kind: ACTIVE,
        part: 0,
        word: WORD,
        list: vec![(FILLED, FREE)],
        reply: REPLY,
    })
}

/// A request other than fetch.
fn one(used: &Row, column: Column, code: Code) -> Asked {
    expected(used, WK, column, request(code, FILLED), |table| {
        let own = table.record(ACTOR).slots[usize::from(FILLED)];
        let (word, target) = (table.record(TARGET).word, table.record_mut(TARGET));
        match code {
            Code::Read => table.record_mut(ACTOR).word = word,
            Code::Write => target.word = WORD,
            Code::Store => target.slots[usize::from(FREE)] = own,
            Code::Revoke => target.slots[usize::from(FILLED)] = Capability::EMPTY,
            Code::Send => {
                target.word = WORD;
                target.slots[usize::from(FREE)] = own;
                target.slots[usize::from(REPLY)] = Capability::new(ACTOR, TX);
            }
            Code::Destroy => {
                let stock = target.stock;
                *target = DEAD_RECORD;
                table.record_mut(ACTOR).stock |= stock;
            }
            Code::Reclaim => {
                *target = Record::UNBORN;
                let actor = table.record_mut(ACTOR);
                actor.slots[usize::from(USED)] = Capability::EMPTY;
                actor.stock |= set::single(TARGET);
            }
            Code::Fetch | Code::Allocate => {}
        }
    })
}

/// A fetch: with rd of the slot as it is, without rd of the slot weakened. An empty copy changes nothing.
fn fetch(used: &Row, found: &Row, j: u8) -> Asked {
    let request = request(Code::Fetch, j);
    expected(used, found.value, Column::Reads, request, |table| {
        let mut copy = holding(OTHER, found.value);
        if !used.has_rd() {
            copy = match found.says(Column::Weakened) {
                true => Capability::new(copy.target, WK),
                false => Capability::EMPTY,
            };
        }
        if !copy.is_empty() {
            *slot_mut(table, ACTOR, j) = copy;
        }
    })
}

/// The request with what the row of the used value says of it; `effect` is what it does if it is done.
fn expected(
    used: &Row,
    found: u8,
    column: Column,
    request: Request,
    effect: impl FnOnce(&mut Table),
) -> Asked {
    let mut table = table(used.value, found);
    if matches!(request, Request::Reclaim { .. }) {
        *table.record_mut(TARGET) = DEAD_RECORD;
    }
    let mut after = table.clone();
    let reply = match (used.value, used.says(column)) {
        (0, _) => Refusal::SlotEmpty.number(),
        (_, false) => Refusal::RightAbsent.number(),
        (_, true) => {
            effect(&mut after);
            0
        }
    };
    Asked {
        used: used.value,
        found,
        table,
        request,
        reply,
        after,
    }
}
