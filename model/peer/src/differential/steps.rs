//! One request on the same table in the model and in the archive, in both forms of the step.

use captable::raw;
use yavrinks_model::step::{step_in_place, Request};
use yavrinks_model::table::Table;

use super::facts::{same, Compared, Facts};
use super::reclaims::Reclaimed;
use crate::archive::Calls;
use crate::convert::to_raw;

/// The answer to a table that is not sound, and to bytes that are no request.
const UNSOUND: u8 = 1;
const FIELD_INVALID: u8 = 2;

/// Bytes that are handed to a step, and the request that they are; none if they are no request.
#[derive(Clone, Debug)]
pub struct Ask {
    pub bytes: Box<[u8]>,
    pub request: Option<Request>,
}

/// The same table on both sides. It is on the heap, where a tool that watches memory sees a write
/// beside it.
pub struct Twin {
    pub model: Table,
    pub lent: Box<raw::Table>,
    /// The numbers that were reclaimed in it, for the counts.
    pub reclaimed: Reclaimed,
}

impl Twin {
    pub fn new(model: Table) -> Twin {
        let lent = Box::new(to_raw(&model));
        Twin {
            model,
            lent,
            reclaimed: Reclaimed::default(),
        }
    }

    /// Changes the table on both sides.
    pub fn change(&mut self, how: impl FnOnce(&mut Table)) {
        how(&mut self.model);
        *self.lent = to_raw(&self.model);
    }

    /// The model's answer. A refusal means the table as it was, whatever the model does.
    fn answer(&mut self, request: Option<&Request>) -> raw::Outcome {
        let number = match request {
            Some(request) => step_in_place(&mut self.model, request),
            None if self.model.is_sound() => FIELD_INVALID,
            None => UNSOUND,
        };
        let table = if number == 0 {
            to_raw(&self.model)
        } else {
            *self.lent
        };
        raw::Outcome { table, number }
    }
}

/// Takes the step on both sides, in both forms, and gives its number.
pub fn compare_step(calls: &impl Calls, twin: &mut Twin, ask: &Ask) -> Compared<u8> {
    let before = *twin.lent;
    let expected = twin.answer(ask.request.as_ref());
    by_value(calls, &before, ask, &expected)?;
    lent(calls, twin, &before, ask, &expected)?;
    Ok(expected.number)
}

fn by_value(
    calls: &impl Calls,
    before: &raw::Table,
    ask: &Ask,
    expected: &raw::Outcome,
) -> Compared<()> {
    let (mut table, mut bytes) = (*before, ask.bytes.clone());
    let found = calls.stepped(&mut table, &mut bytes);
    if found == *expected && table == *before && bytes == ask.bytes {
        return Ok(());
    }
    let facts = |outcome: &raw::Outcome, table: &raw::Table, bytes: &[u8]| {
        Facts::new()
            .number("number", outcome.number)
            .table("table given back", &outcome.table)
            .table("table that was given", table)
            .bytes("request", bytes)
    };
    same(
        "captable_step_by_value",
        || case(before, ask),
        facts(expected, before, &ask.bytes),
        facts(&found, &table, &bytes),
    )
}

fn lent(
    calls: &impl Calls,
    twin: &mut Twin,
    before: &raw::Table,
    ask: &Ask,
    expected: &raw::Outcome,
) -> Compared<()> {
    let mut bytes = ask.bytes.clone();
    let number = calls.step(&mut twin.lent, &mut bytes);
    if number == expected.number && *twin.lent == expected.table && bytes == ask.bytes {
        return Ok(());
    }
    let facts = |number: u8, table: &raw::Table, bytes: &[u8]| {
        Facts::new()
            .number("number", number)
            .table("table left", table)
            .bytes("request", bytes)
    };
    same(
        "captable_step",
        || case(before, ask),
        facts(expected.number, &expected.table, &ask.bytes),
        facts(number, &twin.lent, &bytes),
    )
}

fn case(before: &raw::Table, ask: &Ask) -> Facts {
    Facts::new()
        .table("table", before)
        .bytes("request", &ask.bytes)
        .text(
            "which is",
            match &ask.request {
                Some(request) => format!("{request:?}"),
                None => String::from("no request"),
            },
        )
}
