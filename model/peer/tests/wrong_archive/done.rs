//! Archives that are wrong in one form of the step: a function says what they answer, most often by changing what the
//! right step did.

use captable::raw;
use yavrinks_model::step::{Code, Request};
use yavrinks_model::table::{Capability, Table};
use yavrinks_model::wire::request_in;
use yavrinks_peer::archive::{Archive, Calls};
use yavrinks_peer::convert::{to_model, to_raw};
use yavrinks_tools::copies::{copies, landed_by, Copied};

use super::is_found;

/// A request that was done: the table before it and the one after it, and the reply.
pub struct Done {
    pub before: Table,
    pub request: Request,
    pub after: Table,
    pub reply: u8,
}

impl Done {
    pub fn is(&self, code: Code) -> bool {
        self.request.code() == code.number()
    }

    pub fn copies(&self) -> Vec<Copied> {
        copies(&self.before, &self.request)
    }

    /// Lands the copies by a rule, which is given what the slot holds and the copy. A reply slot comes last.
    pub fn land_by(&mut self, rule: impl Fn(Capability, &Copied) -> Capability) {
        if let Some((holder, slots)) = landed_by(&self.before, &self.request, rule) {
            self.after.record_mut(holder).slots = slots;
        }
    }

    /// Lands every copy, the empty ones too.
    pub fn land_all(&mut self) {
        self.land_by(|_, copied| copied.copy());
    }
}

/// What the archive answers, and what becomes of it if the request was done.
pub fn outcome(wrong: impl Fn(&mut Done), table: &raw::Table, bytes: &mut [u8]) -> raw::Outcome {
    let mut given = *table;
    let right = Archive.stepped(&mut given, bytes);
    if right.number != 0 {
        return right;
    }
    let mut done = Done {
        before: to_model(table),
        request: request_in(bytes).expect("what was done is a request"),
        after: to_model(&right.table),
        reply: 0,
    };
    wrong(&mut done);
    raw::Outcome {
        table: to_raw(&done.after),
        number: done.reply,
    }
}

/// Wrong where the table is given by value.
pub struct ByValue<F>(pub F);

impl<F: Fn(&raw::Table, &mut [u8]) -> raw::Outcome> Calls for ByValue<F> {
    fn stepped(&self, table: &mut raw::Table, request: &mut [u8]) -> raw::Outcome {
        self.0(table, request)
    }
}

/// Wrong where it is lent.
pub struct Lent<F>(pub F);

impl<F: Fn(&raw::Table, &mut [u8]) -> raw::Outcome> Calls for Lent<F> {
    fn step(&self, table: &mut raw::Table, request: &mut [u8]) -> u8 {
        let outcome = self.0(table, request);
        *table = outcome.table;
        outcome.number
    }
}

/// What an archive makes of a request that was done.
pub type Wrong = fn(&mut Done);

/// The steps of such an archive.
pub fn steps(wrong: Wrong) -> impl Fn(&raw::Table, &mut [u8]) -> raw::Outcome {
    move |table, bytes| outcome(wrong, table, bytes)
}

/// Is an archive that leaves such a table found out, whichever form of the step is wrong?
#[track_caller]
pub fn table_is_found(wrong: Wrong) {
    is_found(
        &ByValue(steps(wrong)),
        "captable_step_by_value",
        "table given back",
    );
    is_found(&Lent(steps(wrong)), "captable_step", "table left");
}
