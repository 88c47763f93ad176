//! The requests that the sheet of the rights values is about, put to the archive. The model's step has no part in it.

use yavrinks_model::step::Request;
use yavrinks_model::table::Table;
use yavrinks_model::wire::encode;
use yavrinks_tools::rights::{first_fault, Asked};

use crate::archive::Calls;
use crate::calls::Call;
use crate::convert::{to_model, to_raw};

/// The first request that the archive answers otherwise than the sheet says, in one form of the step or in the
/// other.
pub fn sheet_fault<'a>(calls: &impl Calls, asked: &'a [Asked]) -> Option<(Call, &'a Asked)> {
    let by_value = |table: &Table, request: &Request| {
        let outcome = calls.stepped(&mut to_raw(table), &mut encode(request));
        (outcome.number, to_model(&outcome.table))
    };
    let lent = |table: &Table, request: &Request| {
        let mut changed = to_raw(table);
        let number = calls.step(&mut changed, &mut encode(request));
        (number, to_model(&changed))
    };
    let fault = first_fault(asked, by_value).map(|one| (Call::Stepped, one));
    fault.or_else(|| first_fault(asked, lent).map(|one| (Call::Step, one)))
}
