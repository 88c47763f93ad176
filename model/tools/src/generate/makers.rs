//! Random steps that have to do with makers.

use super::requests::{step_case, StepCase};
use crate::rng::Rng;
use yavrinks_model::step::{Code, Request};
use yavrinks_model::table::NO_MAKER;

/// An allocate that is done by an object that was itself made.
pub fn allocate_by_made(rng: &mut Rng) -> StepCase {
    loop {
        let case = step_case(rng, Code::Allocate.number(), 0);
        if case.table.record(case.request.actor()).maker != NO_MAKER {
            return case;
        }
    }
}

/// A destroy that is done, of an object that was made and that made its actor.
pub fn destroy_of_made(rng: &mut Rng) -> StepCase {
    loop {
        let mut case = step_case(rng, Code::Destroy.number(), 0);
        let Request::Destroy { actor, t } = case.request else {
            continue;
        };
        let target = case.table.record(actor).slots[usize::from(t)].target;
        if case.table.record(target).maker != NO_MAKER {
            case.table.record_mut(actor).maker = target;
            return case;
        }
    }
}
