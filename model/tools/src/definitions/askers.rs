//! Who asked along the runs, so that a reader sees what the definitions of clean objects had to tell
//! apart.

use super::cases::{Case, Question};
use crate::generate::ConfinementCase;
use crate::two_runs::rules::Rules;
use crate::two_runs::runs::Run;
use crate::two_runs::tally::{Actor, Tally};
use std::collections::BTreeMap;
use std::fmt;
use yavrinks_model::set;
use yavrinks_model::step::{Code, Request};
use yavrinks_model::table::DEAD;

/// Requests by who asked.
#[derive(Clone, Debug, Default)]
pub struct Askers {
    pub runs: u64,
    pub tally: Tally,
    /// Requests of clean objects that were made on the way, and of dead ones.
    pub by_made: u64,
    pub by_dead: u64,
    /// Requests of numbers that were reclaimed.
    pub by_reclaimed: u64,
}

/// Counts the requests of the runs among the cases.
pub fn askers(cases: &BTreeMap<usize, Case>) -> Askers {
    let mut askers = Askers::default();
    for case in cases.values() {
        if let Question::Clean {
            start, requests, ..
        } = &case.question
        {
            askers.add(start, requests);
        }
    }
    askers
}

impl Askers {
    fn add(&mut self, start: &ConfinementCase, requests: &[Request]) {
        let begun = Run::begin(&Rules::DOCUMENT, &start.table, start.members, &start.list);
        let Some(mut run) = begun else {
            return;
        };
        for request in requests {
            if run.is_of_clean(request) {
                let actor = request.actor();
                self.by_made += u64::from(!start.table.is_born(actor));
                self.by_dead += u64::from(run.table.record(actor).status == DEAD);
            }
            let unborn = run.reclaimed() & !run.table.born();
            self.by_reclaimed += u64::from(set::contains(unborn, request.actor()));
            run.take(&Rules::DOCUMENT, request);
        }
        self.runs += 1;
        self.tally.add(&run.tally);
    }
}

impl fmt::Display for Askers {
    fn fmt(&self, out: &mut fmt::Formatter<'_>) -> fmt::Result {
        let by = |actor| self.tally.by_actor(actor).all();
        let (unknown, _) = self.tally.by_code(0);
        let (making, making_by_others) = self.tally.by_code(Code::Allocate.number());
        let (reclaims, reclaims_by_others) = self.tally.by_code(Code::Reclaim.number());
        let (anew, anew_by_others) = (self.tally.anew_by_clean, self.tally.anew_by_others);
        writeln!(out, "along {} runs, requests", self.runs)?;
        for (who, count) in [
            ("of clean objects", by(Actor::Clean)),
            ("  that were made on the way", self.by_made),
            ("  that were dead", self.by_dead),
            ("  with unknown codes", unknown.all()),
            ("  that made an object", making.done),
            ("  that asked for one in vain", making.refused),
            ("  that reclaimed a number", reclaims.done),
            ("  that made one anew", anew.by_same + anew.by_another),
            (
                "of members and bound objects",
                by(Actor::Member) + by(Actor::Bound),
            ),
            ("of objects that these made", by(Actor::MadeByOthers)),
            ("of unborn numbers", by(Actor::Unborn)),
            ("  that were reclaimed", self.by_reclaimed),
            ("of actors above 63", by(Actor::NoNumber)),
            ("of others, that made an object", making_by_others.done),
            ("  that reclaimed a number", reclaims_by_others.done),
            (
                "  that made one anew",
                anew_by_others.by_same + anew_by_others.by_another,
            ),
        ] {
            writeln!(out, "  {who:<34}{count:>4}")?;
        }
        Ok(())
    }
}
