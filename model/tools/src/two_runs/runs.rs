//! A pair of runs that is under way, and what may differ between them.
//! Both runs are taken side by side: a request of a clean actor in both at once, any other in one.

use super::rules::{Compared, Rules};
use super::tally::{Actor, Tally};
use crate::generate::unlisted_wk;
use yavrinks_model::confinement::{Entry, Tested};
use yavrinks_model::runs::{claimed_record, clean_after, clean_at_start, is_from_clean};
use yavrinks_model::runs::{compared_after, compared_at_start};
use yavrinks_model::set;
use yavrinks_model::step::Request;
use yavrinks_model::table::{Capability, Table, OBJECTS, WK};

/// Two tables that agree on every non-member, with members and a list.
#[derive(Clone, Debug, PartialEq, Eq)]
pub struct Start {
    pub first: Table,
    pub second: Table,
    pub members: u64,
    pub list: Vec<Entry>,
}

/// The next request of the first run, of the second, or the next clean request of both.
#[derive(Clone, Debug, PartialEq, Eq)]
pub enum Move {
    First(Request),
    Second(Request),
    Both(Request),
}

/// How two runs can break the claim.
#[derive(Clone, Debug, PartialEq, Eq)]
pub enum Difference {
    /// What the test found for the two start tables: the bound and the rounds.
    Tests(Tested, Tested),
    /// The replies to the clean request that came last.
    Replies(u8, u8),
    /// The clean objects.
    Clean(u64, u64),
    /// The clean objects whose makers are compared.
    Compared(u64, u64),
    /// The record of this clean object: a field, a slot or, if it is compared, the maker.
    Object(u8),
}

/// One of the two runs, as far as it has gone. Members and what the test found are those of the start.
#[derive(Clone, Debug)]
pub struct Run {
    pub table: Table,
    members: u64,
    tested: Tested,
    /// What members held at the start over non-members with wk alone and unlisted: (member, target).
    unlisted_wk: Vec<(u8, u8)>,
    /// Whether one of these targets was clean at the start.
    pub has_unlisted_wk: bool,
    /// The objects that are clean by now.
    pub clean: u64,
    /// Those whose maker is compared.
    pub compared: u64,
    /// Who reclaimed a number last, and whether it was clean before.
    reclaimed: [Option<(u8, bool)>; OBJECTS],
    /// How many requests were taken.
    pub length: u64,
    pub tally: Tally,
}

impl Run {
    /// The run before its first request. None if the test refuses.
    pub fn begin(rules: &Rules, table: &Table, members: u64, list: &[Entry]) -> Option<Run> {
        let tested = rules.confinement_test(table, members, list);
        if !tested.is_accepted() {
            return None;
        }
        let clean = clean_at_start(table, members, tested.bound);
        let unlisted_wk = unlisted_wk(table, members, list);
        let is_clean = |&(_, target): &(u8, u8)| set::contains(clean, target);
        Some(Run {
            table: table.clone(),
            members,
            tested,
            has_unlisted_wk: unlisted_wk.iter().any(is_clean),
            unlisted_wk,
            clean,
            compared: compared_at_start(table, clean),
            reclaimed: [None; OBJECTS],
            length: 0,
            tally: Tally::default(),
        })
    }

    /// Whether the request comes from a clean object, if it is made now.
    pub fn is_of_clean(&self, request: &Request) -> bool {
        is_from_clean(self.clean, request)
    }

    /// Takes a request under the rules.
    pub fn take(&mut self, rules: &Rules, request: &Request) -> u8 {
        let actor = self.actor(request.actor());
        let used = self.used_over_clean(request);
        let before = self.table.clone();
        let reply = rules.step_in_place(&mut self.table, request);
        self.length += 1;
        self.tally.count(actor, request.code(), reply == 0);
        if reply == 0 {
            self.tally.count_empty(actor, &before, request, self.clean);
            self.count_reuse(&before, request);
        }
        if let (Some(used), 0) = (used, reply) {
            self.count_over_clean(actor, request, used);
        }
        self.compared = compared_after(&before, self.clean, self.compared, request, reply);
        self.clean = clean_after(&before, self.clean, request, reply);
        reply
    }

    /// Counts a reclaim that was done, or an allocate of a number that was reclaimed.
    fn count_reuse(&mut self, before: &Table, request: &Request) {
        match request {
            Request::Reclaim { actor, t } => {
                let target = before.record(*actor).slots[usize::from(*t)].target;
                self.tally.count_reclaim(before, *actor, target, self.clean);
                let was_clean = set::contains(self.clean, target);
                self.reclaimed[usize::from(target)] = Some((*actor, was_clean));
            }
            Request::Allocate { actor, n, .. } => {
                if let Some((by, was_clean)) = self.reclaimed[usize::from(*n)] {
                    let is_clean = set::contains(self.clean, *actor);
                    self.tally.count_anew(is_clean, by == *actor, was_clean);
                }
            }
            _ => {}
        }
    }

    /// Counts a request that was done through a capability over a clean object.
    fn count_over_clean(&mut self, actor: Actor, request: &Request, used: Capability) {
        let held = (request.actor(), used.target);
        let unlisted = used.rights == WK && self.unlisted_wk.contains(&held);
        self.tally.of_clean_by_others += u64::from(actor != Actor::Clean);
        match request {
            Request::Read { .. } if unlisted => self.tally.unlisted_reads += 1,
            Request::Fetch { .. } if unlisted => self.tally.unlisted_fetches += 1,
            _ => {}
        }
    }

    /// The numbers that were reclaimed on the way.
    pub fn reclaimed(&self) -> u64 {
        set::of((0..OBJECTS as u8).filter(|&n| self.reclaimed[usize::from(n)].is_some()))
    }

    /// Whether a born number was reclaimed on the way.
    pub fn is_made_anew(&self, n: u8) -> bool {
        self.reclaimed[usize::from(n)].is_some() && self.table.is_born(n)
    }

    /// Who a number is by now. One that was reclaimed is what its latest making made it.
    pub fn actor(&self, n: u8) -> Actor {
        if usize::from(n) >= OBJECTS {
            Actor::NoNumber
        } else if set::contains(self.clean, n) {
            Actor::Clean
        } else if !self.table.is_born(n) {
            Actor::Unborn
        } else if self.is_made_anew(n) {
            Actor::MadeByOthers
        } else if set::contains(self.members, n) {
            Actor::Member
        } else if set::contains(self.tested.bound, n) {
            Actor::Bound
        } else {
            Actor::MadeByOthers
        }
    }

    /// The capability that the request uses, if it is one over a clean object.
    fn used_over_clean(&self, request: &Request) -> Option<Capability> {
        let actor = self.table.records.get(usize::from(request.actor()))?;
        let (t, _) = request.used_slot()?;
        let used = *actor.slots.get(usize::from(t))?;
        (!used.is_empty() && set::contains(self.clean, used.target)).then_some(used)
    }
}

/// Two runs side by side, equal so far in all that the claim speaks of.
#[derive(Clone, Debug)]
pub struct TwoRuns {
    rules: Rules,
    /// What the test found for both start tables.
    pub tested: Tested,
    pub first: Run,
    pub second: Run,
}

impl TwoRuns {
    /// The runs before the first request. None if a test refuses or nothing is left clean.
    pub fn begin(rules: &Rules, start: &Start) -> Option<Result<TwoRuns, Difference>> {
        let begin = |table| Run::begin(rules, table, start.members, &start.list);
        let (first, second) = (begin(&start.first)?, begin(&start.second)?);
        if first.tested != second.tested {
            return Some(Err(Difference::Tests(first.tested, second.tested)));
        }
        let runs = TwoRuns {
            rules: *rules,
            tested: first.tested,
            first,
            second,
        };
        (runs.first.clean != 0).then_some(Ok(runs))
    }

    /// Whether the move keeps to the claim: a request of both is from a clean actor, a request
    /// of one run is not.
    pub fn allows(&self, next: &Move) -> bool {
        match next {
            Move::First(request) => !self.first.is_of_clean(request),
            Move::Second(request) => !self.second.is_of_clean(request),
            Move::Both(request) => {
                self.first.is_of_clean(request) && self.second.is_of_clean(request)
            }
        }
    }

    /// Takes a move that is allowed. The lists up to here are two whole lists for which the
    /// claim must hold, so that a difference shows at the move that makes it.
    pub fn take(&mut self, next: &Move) -> Result<(), Difference> {
        match next {
            Move::First(request) => {
                self.first.take(&self.rules, request);
            }
            Move::Second(request) => {
                self.second.take(&self.rules, request);
            }
            Move::Both(request) => {
                let reply = self.first.take(&self.rules, request);
                let second_reply = self.second.take(&self.rules, request);
                if reply != second_reply {
                    return Err(Difference::Replies(reply, second_reply));
                }
            }
        }
        self.compare_clean()
    }

    /// The same objects clean, and every clean object with the same record, its slots included, and its maker if
    /// that is compared.
    fn compare_clean(&self) -> Result<(), Difference> {
        let (first, second) = (&self.first, &self.second);
        if first.clean != second.clean {
            return Err(Difference::Clean(first.clean, second.clean));
        }
        if first.compared != second.compared {
            return Err(Difference::Compared(first.compared, second.compared));
        }
        let compared = match self.rules.compared {
            Compared::MadeByClean => first.compared,
            Compared::All => first.clean,
        };
        let record = |run: &Run, n| claimed_record(&run.table, compared, n);
        match set::numbers(first.clean).find(|&n| record(first, n) != record(second, n)) {
            Some(n) => Err(Difference::Object(n)),
            None => Ok(()),
        }
    }
}
