//! A trial: many pairs of runs under the same rules, until one differs or all are tried.

use super::requests::{clean_request, other_request};
use super::rules::Rules;
use super::runs::{Difference, Move, Start, TwoRuns};
use super::start::draw_start;
use super::tally::{Actor, Tally};
use crate::progress::Progress;
use crate::rng::Rng;
use yavrinks_model::set;
use yavrinks_model::step::Code;
use yavrinks_model::table::NO_MAKER;

/// A pair of runs that breaks the claim.
#[derive(Clone, Debug)]
pub struct Case {
    pub start: Start,
    pub moves: Vec<Move>,
    pub difference: Difference,
}

/// What a trial did and found.
#[derive(Clone, Debug, Default)]
pub struct Trial {
    pub tally: Tally,
    /// Pairs tried, with the one that differs.
    pub pairs: u64,
    pub starts_differ: u64,
    pub bound_not_empty: u64,
    /// Pairs whose bound takes three rounds at least.
    pub many_rounds: u64,
    pub lengths_differ: u64,
    /// Pairs whose tables differ at the end, in objects that are not clean.
    pub ends_differ: u64,
    /// Pairs where members hold wk alone over a clean object, unlisted, in one start table or in both.
    pub unlisted_in_one: u64,
    pub unlisted_in_both: u64,
    /// Pairs where they read or fetched through it in one of the runs and not in the other.
    pub used_in_one: u64,
    /// Pairs where others made an empty copy in one of the runs and not in the other.
    pub empty_in_one: u64,
    pub clean_at_start: u64,
    pub made_clean: u64,
    /// Clean objects at the end whose maker is clean, a member, or another.
    pub made_by_clean: u64,
    pub made_by_members: u64,
    pub made_by_others: u64,
    /// Those whose maker is dead in one of the runs and not in the other.
    pub maker_dead_in_one: u64,
    /// Clean objects at the end whose maker is compared, and among them those that have one.
    pub makers_compared: u64,
    pub makers_compared_with: u64,
    /// Clean objects at the end whose maker is left out, and among them those where it differs.
    pub makers_left_out: u64,
    pub makers_that_differ: u64,
    /// Pairs where others reclaimed a number in one of the runs and not in the other.
    pub reclaimed_in_one: u64,
    pub found: Option<Case>,
}

/// Tries pairs of runs until one differs, at most the given number of pairs. `name` is that of the rules,
/// for whoever waits.
pub fn try_pairs(name: &str, rules: &Rules, seed: u64, pairs: u64) -> Trial {
    let mut seeds = Rng::new(seed);
    let mut trial = Trial::default();
    let mut progress = Progress::new(format!("two-runs: {name}: pairs"), pairs);
    while trial.pairs < pairs && trial.found.is_none() {
        // Each pair has its own numbers, so that a change in one leaves the others as they were.
        let drawn = draw_pair(rules, &mut Rng::new(seeds.bits()));
        trial.count(&drawn);
        trial.found = drawn.into_case();
        progress.at(trial.pairs);
    }
    trial
}

impl Trial {
    fn count(&mut self, drawn: &Drawn) {
        self.pairs += 1;
        self.starts_differ += u64::from(drawn.start.first != drawn.start.second);
        let Some(runs) = &drawn.runs else {
            return;
        };
        self.bound_not_empty += u64::from(runs.tested.bound != 0);
        self.many_rounds += u64::from(runs.tested.rounds >= 3);
        self.lengths_differ += u64::from(runs.first.length != runs.second.length);
        self.ends_differ += u64::from(runs.first.table != runs.second.table);
        self.count_unlisted(runs);
        self.count_empty(runs);
        for n in set::numbers(runs.first.clean) {
            let at_start = drawn.start.first.is_born(n) && !runs.first.is_made_anew(n);
            self.clean_at_start += u64::from(at_start);
            self.made_clean += u64::from(!at_start);
            self.count_maker(runs, n);
        }
        self.tally.add(&runs.first.tally);
        self.tally.add(&runs.second.tally);
    }

    /// Counts a clean object by its maker in the first run.
    fn count_maker(&mut self, runs: &TwoRuns, n: u8) {
        let [maker, in_second] = [&runs.first, &runs.second].map(|run| run.table.record(n).maker);
        if set::contains(runs.first.compared, n) {
            self.makers_compared += 1;
            self.makers_compared_with += u64::from(maker != NO_MAKER);
        } else {
            self.makers_left_out += 1;
            self.makers_that_differ += u64::from(maker != in_second);
        }
        if maker == NO_MAKER {
            return;
        }
        match runs.first.actor(maker) {
            Actor::Clean => self.made_by_clean += 1,
            Actor::Member => self.made_by_members += 1,
            _ => self.made_by_others += 1,
        }
        let alive = [&runs.first, &runs.second].map(|run| run.table.record(maker).is_alive());
        self.maker_dead_in_one += u64::from(alive[0] != alive[1]);
    }

    fn count_unlisted(&mut self, runs: &TwoRuns) {
        let both = [&runs.first, &runs.second];
        let held = both.map(|run| run.has_unlisted_wk);
        self.unlisted_in_one += u64::from(held[0] != held[1]);
        self.unlisted_in_both += u64::from(held[0] && held[1]);
        let used = both.map(|run| run.tally.used_unlisted());
        self.used_in_one += u64::from(used[0] != used[1]);
    }

    fn count_empty(&mut self, runs: &TwoRuns) {
        let both = [&runs.first, &runs.second];
        let some = both.map(|run| run.tally.empty_by_others.all != 0);
        self.empty_in_one += u64::from(some[0] != some[1]);
        let some = both.map(|run| run.tally.by_code(Code::Reclaim.number()).1.done != 0);
        self.reclaimed_in_one += u64::from(some[0] != some[1]);
    }
}

/// A pair of runs, drawn and taken to its end.
#[derive(Clone, Debug)]
pub struct Drawn {
    pub start: Start,
    pub moves: Vec<Move>,
    /// The runs after the last move; none if even the tests differ.
    pub runs: Option<TwoRuns>,
    pub difference: Option<Difference>,
}

impl Drawn {
    fn into_case(self) -> Option<Case> {
        let difference = self.difference?;
        Some(Case {
            start: self.start,
            moves: self.moves,
            difference,
        })
    }
}

/// Draws a start, then requests until a difference shows or the lists are long enough.
pub fn draw_pair(rules: &Rules, rng: &mut Rng) -> Drawn {
    let (start, begun) = draw_accepted(rules, rng);
    let mut moves = Vec::new();
    let (runs, difference) = match begun {
        Err(difference) => (None, Some(difference)),
        Ok(mut runs) => {
            let outcome = draw_moves(rng, &mut runs, &mut moves);
            (Some(runs), outcome.err())
        }
    };
    Drawn {
        start,
        moves,
        runs,
        difference,
    }
}

/// A start that both tests accept and that leaves something clean.
fn draw_accepted(rules: &Rules, rng: &mut Rng) -> (Start, Result<TwoRuns, Difference>) {
    loop {
        let start = draw_start(rng);
        if let Some(begun) = TwoRuns::begin(rules, &start) {
            return (start, begun);
        }
    }
}

/// Draws and takes moves until a difference shows or the lists are long enough.
fn draw_moves(rng: &mut Rng, runs: &mut TwoRuns, moves: &mut Vec<Move>) -> Result<(), Difference> {
    // How many requests of others come before a clean one, at most. None at all is worth trying.
    let busy = [0, 1, 3, 6];
    let in_first = rng.pick(&busy).unwrap_or(0);
    let in_second = rng.pick(&busy).unwrap_or(0);
    let clean_requests = rng.between(0, 20);
    for k in 0..=clean_requests {
        for _ in 0..rng.between(0, in_first) {
            let request = other_request(rng, &runs.first.table, runs.first.clean);
            take_move(runs, moves, Move::First(request))?;
        }
        for _ in 0..rng.between(0, in_second) {
            let request = other_request(rng, &runs.second.table, runs.second.clean);
            take_move(runs, moves, Move::Second(request))?;
        }
        if k < clean_requests {
            let request = clean_request(rng, &runs.first.table, runs.first.clean);
            take_move(runs, moves, Move::Both(request))?;
        }
    }
    Ok(())
}

fn take_move(runs: &mut TwoRuns, moves: &mut Vec<Move>, next: Move) -> Result<(), Difference> {
    assert!(runs.allows(&next), "a request on the wrong side: {next:?}");
    let outcome = runs.take(&next);
    moves.push(next);
    outcome
}
