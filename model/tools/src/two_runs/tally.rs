//! Counts of what a trial did, so that a reader sees whether the claim had anything to bite on.

use crate::copies::copies;
use yavrinks_model::set;
use yavrinks_model::step::{Code, Request};
use yavrinks_model::table::Table;

/// Who makes a request, at the moment when it is made.
#[derive(Clone, Copy, Debug, PartialEq, Eq)]
pub enum Actor {
    Clean,
    Member,
    Bound,
    /// Made in the course of the run by an object that is not clean.
    MadeByOthers,
    Unborn,
    /// Above 63.
    NoNumber,
}

impl Actor {
    pub const ALL: [Actor; 6] = [
        Actor::Clean,
        Actor::Member,
        Actor::Bound,
        Actor::MadeByOthers,
        Actor::Unborn,
        Actor::NoNumber,
    ];
}

/// How often something was done and refused.
#[derive(Clone, Copy, Debug, Default, PartialEq, Eq)]
pub struct Count {
    pub done: u64,
    pub refused: u64,
}

impl Count {
    /// Done or refused.
    pub fn all(self) -> u64 {
        self.done + self.refused
    }

    fn add(&mut self, more: Count) {
        self.done += more.done;
        self.refused += more.refused;
    }
}

/// Copies that came out empty in requests that were done.
#[derive(Clone, Copy, Debug, Default, PartialEq, Eq)]
pub struct EmptyCopies {
    pub all: u64,
    /// Those to a slot that was filled before the request.
    pub on_filled: u64,
    pub weakened_to_nothing: u64,
    /// Those from a slot of a clean object.
    pub of_clean: u64,
}

impl EmptyCopies {
    fn count(&mut self, before: &Table, request: &Request, clean: u64) {
        for copied in copies(before, request) {
            let slot = before.record(copied.holder).slots[usize::from(copied.slot)];
            let one = u64::from(copied.is_empty());
            self.add(EmptyCopies {
                all: one,
                on_filled: one * u64::from(!slot.is_empty()),
                weakened_to_nothing: u64::from(copied.is_weakened_to_nothing()),
                of_clean: one * u64::from(set::contains(clean, copied.source)),
            });
        }
    }

    fn add(&mut self, more: EmptyCopies) {
        self.all += more.all;
        self.on_filled += more.on_filled;
        self.weakened_to_nothing += more.weakened_to_nothing;
        self.of_clean += more.of_clean;
    }
}

/// Numbers that were made anew after a reclaim, by who made them.
#[derive(Clone, Copy, Debug, Default, PartialEq, Eq)]
pub struct Anew {
    /// By the object that reclaimed them.
    pub by_same: u64,
    /// By another.
    pub by_another: u64,
    /// Those that were clean before and are not now, or the other way round.
    pub crossed: u64,
}

impl Anew {
    fn add(&mut self, more: Anew) {
        self.by_same += more.by_same;
        self.by_another += more.by_another;
        self.crossed += more.crossed;
    }
}

/// Requests by actor and code. The codes are 1 to 9; at 0 stand all others.
#[derive(Clone, Debug, Default, PartialEq, Eq)]
pub struct Tally {
    counts: [[Count; 10]; 6],
    /// Requests that others got done through a capability over a clean object.
    pub of_clean_by_others: u64,
    /// Among these, what members got done through wk alone that they held unlisted at the start.
    pub unlisted_reads: u64,
    pub unlisted_fetches: u64,
    pub empty_by_clean: EmptyCopies,
    pub empty_by_others: EmptyCopies,
    /// Reclaims of a number over which another object held a capability.
    pub reclaimed_held: u64,
    /// Those where an object of the other side did, clean or not.
    pub reclaimed_held_across: u64,
    /// Reclaims that took a maker byte from a clean object.
    pub makers_taken: u64,
    pub anew_by_clean: Anew,
    pub anew_by_others: Anew,
}

fn row_of(code: u8) -> usize {
    Code::of(code).map_or(0, |known| usize::from(known.number()))
}

impl Tally {
    /// Counts one request.
    pub fn count(&mut self, actor: Actor, code: u8, done: bool) {
        self.counts[actor as usize][row_of(code)].add(Count {
            done: u64::from(done),
            refused: u64::from(!done),
        });
    }

    /// Counts the empty copies of a request that was done on this table.
    pub fn count_empty(&mut self, actor: Actor, before: &Table, request: &Request, clean: u64) {
        match actor {
            Actor::Clean => self.empty_by_clean.count(before, request, clean),
            _ => self.empty_by_others.count(before, request, clean),
        }
    }

    /// Counts a reclaim of a number that was done on this table.
    pub fn count_reclaim(&mut self, before: &Table, actor: u8, target: u8, clean: u64) {
        let holds = |&n: &u8| {
            let mut held = before.record(n).capabilities();
            n != actor && held.any(|held| held.target == target)
        };
        let side = |n: u8| set::contains(clean, n);
        let mut holders = (0..64).filter(holds).peekable();
        self.reclaimed_held += u64::from(holders.peek().is_some());
        self.reclaimed_held_across += u64::from(holders.any(|n| side(n) != side(actor)));
        let mut of_clean = set::numbers(clean).map(|n| before.record(n).maker);
        self.makers_taken += u64::from(of_clean.any(|maker| maker == target));
    }

    /// Counts a number that is made anew: whether its maker is clean, reclaimed it itself, and whether it was clean
    /// before.
    pub fn count_anew(&mut self, by_clean: bool, by_same: bool, was_clean: bool) {
        let anew = match by_clean {
            true => &mut self.anew_by_clean,
            false => &mut self.anew_by_others,
        };
        anew.add(Anew {
            by_same: u64::from(by_same),
            by_another: u64::from(!by_same),
            crossed: u64::from(by_clean != was_clean),
        });
    }

    /// Adds the counts of another tally.
    pub fn add(&mut self, other: &Tally) {
        self.of_clean_by_others += other.of_clean_by_others;
        self.unlisted_reads += other.unlisted_reads;
        self.unlisted_fetches += other.unlisted_fetches;
        self.empty_by_clean.add(other.empty_by_clean);
        self.empty_by_others.add(other.empty_by_others);
        self.reclaimed_held += other.reclaimed_held;
        self.reclaimed_held_across += other.reclaimed_held_across;
        self.makers_taken += other.makers_taken;
        self.anew_by_clean.add(other.anew_by_clean);
        self.anew_by_others.add(other.anew_by_others);
        let own = self.counts.iter_mut().flatten();
        for (count, more) in own.zip(other.counts.iter().flatten()) {
            count.add(*more);
        }
    }

    /// Whether a member read or fetched so.
    pub fn used_unlisted(&self) -> bool {
        self.unlisted_reads + self.unlisted_fetches != 0
    }

    /// Requests with a code of clean actors, and of all others.
    pub fn by_code(&self, code: u8) -> (Count, Count) {
        let row = row_of(code);
        let (clean, others) = self.counts.split_at(1);
        let mut by_others = Count::default();
        for counts in others {
            by_others.add(counts[row]);
        }
        (clean[0][row], by_others)
    }

    /// Requests of an actor with any code.
    pub fn by_actor(&self, actor: Actor) -> Count {
        let mut sum = Count::default();
        for count in self.counts[actor as usize] {
            sum.add(count);
        }
        sum
    }
}
