//! How often reclaims were met: of which kind, what they emptied and reset in the hands of others, and which numbers
//! were made again.

use std::fmt;

use yavrinks_model::step::Request;
use yavrinks_model::table::Table;
use yavrinks_tools::generate::ReclaimKind;

/// What is counted of reclaims that were done.
#[derive(Clone, Copy, Debug, PartialEq, Eq)]
pub enum Tally {
    Done,
    Kind(ReclaimKind),
    /// Slots of others that were emptied, and those among them of passive objects.
    EmptiedOfOthers,
    EmptiedOfPassive,
    /// Slots of the actor that were emptied, the used one not counted.
    EmptiedOfActor,
    /// Makers of others that became 64, and the actor's own.
    MakerReset,
    OwnMakerReset,
    /// Numbers that were made again: by who reclaimed them, and by another, who had them from it.
    Again(Again),
}

/// Who makes a number again after a reclaim.
#[derive(Clone, Copy, Debug, PartialEq, Eq)]
pub enum Again {
    BySame,
    ByOther,
}

impl Tally {
    /// The lines that are printed, in order.
    pub fn all() -> Vec<Tally> {
        let kinds = ReclaimKind::ALL.into_iter().map(Tally::Kind);
        let sums = [
            Tally::EmptiedOfOthers,
            Tally::EmptiedOfPassive,
            Tally::EmptiedOfActor,
            Tally::MakerReset,
            Tally::OwnMakerReset,
            Tally::Again(Again::BySame),
            Tally::Again(Again::ByOther),
        ];
        [Tally::Done].into_iter().chain(kinds).chain(sums).collect()
    }

    fn label(self) -> &'static str {
        match self {
            Tally::Done => "reclaim that was done",
            Tally::Kind(kind) => kind_label(kind),
            Tally::EmptiedOfOthers => "slot of another that was emptied",
            Tally::EmptiedOfPassive => "among these, of a passive object",
            Tally::EmptiedOfActor => "slot of the actor that was emptied, not the used one",
            Tally::MakerReset => "maker of another that became 64",
            Tally::OwnMakerReset => "maker of the actor that became 64",
            Tally::Again(Again::BySame) => "number made again by who reclaimed it",
            Tally::Again(Again::ByOther) => "number made again by another",
        }
    }

    fn place(self) -> usize {
        match self {
            Tally::Done => 0,
            Tally::Kind(kind) => 1 + kind as usize,
            Tally::EmptiedOfOthers => FIRST_SUM,
            Tally::EmptiedOfPassive => FIRST_SUM + 1,
            Tally::EmptiedOfActor => FIRST_SUM + 2,
            Tally::MakerReset => FIRST_SUM + 3,
            Tally::OwnMakerReset => FIRST_SUM + 4,
            Tally::Again(Again::BySame) => FIRST_SUM + 5,
            Tally::Again(Again::ByOther) => FIRST_SUM + 6,
        }
    }
}

/// The places of the kinds end here, and how many places there are.
const FIRST_SUM: usize = 1 + ReclaimKind::ALL.len();
const PLACES: usize = FIRST_SUM + 7;

fn kind_label(kind: ReclaimKind) -> &'static str {
    match kind {
        ReclaimKind::Alone => "of a number that nothing else names",
        ReclaimKind::HeldByActive => "of a number that other active objects hold",
        ReclaimKind::HeldByPassive => "of a number that other passive objects hold",
        ReclaimKind::InSeveralSlots => "of a number that another holds in several slots",
        ReclaimKind::OwnSlots => "of a number that the actor holds in several slots",
        ReclaimKind::Made => "of a number that made two others or more",
        ReclaimKind::MadeTheActor => "of a number that made the actor",
        ReclaimKind::WasMade => "of an active object's that was made",
        ReclaimKind::Zero => "of number 0",
        ReclaimKind::Last => "of number 63",
    }
}

/// How often each came.
#[derive(Clone, Debug, Default, PartialEq, Eq)]
pub struct ReclaimCounts([u64; PLACES]);

impl ReclaimCounts {
    fn add(&mut self, tally: Tally, count: usize) {
        self.0[tally.place()] += count as u64;
    }

    pub fn of(&self, tally: Tally) -> u64 {
        self.0[tally.place()]
    }

    /// Counts a request that was done on the table, if it is a reclaim.
    pub fn count(&mut self, before: &Table, request: &Request) {
        let Some((actor, target)) = reclaimed_by(before, request) else {
            return;
        };
        self.add(Tally::Done, 1);
        for kind in ReclaimKind::ALL {
            let is_so = kind.is_in(before, actor, target);
            self.add(Tally::Kind(kind), usize::from(is_so));
        }
        for n in 0..64 {
            let record = before.record(n);
            let named = record.capabilities().filter(|held| held.target == target);
            let (emptied, reset) = (named.count(), usize::from(record.maker == target));
            match n == actor {
                true => {
                    self.add(Tally::EmptiedOfActor, emptied - 1);
                    self.add(Tally::OwnMakerReset, reset);
                }
                false => {
                    self.add(Tally::EmptiedOfOthers, emptied);
                    let of_passive = if record.is_active() { 0 } else { emptied };
                    self.add(Tally::EmptiedOfPassive, of_passive);
                    self.add(Tally::MakerReset, if n == target { 0 } else { reset });
                }
            }
        }
    }

    pub fn count_again(&mut self, again: Again) {
        self.add(Tally::Again(again), 1);
    }
}

/// The actor and the target of a reclaim that was done on the table.
fn reclaimed_by(before: &Table, request: &Request) -> Option<(u8, u8)> {
    match *request {
        Request::Reclaim { actor, t } => {
            let used = before.record(actor).slots[usize::from(t)];
            Some((actor, used.target))
        }
        _ => None,
    }
}

/// The numbers that were reclaimed in a table and not made since, by who did.
#[derive(Clone, Debug)]
pub struct Reclaimed([Option<u8>; 64]);

impl Default for Reclaimed {
    fn default() -> Reclaimed {
        Reclaimed([None; 64])
    }
}

impl Reclaimed {
    /// Takes in a request that was done on the table. Does it make a number again?
    pub fn note(&mut self, before: &Table, request: &Request) -> Option<Again> {
        if let Some((actor, target)) = reclaimed_by(before, request) {
            self.0[usize::from(target)] = Some(actor);
        }
        let Request::Allocate { actor, n, .. } = *request else {
            return None;
        };
        self.0[usize::from(n)].take().map(|by| {
            if by == actor {
                Again::BySame
            } else {
                Again::ByOther
            }
        })
    }
}

impl fmt::Display for ReclaimCounts {
    fn fmt(&self, out: &mut fmt::Formatter<'_>) -> fmt::Result {
        writeln!(out, "reclaims that were done")?;
        for tally in Tally::all() {
            writeln!(out, "{:58}{:>9}", tally.label(), self.of(tally))?;
        }
        Ok(())
    }
}
