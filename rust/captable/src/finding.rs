//! What an accepted test found.

use crate::{raw, Set};

/// What an accepted [test](crate::Table::test) found: whom the members can influence, and how far that spreads.
#[derive(Clone, Copy, Debug, PartialEq, Eq)]
pub struct Finding {
    /// The non-members that the members can ever influence. Worked from the list, and not from what the members
    /// hold.
    pub bound: Set,
    /// In how many rounds that influence spreads. Round one adds the objects one link from the stand-in, which is in
    /// the place of all members and holds exactly the list; each later round adds the objects one link from what is
    /// there. Counted are the rounds that add an object, and after the last of them the bound is there.
    ///
    /// So this is the number of links of the longest [chain](crate::Table::chain) to an object of the bound: 0 for an
    /// empty bound, and at most [`MAX_LINKS`](crate::MAX_LINKS).
    pub rounds: u8,
}

impl Finding {
    /// The finding of a test that is no refusal.
    pub(crate) fn new(found: &raw::Finding) -> Finding {
        Finding {
            bound: Set::from_bits(found.bound),
            rounds: found.rounds,
        }
    }
}
