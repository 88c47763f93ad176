//! Potential access, answered whole.

use crate::{Set, OBJECTS};

/// A right by its place in the relation.
#[derive(Clone, Copy, Debug, PartialEq, Eq)]
pub enum Right {
    /// To read.
    Rd = 0,
    /// To write.
    Wr = 1,
    /// The weak right.
    Wk = 2,
    /// To send.
    Tx = 3,
}

/// Potential access of a sound table. It has 2 KB, and so is copied by `clone` alone.
#[derive(Clone, Debug, PartialEq, Eq)]
pub struct Relation {
    rows: [u64; 256],
}

impl Relation {
    pub(crate) fn new(rows: [u64; 256]) -> Relation {
        Relation { rows }
    }

    /// The objects over which the holder can come to have the right.
    ///
    /// # Panics
    /// If the holder is above 63.
    #[must_use]
    pub fn over(&self, holder: u8, right: Right) -> Set {
        assert!(holder < OBJECTS, "there is no object {holder}");
        let row = right as usize * usize::from(OBJECTS) + usize::from(holder);
        Set::from_bits(self.rows[row])
    }

    /// Can the holder come to have the right over the target?
    ///
    /// # Panics
    /// If the holder or the target is above 63.
    #[must_use]
    pub fn has(&self, holder: u8, right: Right, target: u8) -> bool {
        assert!(target < OBJECTS, "there is no object {target}");
        self.over(holder, right).contains(target)
    }
}
