//! The list of a send or an allocate: at most four pairs, held in place, so that a request borrows nothing.

use core::error::Error;
use core::fmt;

/// The most pairs that a list may have.
pub const MAX_PAIRS: usize = 4;

/// A pair of a list: the actor's slot, the destination slot.
pub type Pair = (u8, u8);

/// A list of 0 to 4 pairs. An array of so many is one by `into()`; of a slice, whose length may be too
/// great, `try_from` makes one.
///
/// Pairs apply left to right and read the actor's slots as they were before the request. A later one to the
/// same slot wins only if its copy is not empty: see [empty copies](crate#empty-copies).
///
/// ```
/// use captable::PairList;
///
/// assert_eq!(PairList::from([(0, 6), (1, 5)]).as_slice(), [(0, 6), (1, 5)]);
/// assert!(PairList::try_from(&[(0, 0); 5][..]).is_err());
/// ```
#[derive(Clone, Copy, Default, PartialEq, Eq)]
pub struct PairList {
    // (0, 0) after the count, so that equal lists are equal values.
    pairs: [Pair; MAX_PAIRS],
    count: usize,
}

impl PairList {
    /// The list of no pairs.
    pub const EMPTY: PairList = PairList {
        pairs: [(0, 0); MAX_PAIRS],
        count: 0,
    };

    /// The pairs, in the order in which they are copied.
    #[must_use]
    pub fn as_slice(&self) -> &[Pair] {
        &self.pairs[..self.count]
    }

    /// The list by its count and its bytes, two for each pair; none if these do not fit together.
    pub(crate) fn from_bytes(count: u8, bytes: &[u8]) -> Option<PairList> {
        let count = usize::from(count);
        if count > MAX_PAIRS || bytes.len() != 2 * count {
            return None;
        }
        let mut made = PairList {
            count,
            ..PairList::EMPTY
        };
        for (pair, two) in made.pairs.iter_mut().zip(bytes.chunks_exact(2)) {
            *pair = (two[0], two[1]);
        }
        Some(made)
    }
}

impl TryFrom<&[Pair]> for PairList {
    type Error = TooManyPairs;

    fn try_from(pairs: &[Pair]) -> Result<PairList, TooManyPairs> {
        let mut made = PairList::EMPTY;
        made.count = pairs.len();
        made.pairs
            .get_mut(..pairs.len())
            .ok_or(TooManyPairs)?
            .copy_from_slice(pairs);
        Ok(made)
    }
}

macro_rules! from_arrays {
    ($($length:literal)*) => {$(
        impl From<[Pair; $length]> for PairList {
            fn from(given: [Pair; $length]) -> PairList {
                let mut made = PairList::EMPTY;
                made.count = $length;
                made.pairs[..$length].copy_from_slice(&given);
                made
            }
        }
    )*};
}
from_arrays! { 0 1 2 3 4 }

impl fmt::Debug for PairList {
    fn fmt(&self, out: &mut fmt::Formatter<'_>) -> fmt::Result {
        self.as_slice().fmt(out)
    }
}

/// More pairs than [`MAX_PAIRS`]. As bytes such a list is refused by 2.
#[derive(Clone, Copy, Debug, PartialEq, Eq)]
pub struct TooManyPairs;

impl fmt::Display for TooManyPairs {
    fn fmt(&self, out: &mut fmt::Formatter<'_>) -> fmt::Result {
        write!(out, "a list has at most {MAX_PAIRS} pairs")
    }
}

impl Error for TooManyPairs {}
