//! The chain that is shown: how an object comes to be in the bound of a test.

use core::fmt;
use core::iter::Copied;
use core::slice::Iter;

use crate::raw;

/// The most links that a chain has, so the most numbers in it and the most rounds of a test.
pub const MAX_LINKS: usize = 63;

/// A chain of links from the stand-in, which is in the place of all members, to an object of the bound:
/// the object numbers in turn, the stand-in left out and the object last. See
/// [`Table::chain`](crate::Table::chain).
#[derive(Clone, Copy, PartialEq, Eq)]
pub struct Chain {
    // Zero after the count, so that equal chains are equal values.
    numbers: [u8; MAX_LINKS],
    count: usize,
}

impl Chain {
    /// The chain of an answer that is no refusal.
    pub(crate) fn new(shown: &raw::Shown) -> Chain {
        Chain {
            numbers: shown.numbers,
            count: usize::from(shown.count),
        }
    }

    /// The numbers, from the stand-in's end on.
    #[must_use]
    pub fn as_slice(&self) -> &[u8] {
        &self.numbers[..self.count]
    }

    /// The numbers one by one, from the stand-in's end on.
    pub fn iter(&self) -> Copied<Iter<'_, u8>> {
        self.as_slice().iter().copied()
    }
}

impl<'a> IntoIterator for &'a Chain {
    type Item = u8;
    type IntoIter = Copied<Iter<'a, u8>>;

    fn into_iter(self) -> Copied<Iter<'a, u8>> {
        self.iter()
    }
}

impl fmt::Debug for Chain {
    fn fmt(&self, out: &mut fmt::Formatter<'_>) -> fmt::Result {
        self.as_slice().fmt(out)
    }
}

/// The numbers with arrows between them, on one line: `1 -> 2`.
impl fmt::Display for Chain {
    fn fmt(&self, out: &mut fmt::Formatter<'_>) -> fmt::Result {
        for (place, n) in self.iter().enumerate() {
            let before = if place == 0 { "" } else { " -> " };
            write!(out, "{before}{n}")?;
        }
        Ok(())
    }
}
