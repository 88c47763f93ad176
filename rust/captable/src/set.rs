//! Sets of object numbers as 64 bits. A type of its own, so that a number is never taken for the set of
//! it: the members {5} are `Set::of(&[5])`, and the bits 5 would be {0, 2}.

use core::fmt;
use core::iter::FusedIterator;

use crate::OBJECTS;

/// A set of object numbers, 0 to 63. It crosses to the archive as 64 bits, bit n for number n.
///
/// ```
/// use captable::Set;
///
/// let bound = Set::of(&[2, 0, 1]);
/// assert!(bound.contains(2) && !bound.contains(3));
/// assert_eq!(bound.to_string(), "{0, 1, 2}");
/// for n in bound {
///     println!("object {n} can be influenced");
/// }
/// ```
#[repr(transparent)]
#[derive(Clone, Copy, Default, PartialEq, Eq, Hash)]
pub struct Set(u64);

impl Set {
    /// The set of no numbers.
    pub const EMPTY: Set = Set(0);

    /// The set of these numbers.
    ///
    /// # Panics
    /// If a number is above 63.
    #[must_use]
    pub const fn of(numbers: &[u8]) -> Set {
        let mut made = Set::EMPTY;
        let mut at = 0;
        while at < numbers.len() {
            made.insert(numbers[at]);
            at += 1;
        }
        made
    }

    /// The set by its bits, bit n for number n.
    #[must_use]
    pub const fn from_bits(bits: u64) -> Set {
        Set(bits)
    }

    /// The bits, bit n for number n.
    #[must_use]
    pub const fn bits(self) -> u64 {
        self.0
    }

    /// Is the number in the set? One above 63 is in none.
    #[must_use]
    pub const fn contains(self, n: u8) -> bool {
        n < OBJECTS && self.0 >> n & 1 == 1
    }

    /// Puts a number in.
    ///
    /// # Panics
    /// If the number is above 63.
    pub const fn insert(&mut self, n: u8) {
        assert!(n < OBJECTS, "a set has numbers from 0 to 63");
        self.0 |= 1 << n;
    }

    /// Takes a number out, if it is in.
    pub const fn remove(&mut self, n: u8) {
        if n < OBJECTS {
            self.0 &= !(1 << n);
        }
    }

    /// The numbers that are in either set.
    #[must_use]
    pub const fn union(self, other: Set) -> Set {
        Set(self.0 | other.0)
    }

    /// How many numbers are in the set.
    #[must_use]
    pub const fn len(self) -> usize {
        self.0.count_ones() as usize
    }

    /// Is no number in the set?
    #[must_use]
    pub const fn is_empty(self) -> bool {
        self.0 == 0
    }

    /// The numbers, ascending.
    #[must_use]
    pub const fn iter(self) -> Numbers {
        Numbers(self)
    }
}

/// The numbers of a set, ascending.
#[derive(Clone, Debug)]
pub struct Numbers(Set);

impl Iterator for Numbers {
    type Item = u8;

    fn next(&mut self) -> Option<u8> {
        if self.0.is_empty() {
            return None;
        }
        let least = self.0.bits().trailing_zeros() as u8;
        self.0.remove(least);
        Some(least)
    }

    fn size_hint(&self) -> (usize, Option<usize>) {
        (self.0.len(), Some(self.0.len()))
    }
}

impl ExactSizeIterator for Numbers {}
impl FusedIterator for Numbers {}

impl IntoIterator for Set {
    type Item = u8;
    type IntoIter = Numbers;

    fn into_iter(self) -> Numbers {
        self.iter()
    }
}

impl FromIterator<u8> for Set {
    /// # Panics
    /// If a number is above 63.
    fn from_iter<I: IntoIterator<Item = u8>>(numbers: I) -> Set {
        let mut made = Set::EMPTY;
        for n in numbers {
            made.insert(n);
        }
        made
    }
}

impl fmt::Debug for Set {
    fn fmt(&self, out: &mut fmt::Formatter<'_>) -> fmt::Result {
        fmt::Display::fmt(self, out)
    }
}

/// The numbers in braces, on one line: `{0, 1, 2}`.
impl fmt::Display for Set {
    fn fmt(&self, out: &mut fmt::Formatter<'_>) -> fmt::Result {
        out.write_str("{")?;
        for (place, n) in self.iter().enumerate() {
            let before = if place == 0 { "" } else { ", " };
            write!(out, "{before}{n}")?;
        }
        out.write_str("}")
    }
}
