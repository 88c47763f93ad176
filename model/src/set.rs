//! Sets of object numbers held as 64 bits: bit n stands for number n.
//! Stocks, members and bounds all use this form.

use std::borrow::Borrow;

/// The set that holds `n` alone. `n` is at most 63.
pub fn single(n: u8) -> u64 {
    1 << n
}

/// The set of the numbers given, each at most 63.
pub fn of(numbers: impl IntoIterator<Item = impl Borrow<u8>>) -> u64 {
    let numbers = numbers.into_iter();
    numbers.fold(0, |set, n| set | single(*n.borrow()))
}

/// Whether `n` is in the set. A number above 63 is in no set.
pub fn contains(set: u64, n: u8) -> bool {
    n < 64 && set & single(n) != 0
}

/// Whether every number of `part` is in `whole`.
pub fn is_within(part: u64, whole: u64) -> bool {
    part & !whole == 0
}

/// The numbers of the set in ascending order.
pub fn numbers(set: u64) -> impl Iterator<Item = u8> {
    (0..64).filter(move |&n| contains(set, n))
}
