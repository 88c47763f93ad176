//! Potential access as the proved code answers it: 256 sets of numbers.

use yavrinks_model::access::Access;
use yavrinks_model::set;
use yavrinks_model::table::{RD, TX, WK, WR};

/// For rd, wr, wk and tx, and for each holder in number order, the numbers over which the holder has
/// the right.
pub fn rows(access: &Access) -> Vec<u64> {
    let rights = [RD, WR, WK, TX].into_iter();
    rights
        .flat_map(|right| (0..64).map(move |holder| row(access, right, holder)))
        .collect()
}

/// The numbers over which the holder has the right.
pub fn row(access: &Access, right: u8, holder: u8) -> u64 {
    let rights = access.rights[usize::from(holder)];
    set::of((0..64).filter(|&target: &u8| rights[usize::from(target)] & right != 0))
}
