//! The links of a confinement test, as 2.1 of document 02 describes them. They lead from point to point:
//! the points are the 64 numbers and the stand-in.

use crate::confinement::Entry;
use crate::set;
use crate::table::{Capability, Table, RD, TX, WK, WR};

/// The point of the stand-in: a number that no object has.
pub const STAND_IN: u8 = 64;

/// One link, from a point to a point.
pub type Link = (u8, u8);

/// The links of every capability held by a non-member, and of every one listed. No record of a
/// member is read.
pub fn links(table: &Table, members: u64, list: &[Entry]) -> Vec<Link> {
    let mut links = Vec::new();
    for n in set::numbers(!members) {
        for held in table.record(n).capabilities() {
            links.extend(links_of(n, held));
        }
    }
    for &(target, rights) in list {
        links.extend(links_of(STAND_IN, Capability::new(target, rights)));
    }
    links
}

/// The links of one capability: rd, wr or tx taken either way, wk taken from target to holder.
pub fn links_of(holder: u8, held: Capability) -> Vec<Link> {
    let mut links = Vec::new();
    if held.has_any(RD | WR | TX) {
        links.push((holder, held.target));
    }
    if held.has_any(RD | WR | TX | WK) {
        links.push((held.target, holder));
    }
    links
}
