//! How many rounds, 2.6 of document 02: what comes to be there round by round, for an accepted test.
//! Rounds go along links alone, apart from the way in which `confinement` has the bound.

use crate::confinement::Entry;
use crate::set;
use crate::table::Table;
use crate::test_links::{links, Link, STAND_IN};

/// The objects that are there after each round that added one. At first none is there.
pub fn rounds(table: &Table, members: u64, list: &[Entry]) -> Vec<u64> {
    let links = links(table, members, list);
    let mut rounds = Vec::new();
    let mut there = 0;
    let mut further = objects_one_link_from(&links, |point| point == STAND_IN);
    while !set::is_within(further, there) {
        there |= further;
        rounds.push(there);
        further = objects_one_link_from(&links, |point| set::contains(there, point));
    }
    rounds
}

/// The objects one link from a point that is among the starts. The stand-in is no object.
fn objects_one_link_from(links: &[Link], is_start: impl Fn(u8) -> bool) -> u64 {
    let starting = links.iter().filter(|(from, _)| is_start(*from));
    set::of(starting.map(|(_, to)| to).filter(|&&to| to != STAND_IN))
}
