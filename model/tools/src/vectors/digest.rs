//! A short number for many bytes: a polynomial over them, modulo the largest prime below 2 ^ 32.
//! The program `vectors` works the same number out, so that a line can stand for a whole table.

use crate::rows::rows;
use yavrinks_model::access::Access;
use yavrinks_model::links::Links;
use yavrinks_model::table::Table;

/// The digest of bytes.
pub fn of_bytes(bytes: &[u8]) -> u64 {
    bytes.iter().fold(2166136261, |digest, &byte| {
        ((digest + u64::from(byte)) * 16777619 + 1) % 4294967291
    })
}

/// The digest of a table: status, kind, word, stock, slots and maker of each record in number order.
pub fn of_table(table: &Table) -> u64 {
    of_bytes(&super::layout::table(table))
}

/// The digest of a relation: its rows.
pub fn of_relation(access: &Access) -> u64 {
    of_sets(&rows(access))
}

/// The digest of links: the numbers one link from each number.
pub fn of_links(links: &Links) -> u64 {
    of_sets(&links.from)
}

fn of_sets(sets: &[u64]) -> u64 {
    let bytes: Vec<u8> = sets.iter().flat_map(|set| set.to_be_bytes()).collect();
    of_bytes(&bytes)
}

/// A digest as it is printed.
pub fn text(digest: u64) -> String {
    format!("{digest:08x}")
}
