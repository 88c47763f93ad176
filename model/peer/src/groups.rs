//! The groups of a table, and whether wk leads from one to another, for what is counted and printed.

use yavrinks_model::set;
use yavrinks_model::table::{Table, RD, TX, WK, WR};

/// The groups of a sound table: sets of born objects that rd, wr or tx join, in either direction and through others.
pub fn groups_of(table: &Table) -> Vec<u64> {
    groups_among(table, table.born())
}

/// The groups that these objects make by what they hold over one another.
pub fn groups_among(table: &Table, objects: u64) -> Vec<u64> {
    let mut groups: Vec<u64> = set::numbers(objects).map(set::single).collect();
    for n in set::numbers(objects) {
        for held in table.record(n).capabilities() {
            if held.has_any(RD | WR | TX) && set::contains(objects, held.target) {
                join(&mut groups, set::of([n, held.target]));
            }
        }
    }
    groups
}

/// Makes one group of those that have one of the objects.
fn join(groups: &mut Vec<u64>, objects: u64) {
    let mut joined = 0;
    groups.retain(|group| {
        let apart = group & objects == 0;
        joined |= if apart { 0 } else { *group };
        apart
    });
    groups.push(joined);
}

/// Whether an object of one of the groups holds wk over one of another.
pub fn wk_between(table: &Table, groups: &[u64]) -> bool {
    let all = groups.iter().fold(0, |all, group| all | group);
    groups.iter().any(|&group| {
        let others = all & !group;
        set::numbers(group).any(|n| {
            let mut held = table.record(n).capabilities();
            held.any(|held| held.has_any(WK) && set::contains(others, held.target))
        })
    })
}
