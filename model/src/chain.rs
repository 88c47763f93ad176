//! Show me the chain, 2.1 of document 02: how an object comes to be in the bound of an accepted test.
//! Chains are followed from the stand-in onwards, one link at a time. An object is reached first by its
//! shortest chains, and keeps of these the one that comes first.

use std::collections::BTreeMap;

use crate::confinement::{confinement_test, Entry};
use crate::refusal::Refusal;
use crate::set;
use crate::table::Table;
use crate::test_links::{links, Link, STAND_IN};

/// Points, each with a chain's object numbers from the stand-in to it, the stand-in left out.
type Chains = BTreeMap<u8, Vec<u8>>;

/// The chain that is shown: 0 and its object numbers in turn, the object's own last, or the refusal
/// number and no chain.
pub fn chain(table: &Table, members: u64, list: &[Entry], object: u8) -> (u8, Vec<u8>) {
    let tested = confinement_test(table, members, list);
    if tested.number != 0 {
        return (tested.number, Vec::new());
    }
    if let Err(refusal) = check(table, members, tested.bound, object) {
        return (refusal.number(), Vec::new());
    }
    let mut chains = first_chains(&links(table, members, list));
    let shown = chains.remove(&object);
    (0, shown.expect("a chain exists for each bound object"))
}

/// The checks after those of the test, in number order.
fn check(table: &Table, members: u64, bound: u64, object: u8) -> Result<(), Refusal> {
    if !table.is_born(object) || set::contains(members, object) {
        return Err(Refusal::ObjectNotBornNonMember);
    }
    if !set::contains(bound, object) {
        return Err(Refusal::ObjectOutsideBound);
    }
    Ok(())
}

/// The first of the shortest chains to every point that the stand-in leads to.
fn first_chains(links: &[Link]) -> Chains {
    let mut reached = Chains::from([(STAND_IN, Vec::new())]);
    loop {
        let further = one_link_further(&reached, links);
        if further.is_empty() {
            return reached;
        }
        reached.extend(further);
    }
}

/// The points one link from a point that is reached, and not reached themselves. Such a link starts
/// in the layer that was added last, so all chains here are of one length. Lists compare from their
/// first number, which is at the stand-in's end.
fn one_link_further(reached: &Chains, links: &[Link]) -> Chains {
    let mut further = Chains::new();
    for (from, to) in links {
        if let (Some(before), None) = (reached.get(from), reached.get(to)) {
            let longer = [before.as_slice(), &[*to]].concat();
            let first = further.entry(*to).or_insert_with(|| longer.clone());
            if longer < *first {
                *first = longer;
            }
        }
    }
    further
}
