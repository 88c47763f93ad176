//! How many of the cases have an empty copy, of each kind and in each file that has requests.

use super::{chain, edges, step_cases, Chain};
use crate::empty_kinds::{EmptyCounts, EmptyKind};
use crate::generate::StepCase;
use yavrinks_model::step::{step, step_in_place};

/// The counts of some steps, each on a table of its own.
pub fn in_steps(cases: &[StepCase]) -> EmptyCounts {
    let mut counts = EmptyCounts::default();
    for case in cases {
        if step(&case.table, &case.request).0 == 0 {
            counts.count(&case.table, &case.request);
        }
    }
    counts
}

/// The counts of requests on one table.
pub fn in_chain(chain: &Chain) -> EmptyCounts {
    let mut counts = EmptyCounts::default();
    let mut table = chain.start.clone();
    for request in &chain.requests {
        let before = table.clone();
        if step_in_place(&mut table, request) == 0 {
            counts.count(&before, request);
        }
    }
    counts
}

/// The counts of the steps, the chain and the edges, as a table to read.
pub fn counts_text() -> String {
    let all = [
        in_steps(&step_cases()),
        in_chain(&chain()),
        in_chain(&edges()),
    ];
    let mut text = format!(
        "{:<60}{:>8}{:>8}{:>8}\n",
        "done, by kind", "steps", "chain", "edges"
    );
    for kind in EmptyKind::ALL {
        text += &format!("{:<60}", kind.label());
        for counts in &all {
            text += &format!("{:>8}", counts.of(kind));
        }
        text += "\n";
    }
    text
}
