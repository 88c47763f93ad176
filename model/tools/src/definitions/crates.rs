//! Crates of cases. Each is one module of antt, so that the toolchain says of each when it is done.

use super::cases::Case;
use super::heads::HEAD;
use super::statements::declarations;
use std::collections::BTreeMap;

/// A crate that holds one module of cases.
#[derive(Clone, Debug, PartialEq, Eq)]
pub struct CaseCrate {
    pub name: String,
    /// The text of its module.
    pub text: String,
    /// The numbers of the cases that it states.
    pub cases: Vec<usize>,
}

impl CaseCrate {
    /// The file of its module, in the repository.
    pub fn file(&self) -> String {
        format!("crates/{}/proofs/Cases.antt", self.name)
    }
}

/// Shares the cases out among so many crates, in turn, so that each gets its part of what takes long.
/// `unfolding` are the names that the checker has to look into.
pub fn case_crates(
    stem: &str,
    count: usize,
    cases: &BTreeMap<usize, Case>,
    unfolding: &str,
) -> Vec<CaseCrate> {
    let mut crates: Vec<CaseCrate> = (0..count.min(cases.len()))
        .map(|k| CaseCrate {
            name: format!("{stem}_{k:02}"),
            text: HEAD.to_string(),
            cases: Vec::new(),
        })
        .collect();
    for (k, (&number, case)) in cases.iter().enumerate() {
        let place = k % crates.len();
        crates[place].text += "\n";
        crates[place].text += &declarations(case, number, unfolding);
        crates[place].cases.push(number);
    }
    crates
}
