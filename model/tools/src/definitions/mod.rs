//! The command `definitions`: random cases with the model's answers are written as statements of
//! antt, in a copy of the repository, and the toolchain has to prove that the definitions there
//! give the same answers.

pub mod askers;
mod by_groups;
pub mod cases;
pub mod clean;
pub mod crates;
pub mod draw;
mod heads;
mod landing;
mod makers;
pub mod misread_groups;
pub mod misread_makers;
pub mod misread_reclaim;
mod options;
mod passing;
pub mod scratch;
pub mod specs;
mod spreading;
pub mod statements;
pub mod summary;
pub mod terms;
pub mod verdicts;
mod worth;
pub mod wrong;

pub use options::Options;

use crate::rng::Rng;
use askers::askers;
use cases::Case;
use crates::case_crates;
use scratch::Scratch;
use std::collections::BTreeMap;
use std::io;
use std::time::Instant;
use verdicts::{verdicts, Verdict};
use wrong::wrong_cases;

/// Among how many modules the cases are shared out. Each takes a second or two to begin with; the more
/// there are, the better it can be told how far the toolchain is.
const MODULES: usize = 10;
const WRONG_MODULES: usize = 2;

/// What a run found.
pub struct Outcome {
    /// The summary to print.
    pub text: String,
    /// Whether every case was accepted, and every wrong answer refused.
    pub agreed: bool,
}

/// Draws the cases, has them checked in a copy of the repository, and sums up. The copy is removed
/// unless there is something to look at.
pub fn run(options: &Options) -> io::Result<Outcome> {
    let scratch = Scratch::new(&options.root, options.keep.as_deref())?;
    let outcome = compare(options, &scratch);
    let agreed = outcome.as_ref().map_or(true, |outcome| outcome.agreed);
    if agreed && options.keep.is_none() {
        scratch.remove()?;
    }
    outcome
}

fn compare(options: &Options, scratch: &Scratch) -> io::Result<Outcome> {
    let start = Instant::now();
    let drawn = draw::cases(options.seed, &options.counts);
    let wrong = wrong_cases(&mut Rng::new(options.seed), &drawn);
    let right: BTreeMap<usize, Case> = (0..).zip(drawn).collect();
    let wrong: BTreeMap<usize, Case> = (right.len()..).zip(wrong).collect();

    let below = specs::with_all_below(&scratch.crate_list()?, &heads::CRATES)?;
    let unfolding = specs::unfoldable(&scratch.folder, &below)?;
    let mut crates = case_crates("cases", MODULES, &right, &unfolding);
    crates.extend(case_crates("wrong", WRONG_MODULES, &wrong, &unfolding));
    scratch.keep_only(&below)?;
    for added in &crates {
        scratch.add_crate(added, &below)?;
    }
    let place = scratch.folder.display();
    eprintln!(
        "definitions: {} cases in {} modules, in {place}",
        right.len() + wrong.len(),
        crates.len()
    );
    let mut found = verdicts(&scratch.check(&crates, &below)?, &crates);

    let refused = found.split_off(&right.len());
    let mut text = summary::counts(&right) + &askers(&right).to_string();
    text += &summary::not_accepted(&right, &crates, &found, &scratch.folder);
    text += &summary::not_refused(&wrong, &crates, &refused, &scratch.folder);
    text += &format!("seed {}, {} s\n", options.seed, start.elapsed().as_secs());
    let agreed = found.is_empty() && wrong.keys().all(|case| is_refused(&refused, *case));
    Ok(Outcome { text, agreed })
}

/// Whether the checker found a statement wrong. No verdict is not enough.
fn is_refused(verdicts: &BTreeMap<usize, Verdict>, case: usize) -> bool {
    matches!(verdicts.get(&case), Some(Verdict::Refused(_)))
}
