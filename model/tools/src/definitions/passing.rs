//! Which capabilities of a member pass: every rights value over one target, with no entry, with every single
//! one, and with some lists of several.

use super::cases::Question;
use crate::rng::Rng;
use yavrinks_model::confinement::Entry;
use yavrinks_model::table::{Capability, ALL_RIGHTS, RD, TX, WK, WR};

/// How many lists there are.
pub const PASSING_LISTS: usize = 20;

/// The rights values 0 to 15 over a random target, with the list of the turn.
pub fn passing(rng: &mut Rng, turn: usize) -> Question {
    let target = rng.byte(0, 63);
    let other = (target + rng.byte(1, 63)) % 64;
    let held = (0..=ALL_RIGHTS).map(|rights| Capability::new(target, rights));
    Question::Passing {
        list: list(target, other, turn % PASSING_LISTS),
        held: held.collect(),
    }
}

/// No entry, then each of the fifteen rights values listed: among them are all that is held, and all but
/// one right of it. Then entries of another target alone, beside and between, and several of one target.
fn list(target: u8, other: u8, turn: usize) -> Vec<Entry> {
    match turn as u8 {
        0 => Vec::new(),
        listed @ 1..=ALL_RIGHTS => vec![(target, listed)],
        16 => vec![(other, ALL_RIGHTS)],
        17 => vec![(other, WR | WK), (target, RD), (other, TX)],
        18 => vec![(target, RD), (target, WR), (target, TX)],
        _ => vec![(target, TX), (other, RD), (target, WK), (target, TX)],
    }
}
