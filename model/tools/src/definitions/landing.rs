//! Where copies land: an empty one and one of each rights value, on a filled slot and on an empty one.

use super::cases::Question;
use crate::rng::Rng;
use yavrinks_model::table::{Capability, ALL_RIGHTS};

/// How many lists of copies there are.
pub const LANDINGS: usize = 4;

/// The empty copy and the rights values 1 to 15 over a target. That is 0 in the first two turns, where the
/// empty copy differs from the others in its rights alone; the slot is filled in every second turn.
pub fn landing(rng: &mut Rng, turn: usize) -> Question {
    let target = match turn % LANDINGS {
        0 | 1 => 0,
        _ => rng.byte(1, 63),
    };
    let other = (target + rng.byte(1, 63)) % 64;
    let held = match turn % 2 {
        0 => Capability::new(other, rng.byte(1, ALL_RIGHTS)),
        _ => Capability::EMPTY,
    };
    let filled = (1..=ALL_RIGHTS).map(|rights| Capability::new(target, rights));
    Question::Landing {
        held,
        copies: [Capability::EMPTY].into_iter().chain(filled).collect(),
    }
}
