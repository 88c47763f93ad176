//! What rights are worth: every byte as a rights value, alone and over a target.

use super::cases::Question;
use crate::rng::Rng;
use yavrinks_model::table::Capability;

/// How many questions there are.
pub const WORTH_QUESTIONS: usize = 4;

/// The worth whole, the needs, and what is weakened: over 0, where the empty slot is among them, and over another
/// target.
pub fn worth(rng: &mut Rng, turn: usize) -> Question {
    let values = 0..=u8::MAX;
    let over = |target| Question::Weakening {
        held: values
            .clone()
            .map(|rights| Capability::new(target, rights))
            .collect(),
    };
    match turn % WORTH_QUESTIONS {
        0 => Question::Worth {
            values: values.collect(),
        },
        1 => Question::Needs {
            values: values.collect(),
        },
        2 => over(0),
        _ => over(rng.byte(1, 63)),
    }
}
