//! Tests in layers, so that they take many rounds: what the test brings back, and what is there after some rounds.

use super::cases::Question;
use crate::generate::layered_case;
use crate::rng::Rng;

/// How many objects each round adds. The last takes as many rounds as there can be; small ones come first, since wrong
/// answers are made of these, which the checker takes long to refuse.
const WIDTHS: [&[usize]; 5] = [&[4, 4, 4], &[2, 3, 2, 3], &[3], &[1; 12], &[1; 63]];

/// How many questions there are.
pub const SPREADINGS: usize = 2 * WIDTHS.len();

/// Of each widths the test; then, of another test, what is there before the first round, after it, before and after
/// the last one, and a round later.
pub fn spreading(rng: &mut Rng, turn: usize) -> Question {
    let widths = WIDTHS[turn / 2 % WIDTHS.len()];
    let test = layered_case(rng, widths).test;
    let last = widths.len();
    match turn % 2 {
        0 => Question::Test(test),
        _ => Question::There {
            test,
            after: vec![0, 1, last - 1, last, last + 1],
        },
    }
}
