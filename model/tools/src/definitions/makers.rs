//! Soundness by makers: a table of some objects where one record, of each status in turn, has each kind of
//! maker.

use super::cases::Question;
use crate::generate::{numbers_where, sound_table, Shape};
use crate::rng::Rng;
use yavrinks_model::table::{Record, ALIVE, DEAD, NO_MAKER, UNBORN};

/// How many questions there are: one for each status of the record.
pub const STATUSES: [u8; 3] = [UNBORN, ALIVE, DEAD];

/// Nobody, an alive object, a dead one, an unborn number, the object itself, and bytes that are no number.
pub fn by_makers(rng: &mut Rng, turn: usize) -> Question {
    let shape = Shape {
        born: 20,
        dead_percent: 30,
        active_percent: 50,
        stocked_percent: 30,
        filled_percent: 10,
        weak_percent: 50,
        made_percent: 50,
    };
    let status = STATUSES[turn % STATUSES.len()];
    loop {
        let table = sound_table(rng, &shape);
        let with = |status| numbers_where(&table, move |record: &Record| record.status == status);
        let others: Option<Vec<u8>> = STATUSES
            .map(|one| rng.pick(&with(one)))
            .into_iter()
            .collect();
        if let (Some(n), Some(others)) = (rng.pick(&with(status)), others) {
            let mut makers = vec![NO_MAKER, n, 0, 63, 65, 128, 255];
            makers.extend(others);
            return Question::Sound { table, n, makers };
        }
    }
}
