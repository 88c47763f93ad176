//! The tables that the requests run on: each starts sound or unsound, is changed by the requests, and
//! some are damaged on the way.

use yavrinks_model::table::{Capability, Table, ALL_RIGHTS, WR};
use yavrinks_tools::generate::{any_damage, any_sound_table, sound_table, Shape};
use yavrinks_tools::rng::Rng;

use super::steps::Twin;
use crate::samples::{busy_table, filled_table};

/// A table on both sides, and for how many more requests it is used.
pub struct Course {
    pub twin: Twin,
    /// Requests until the next start table.
    left: u64,
    /// Damage comes when so many requests are left; none for a course without damage.
    damage_at: Option<u64>,
}

impl Course {
    pub fn new(rng: &mut Rng) -> Course {
        let mut table = start_table(rng);
        if rng.percent(10) {
            spoil(rng, &mut table);
            return Course {
                twin: Twin::new(table),
                left: rng.between(20, 150),
                damage_at: None,
            };
        }
        let left = rng.between(50, 800);
        Course {
            twin: Twin::new(table),
            left,
            damage_at: rng.percent(30).then(|| rng.between(5, 50)),
        }
    }

    /// Makes the table ready for the next request: a new one if this is used up, damage if it is due.
    pub fn advance(&mut self, rng: &mut Rng) {
        if self.left == 0 {
            *self = Course::new(rng);
        }
        if self.damage_at == Some(self.left) {
            self.twin.change(|table| spoil(rng, table));
        }
        self.left -= 1;
    }
}

/// A sound table; in most, some objects hold wr over themselves, so that 8 is met.
fn start_table(rng: &mut Rng) -> Table {
    let mut table = match rng.between(0, 19) {
        0 => Table::k(),
        1 => busy_table(),
        2 => filled_table(),
        3..=5 => any_sound_table(rng),
        _ => {
            let shape = Shape::mixed(rng);
            sound_table(rng, &shape)
        }
    };
    for _ in 0..rng.between(0, 12) {
        let (n, j) = (rng.byte(0, 63), rng.between(0, 7) as usize);
        if table.record(n).is_alive() {
            let rights = rng.byte(0, ALL_RIGHTS) | WR;
            table.record_mut(n).slots[j] = Capability::new(n, rights);
        }
    }
    table
}

/// Damage that offends a clause, or any value in any field, which may leave the table sound.
fn spoil(rng: &mut Rng, table: &mut Table) {
    if table.is_sound() && rng.percent(60) {
        return any_damage(rng, table);
    }
    for _ in 0..rng.between(1, 3) {
        put_anything(rng, table);
    }
}

/// Any value in any one field.
pub fn put_anything(rng: &mut Rng, table: &mut Table) {
    let (field, place, value) = (rng.between(0, 6), rng.between(0, 7) as usize, rng.bits());
    let record = table.record_mut(rng.byte(0, 63));
    match field {
        0 => record.status = value as u8 % 5,
        1 => record.kind = value as u8 % 4,
        2 => record.word = value as u32,
        3 => record.stock |= 1 << (value % 64),
        4 => record.slots[place].target = value as u8,
        5 => record.maker = value as u8 % 70,
        _ => record.slots[place].rights = value as u8 % 32,
    }
}
