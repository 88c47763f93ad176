//! Random sound tables of chosen shape, and damage that makes a table unsound.
//! Most kinds of damage offend one clause alone, so that a missing check shows.

use crate::rng::Rng;
use yavrinks_model::image::Version;
use yavrinks_model::set;
use yavrinks_model::table::{Capability, Record, Table};
use yavrinks_model::table::{ACTIVE, ALIVE, ALL_RIGHTS, DEAD, NO_MAKER, PASSIVE, UNBORN, WK};

/// How full a random table is.
#[derive(Clone, Debug)]
pub struct Shape {
    /// How many numbers are born.
    pub born: usize,
    /// How many of 100 born objects are dead.
    pub dead_percent: u64,
    /// How many of 100 born objects are active.
    pub active_percent: u64,
    /// How many of 100 unborn numbers are in a stock.
    pub stocked_percent: u64,
    /// How many of 100 slots of alive objects are filled.
    pub filled_percent: u64,
    /// How many of 100 filled slots have wk alone.
    pub weak_percent: u64,
    /// How many of 100 born objects have a maker.
    pub made_percent: u64,
}

impl Shape {
    /// Any shape, from empty to full.
    pub fn random(rng: &mut Rng) -> Shape {
        let (low, high) = rng
            .pick(&[
                (0, 2),
                (3, 10),
                (3, 10),
                (11, 40),
                (11, 40),
                (41, 63),
                (64, 64),
            ])
            .unwrap_or((0, 64));
        Shape {
            born: rng.between(low, high) as usize,
            dead_percent: rng.pick(&[0, 10, 40, 90]).unwrap_or(0),
            active_percent: rng.pick(&[0, 50, 80, 100]).unwrap_or(50),
            stocked_percent: rng.pick(&[0, 30, 80, 100]).unwrap_or(30),
            filled_percent: rng.pick(&[0, 5, 15, 40, 80, 100]).unwrap_or(15),
            weak_percent: rng.pick(&[0, 30, 70, 95]).unwrap_or(30),
            made_percent: rng.pick(&[0, 30, 90]).unwrap_or(30),
        }
    }

    /// A shape with objects of every status and kind, for cases that need them.
    pub fn mixed(rng: &mut Rng) -> Shape {
        Shape {
            born: rng.between(5, 50) as usize,
            dead_percent: rng.between(5, 30),
            active_percent: rng.between(40, 80),
            stocked_percent: rng.between(30, 90),
            filled_percent: rng.pick(&[5, 15, 40, 90]).unwrap_or(15),
            weak_percent: rng.pick(&[10, 50, 90]).unwrap_or(50),
            made_percent: rng.pick(&[0, 20, 60]).unwrap_or(20),
        }
    }
}

/// A sound table of any shape.
pub fn any_sound_table(rng: &mut Rng) -> Table {
    let shape = Shape::random(rng);
    sound_table(rng, &shape)
}

/// A sound table of the given shape.
pub fn sound_table(rng: &mut Rng, shape: &Shape) -> Table {
    let mut order: Vec<u8> = (0..64).collect();
    if rng.percent(60) {
        rng.shuffle(&mut order);
    }
    let (born, unborn) = order.split_at(shape.born.min(64));
    let mut table = Table::unborn();
    for &n in born {
        *table.record_mut(n) = born_record(rng, shape, born);
    }
    share_stocks(rng, shape, &mut table, unborn);
    for &n in born {
        if rng.percent(shape.made_percent) {
            table.record_mut(n).maker = any_maker(rng, n, born);
        }
    }
    table
}

/// A maker of `n`: now and then itself, else any of `born`, dead or alive.
pub fn any_maker(rng: &mut Rng, n: u8, born: &[u8]) -> u8 {
    let other = rng.pick(born).filter(|_| rng.percent(90));
    other.unwrap_or(n)
}

/// The table with 64 throughout as the maker, as version 1 of an image has it.
pub fn without_makers(table: &Table) -> Table {
    let mut older = table.clone();
    for record in &mut older.records {
        record.maker = NO_MAKER;
    }
    older
}

/// A dead record, or an alive one whose slots name objects of `born`.
fn born_record(rng: &mut Rng, shape: &Shape, born: &[u8]) -> Record {
    let mut record = Record::UNBORN;
    record.status = if rng.percent(shape.dead_percent) {
        DEAD
    } else {
        ALIVE
    };
    record.kind = if rng.percent(shape.active_percent) {
        ACTIVE
    } else {
        PASSIVE
    };
    if record.is_alive() {
        record.word = any_word(rng);
        for slot in &mut record.slots {
            if rng.percent(shape.filled_percent) {
                *slot = random_capability(rng, shape, born);
            }
        }
    }
    record
}

fn random_capability(rng: &mut Rng, shape: &Shape, born: &[u8]) -> Capability {
    let rights = if rng.percent(shape.weak_percent) {
        WK
    } else {
        rng.byte(1, ALL_RIGHTS)
    };
    match rng.pick(born) {
        Some(target) => Capability::new(target, rights),
        None => Capability::EMPTY,
    }
}

/// Gives a share of the unborn numbers to stocks of alive objects, each number to one.
fn share_stocks(rng: &mut Rng, shape: &Shape, table: &mut Table, unborn: &[u8]) {
    let alive = numbers_where(table, Record::is_alive);
    for &n in unborn {
        if rng.percent(shape.stocked_percent) {
            if let Some(owner) = rng.pick(&alive) {
                table.record_mut(owner).stock |= set::single(n);
            }
        }
    }
}

/// A small word or any word. Small ones make equal words likely.
pub fn any_word(rng: &mut Rng) -> u32 {
    if rng.percent(50) {
        rng.between(0, 3) as u32
    } else {
        rng.bits() as u32
    }
}

/// The numbers whose record satisfies the condition, in ascending order.
pub fn numbers_where(table: &Table, condition: impl Fn(&Record) -> bool) -> Vec<u8> {
    (0..64).filter(|&n| condition(table.record(n))).collect()
}

/// The ways in which a table can be unsound.
#[derive(Clone, Copy, Debug, PartialEq, Eq)]
pub enum Damage {
    StatusValue,
    KindValue,
    UnbornKind,
    UnbornWord,
    UnbornStock,
    UnbornSlot,
    DeadWord,
    DeadStock,
    DeadSlot,
    TargetUnborn,
    TargetAbove63,
    RightsNone,
    RightsAbove15,
    StockOfAlive,
    StockOfDead,
    StockShared,
    UnbornMaker,
    MakerUnborn,
    MakerAbove64,
}

impl Damage {
    /// Every kind of damage.
    pub const ALL: [Damage; 19] = [
        Damage::StatusValue,
        Damage::KindValue,
        Damage::UnbornKind,
        Damage::UnbornWord,
        Damage::UnbornStock,
        Damage::UnbornSlot,
        Damage::DeadWord,
        Damage::DeadStock,
        Damage::DeadSlot,
        Damage::TargetUnborn,
        Damage::TargetAbove63,
        Damage::RightsNone,
        Damage::RightsAbove15,
        Damage::StockOfAlive,
        Damage::StockOfDead,
        Damage::StockShared,
        Damage::UnbornMaker,
        Damage::MakerUnborn,
        Damage::MakerAbove64,
    ];

    /// Whether an image of the version shows it: version 1 has no makers.
    pub fn shows_in(self, version: Version) -> bool {
        let of_maker = matches!(
            self,
            Damage::UnbornMaker | Damage::MakerUnborn | Damage::MakerAbove64
        );
        version == Version::Two || !of_maker
    }
}

/// A table with the given damage.
pub fn damaged_table(rng: &mut Rng, kind: Damage) -> Table {
    loop {
        let mut table = any_sound_table(rng);
        if damage(rng, &mut table, kind).is_some() {
            return table;
        }
    }
}

/// Damages a sound table in a way that is possible for it. Some way always is.
pub fn any_damage(rng: &mut Rng, table: &mut Table) {
    any_damage_in(rng, Version::Two, table);
}

/// The same, in a way that an image of the version shows.
pub fn any_damage_in(rng: &mut Rng, version: Version, table: &mut Table) {
    loop {
        let kind = rng.pick(&Damage::ALL).unwrap_or(Damage::StatusValue);
        if kind.shows_in(version) && damage(rng, table, kind).is_some() {
            return;
        }
    }
}

/// Makes a sound table unsound in the given way. None, with the table as it was, if the table
/// has no object that the damage needs.
pub fn damage(rng: &mut Rng, table: &mut Table, kind: Damage) -> Option<()> {
    let unborn = numbers_where(table, |record| record.status == UNBORN);
    let dead = numbers_where(table, |record| record.status == DEAD);
    match kind {
        Damage::StatusValue => {
            let n = rng.byte(0, 63);
            table.record_mut(n).status = rng.byte_above(DEAD);
        }
        Damage::KindValue => {
            let n = rng.byte(0, 63);
            table.record_mut(n).kind = rng.byte_above(ACTIVE);
        }
        Damage::UnbornKind => table.record_mut(rng.pick(&unborn)?).kind = ACTIVE,
        Damage::UnbornWord => leave_word(rng, table, &unborn)?,
        Damage::UnbornStock => leave_stock(rng, table, &unborn)?,
        Damage::UnbornSlot => leave_slot(rng, table, &unborn)?,
        Damage::DeadWord => leave_word(rng, table, &dead)?,
        Damage::DeadStock => leave_stock(rng, table, &dead)?,
        Damage::DeadSlot => leave_slot(rng, table, &dead)?,
        Damage::TargetUnborn | Damage::TargetAbove63 => damage_target(rng, table, kind)?,
        Damage::RightsNone | Damage::RightsAbove15 => damage_rights(rng, table, kind)?,
        Damage::StockOfAlive => stock_number(rng, table, Record::is_alive)?,
        Damage::StockOfDead => stock_number(rng, table, |record| record.status == DEAD)?,
        Damage::StockShared => share_number(rng, table)?,
        Damage::UnbornMaker => {
            let maker = rng.pick(&numbers_where(table, Record::is_born))?;
            table.record_mut(rng.pick(&unborn)?).maker = maker;
        }
        Damage::MakerUnborn => any_born(rng, table)?.maker = rng.pick(&unborn)?,
        Damage::MakerAbove64 => any_born(rng, table)?.maker = rng.byte_above(NO_MAKER),
    }
    Some(())
}

/// The record of a born number, dead or alive.
fn any_born<'a>(rng: &mut Rng, table: &'a mut Table) -> Option<&'a mut Record> {
    let n = rng.pick(&numbers_where(table, Record::is_born))?;
    Some(table.record_mut(n))
}

fn leave_word(rng: &mut Rng, table: &mut Table, numbers: &[u8]) -> Option<()> {
    let n = rng.pick(numbers)?;
    table.record_mut(n).word = 1 << rng.between(0, 31);
    Some(())
}

/// Leaves a stock with an unborn number that is in no stock, so that only its owner offends.
fn leave_stock(rng: &mut Rng, table: &mut Table, numbers: &[u8]) -> Option<()> {
    let owner = rng.pick(numbers)?;
    let stocked = table.records.iter().fold(0, |all, r| all | r.stock);
    let free: Vec<u8> = numbers_where(table, |record| record.status == UNBORN)
        .into_iter()
        .filter(|&n| !set::contains(stocked, n))
        .collect();
    let n = rng.pick(&free)?;
    table.record_mut(owner).stock = set::single(n);
    Some(())
}

fn leave_slot(rng: &mut Rng, table: &mut Table, numbers: &[u8]) -> Option<()> {
    let holder = rng.pick(numbers)?;
    let target = rng.pick(&numbers_where(table, Record::is_born))?;
    let capability = Capability::new(target, rng.byte(1, ALL_RIGHTS));
    *any_slot(rng, table, holder) = capability;
    Some(())
}

fn damage_target(rng: &mut Rng, table: &mut Table, kind: Damage) -> Option<()> {
    let holder = rng.pick(&numbers_where(table, Record::is_alive))?;
    let target = if kind == Damage::TargetAbove63 {
        rng.byte_above(63)
    } else {
        rng.pick(&numbers_where(table, |record| record.status == UNBORN))?
    };
    let capability = Capability::new(target, rng.byte(1, ALL_RIGHTS));
    *any_slot(rng, table, holder) = capability;
    Some(())
}

fn damage_rights(rng: &mut Rng, table: &mut Table, kind: Damage) -> Option<()> {
    let holder = rng.pick(&numbers_where(table, Record::is_alive))?;
    let mut targets = numbers_where(table, Record::is_born);
    let rights = if kind == Damage::RightsAbove15 {
        rng.byte_above(ALL_RIGHTS)
    } else {
        // Target 0 with rights 0 would be an empty slot.
        targets.retain(|&n| n != 0);
        0
    };
    let capability = Capability::new(rng.pick(&targets)?, rights);
    *any_slot(rng, table, holder) = capability;
    Some(())
}

fn any_slot<'a>(rng: &mut Rng, table: &'a mut Table, holder: u8) -> &'a mut Capability {
    &mut table.record_mut(holder).slots[rng.between(0, 7) as usize]
}

/// Puts a number whose record satisfies the condition into the stock of an alive object.
fn stock_number(
    rng: &mut Rng,
    table: &mut Table,
    condition: impl Fn(&Record) -> bool,
) -> Option<()> {
    let owner = rng.pick(&numbers_where(table, Record::is_alive))?;
    let n = rng.pick(&numbers_where(table, condition))?;
    table.record_mut(owner).stock |= set::single(n);
    Some(())
}

/// Puts a number of one stock into a second stock.
fn share_number(rng: &mut Rng, table: &mut Table) -> Option<()> {
    let owner = rng.pick(&numbers_where(table, |record| record.stock != 0))?;
    let own: Vec<u8> = set::numbers(table.record(owner).stock).collect();
    let n = rng.pick(&own)?;
    let mut others = numbers_where(table, Record::is_alive);
    others.retain(|&other| other != owner);
    let other = rng.pick(&others)?;
    table.record_mut(other).stock |= set::single(n);
    Some(())
}
