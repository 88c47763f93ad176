//! Bring in take-and-grant tables, 2.2 of document 02: a table of the model in source document 001, as
//! the older rigs hold it, becomes a capability table. Its bytes are walked once, and the first offence
//! ends the walk.

use crate::refusal::{reply_number, Refusal};
use crate::table::{Capability, Record, Table};
use crate::table::{ACTIVE, ALIVE, NO_MAKER, NO_SLOTS, OBJECTS, RD, SLOTS, TX, WR};

/// The rights of source document 001, as they add up in the bytes.
pub const READ: u8 = 1;
pub const WRITE: u8 = 2;
pub const GRANT: u8 = 4;
pub const CREATE: u8 = 8;
pub const STORE: u8 = 16;
/// All five of them.
pub const ALL_OLD_RIGHTS: u8 = READ | WRITE | GRANT | CREATE | STORE;

/// What each of them becomes.
const BECOMES: [(u8, u8); 5] = [
    (READ, RD),
    (WRITE, WR),
    (GRANT, TX),
    (CREATE, 0),
    (STORE, RD | WR),
];

/// The value of the version byte.
const VERSION: u8 = 1;

/// Brings in a table: 0 and what it becomes, or the refusal number and the wholly unborn table.
pub fn import(bytes: &[u8]) -> (u8, Table) {
    let outcome = checked_table(bytes);
    let number = reply_number(&outcome);
    (number, outcome.unwrap_or_else(|_| Table::unborn()))
}

/// The checks of the head in their order, then the walk, which has to end where the bytes end.
fn checked_table(bytes: &[u8]) -> Result<Table, Refusal> {
    let [high, low, version, entities, left @ ..] = bytes else {
        return Err(Refusal::ImportLength);
    };
    if usize::from(u16::from_be_bytes([*high, *low])) != bytes.len() {
        return Err(Refusal::ImportLength);
    }
    if *version != VERSION {
        return Err(Refusal::ImportVersion);
    }
    expect_value(usize::from(*entities) <= OBJECTS)?;
    let mut walk = Walk {
        left,
        entities: *entities,
    };
    let mut table = Table::unborn();
    for n in 0..*entities {
        *table.record_mut(n) = walk.entity()?;
    }
    match walk.left {
        [] => Ok(table),
        _ => Err(Refusal::ImportLength),
    }
}

/// 22, unless the value that was just read may stand there.
fn expect_value(may_stand: bool) -> Result<(), Refusal> {
    if may_stand {
        Ok(())
    } else {
        Err(Refusal::ImportValue)
    }
}

/// The walk over the entities.
struct Walk<'a> {
    /// The bytes that are not yet read.
    left: &'a [u8],
    /// The entity count, which every target is below.
    entities: u8,
}

impl Walk<'_> {
    /// The next byte. 20 where the bytes end before it.
    fn byte(&mut self) -> Result<u8, Refusal> {
        let (&byte, left) = self.left.split_first().ok_or(Refusal::ImportLength)?;
        self.left = left;
        Ok(byte)
    }

    /// The next entity, as the record that it becomes.
    fn entity(&mut self) -> Result<Record, Refusal> {
        let count = usize::from(self.byte()?);
        expect_value(count <= SLOTS)?;
        let mut record = Record {
            status: ALIVE,
            kind: ACTIVE,
            word: 0,
            stock: 0,
            slots: NO_SLOTS,
            maker: NO_MAKER,
        };
        for slot in &mut record.slots[..count] {
            *slot = self.capability()?;
        }
        Ok(record)
    }

    /// The next capability, as the content of the slot in its place. Its target is judged before its
    /// rights are read.
    fn capability(&mut self) -> Result<Capability, Refusal> {
        let target = self.byte()?;
        expect_value(target < self.entities)?;
        let old_rights = self.byte()?;
        expect_value(old_rights <= ALL_OLD_RIGHTS)?;
        Ok(match rights_of(old_rights) {
            0 => Capability::EMPTY,
            rights => Capability::new(target, rights),
        })
    }
}

/// What old rights become together.
fn rights_of(old_rights: u8) -> u8 {
    let mut rights = 0;
    for (old_right, becomes) in BECOMES {
        if old_rights & old_right != 0 {
            rights |= becomes;
        }
    }
    rights
}
