//! A table for a reader. 64 records with eight slots each are mostly unborn and empty, so what is wholly unborn, made by
//! nobody or empty is left out.

use core::fmt;

use crate::{
    Capability, Record, Table, ACTIVE, ALIVE, DEAD, OBJECTS, PASSIVE, RD, SLOTS, TX, UNBORN, WK, WR,
};

/// Every right by its name.
const RIGHTS: [(u8, &str); 4] = [(RD, "rd"), (WR, "wr"), (WK, "wk"), (TX, "tx")];

/// The target and the names of the rights, `(1, rd+wr)`, or `empty`. Rights that do not exist are shown
/// by their number.
impl fmt::Display for Capability {
    fn fmt(&self, out: &mut fmt::Formatter<'_>) -> fmt::Result {
        if *self == Capability::EMPTY {
            return out.write_str("empty");
        }
        write!(out, "({}, ", self.target)?;
        if self.rights == 0 || self.rights > RD | WR | WK | TX {
            return write!(out, "{})", self.rights);
        }
        let held = RIGHTS.iter().filter(|(right, _)| self.rights & right != 0);
        for (place, (_, name)) in held.enumerate() {
            let before = if place == 0 { "" } else { "+" };
            write!(out, "{before}{name}")?;
        }
        out.write_str(")")
    }
}

/// An object of a table.
struct Object<'a> {
    record: &'a Record,
    slots: &'a [Capability],
}

impl Object<'_> {
    /// Unborn, and nothing beside it. An unborn record with a word or a maker is not: its table is not sound,
    /// and that has to be seen.
    fn is_nothing(&self) -> bool {
        *self.record == Record::UNBORN && self.slots.iter().all(|slot| *slot == Capability::EMPTY)
    }
}

impl fmt::Debug for Object<'_> {
    fn fmt(&self, out: &mut fmt::Formatter<'_>) -> fmt::Result {
        match self.record.status {
            UNBORN => write!(out, "unborn")?,
            ALIVE => write!(out, "alive")?,
            DEAD => write!(out, "dead")?,
            other => write!(out, "status {other}")?,
        }
        match self.record.kind {
            PASSIVE => write!(out, " passive")?,
            ACTIVE => write!(out, " active")?,
            other => write!(out, " kind {other}")?,
        }
        if let Some(maker) = self.record.made_by() {
            write!(out, ", made by {maker}")?;
        }
        if self.record.word != 0 {
            write!(out, ", word {}", self.record.word)?;
        }
        if !self.record.stock.is_empty() {
            write!(out, ", stock {}", self.record.stock)?;
        }
        for (j, slot) in self.slots.iter().enumerate() {
            if *slot != Capability::EMPTY {
                write!(out, ", slot {j} {slot}")?;
            }
        }
        Ok(())
    }
}

/// The born records and the filled slots alone, with an entry for each object; in a table that is not
/// sound also what an unborn record has against the rules.
impl fmt::Debug for Table {
    fn fmt(&self, out: &mut fmt::Formatter<'_>) -> fmt::Result {
        let raw = self.as_raw();
        let slots = raw.slots.chunks(usize::from(SLOTS));
        let objects = raw
            .records
            .iter()
            .zip(slots)
            .map(|(record, slots)| Object { record, slots });
        out.write_str("Table ")?;
        out.debug_map()
            .entries(
                (0..OBJECTS)
                    .zip(objects)
                    .filter(|(_, object)| !object.is_nothing()),
            )
            .finish()
    }
}
