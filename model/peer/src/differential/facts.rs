//! What a call was given or answered, as named facts: compared as a whole, and printed in full where
//! the two sides differ.

use std::fmt;

use captable::raw;

/// One thing that was given or answered.
#[derive(Clone, Debug, PartialEq, Eq)]
pub enum Fact {
    Number(u64),
    /// Sets of object numbers.
    Sets(Vec<u64>),
    Table(Box<raw::Table>),
    Bytes(Vec<u8>),
    Text(String),
}

/// Facts by name, in order.
#[derive(Clone, Debug, Default, PartialEq, Eq)]
pub struct Facts(Vec<(&'static str, Fact)>);

impl Facts {
    pub fn new() -> Facts {
        Facts::default()
    }

    pub fn number(self, name: &'static str, number: impl Into<u64>) -> Facts {
        self.and(name, Fact::Number(number.into()))
    }

    pub fn sets(self, name: &'static str, sets: &[u64]) -> Facts {
        self.and(name, Fact::Sets(sets.to_vec()))
    }

    pub fn table(self, name: &'static str, table: &raw::Table) -> Facts {
        self.and(name, Fact::Table(Box::new(*table)))
    }

    pub fn bytes(self, name: &'static str, bytes: &[u8]) -> Facts {
        self.and(name, Fact::Bytes(bytes.to_vec()))
    }

    pub fn text(self, name: &'static str, text: String) -> Facts {
        self.and(name, Fact::Text(text))
    }

    /// The names under which the other facts, of the same names, say something else.
    fn names_unlike(&self, other: &Facts) -> Vec<&'static str> {
        let both = self.0.iter().zip(&other.0);
        both.filter(|(mine, theirs)| mine != theirs)
            .map(|(mine, _)| mine.0)
            .collect()
    }

    fn and(mut self, name: &'static str, fact: Fact) -> Facts {
        self.0.push((name, fact));
        self
    }
}

impl fmt::Display for Facts {
    fn fmt(&self, out: &mut fmt::Formatter<'_>) -> fmt::Result {
        for (name, fact) in &self.0 {
            write!(out, "  {name}:")?;
            match fact {
                Fact::Number(number) => writeln!(out, " {number}")?,
                Fact::Text(text) => writeln!(out, " {text}")?,
                Fact::Sets(sets) => write_sets(out, sets)?,
                Fact::Bytes(bytes) => write_bytes(out, bytes)?,
                Fact::Table(table) => write_table(out, table)?,
            }
        }
        Ok(())
    }
}

fn write_sets(out: &mut fmt::Formatter<'_>, sets: &[u64]) -> fmt::Result {
    for set in sets {
        write!(out, " {set:#x}")?;
    }
    writeln!(out)
}

fn write_bytes(out: &mut fmt::Formatter<'_>, bytes: &[u8]) -> fmt::Result {
    write!(out, " {} bytes", bytes.len())?;
    for byte in bytes {
        write!(out, " {byte:02x}")?;
    }
    writeln!(out)
}

/// Every record that is not wholly unborn, a line each.
fn write_table(out: &mut fmt::Formatter<'_>, table: &raw::Table) -> fmt::Result {
    writeln!(out, " wholly unborn but for")?;
    for (n, (record, slots)) in table.records.iter().zip(table.slots.chunks(8)).enumerate() {
        let empty = raw::Capability::default();
        if *record == raw::Record::default() && slots.iter().all(|slot| *slot == empty) {
            continue;
        }
        write!(
            out,
            "    {n}: status {}, kind {}, maker {}, word {:#x}, stock {:#x}",
            record.status,
            record.kind,
            record.maker,
            record.word,
            record.stock.bits()
        )?;
        for (j, slot) in slots.iter().enumerate().filter(|(_, slot)| **slot != empty) {
            write!(out, ", slot {j} ({}, {})", slot.target, slot.rights)?;
        }
        writeln!(out)?;
    }
    Ok(())
}

/// A call on which the two sides differ.
#[derive(Debug)]
pub struct Difference {
    pub call: &'static str,
    /// What the call was given.
    pub case: Facts,
    pub model: Facts,
    pub archive: Facts,
}

impl fmt::Display for Difference {
    fn fmt(&self, out: &mut fmt::Formatter<'_>) -> fmt::Result {
        write!(
            out,
            "{} differs from the model in: {}\ngiven\n{}the model\n{}the archive\n{}",
            self.call,
            self.model.names_unlike(&self.archive).join(", "),
            self.case,
            self.model,
            self.archive
        )
    }
}

/// A comparison that found no difference, or the one that it found.
pub type Compared<T> = Result<T, Box<Difference>>;

/// Are both sides' answers the same? `case` says what was given, if they are not.
pub fn same(
    call: &'static str,
    case: impl FnOnce() -> Facts,
    model: Facts,
    archive: Facts,
) -> Compared<()> {
    if model == archive {
        return Ok(());
    }
    Err(Box::new(Difference {
        call,
        case: case(),
        model,
        archive,
    }))
}
