//! A table as the archive has it, and the same table as the model has it.

use captable::{raw, Set};
use yavrinks_model::table::{Capability, Record, Table, SLOTS};

/// The model's table as it crosses to the archive.
pub fn to_raw(table: &Table) -> raw::Table {
    let mut made = raw::Table {
        records: [raw::Record::default(); 64],
        slots: [raw::Capability::default(); 512],
    };
    for (n, record) in table.records.iter().enumerate() {
        made.records[n] = raw::Record {
            status: record.status,
            kind: record.kind,
            maker: record.maker,
            word: record.word,
            stock: Set::from_bits(record.stock),
        };
        for (j, slot) in record.slots.iter().enumerate() {
            made.slots[n * SLOTS + j] = raw::Capability {
                target: slot.target,
                rights: slot.rights,
            };
        }
    }
    made
}

/// The archive's table as the model has it.
pub fn to_model(table: &raw::Table) -> Table {
    let mut made = Table::unborn();
    for (n, record) in table.records.iter().enumerate() {
        let mut slots = [Capability::EMPTY; SLOTS];
        for (j, slot) in slots.iter_mut().enumerate() {
            let held = table.slots[n * SLOTS + j];
            *slot = Capability::new(held.target, held.rights);
        }
        made.records[n] = Record {
            status: record.status,
            kind: record.kind,
            word: record.word,
            stock: record.stock.bits(),
            slots,
            maker: record.maker,
        };
    }
    made
}
