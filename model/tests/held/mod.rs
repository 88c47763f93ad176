//! Small tables by what is held in them.

use yavrinks_model::table::{Capability, Table, ALIVE};

/// A capability as (holder, target, rights).
pub type Held = (u8, u8, u8);

/// A table with these numbers, all holders and all targets alive. Each capability is in the lowest slot that
/// is left.
pub fn table_with(alive: &[u8], held: &[Held]) -> Table {
    let mut table = Table::unborn();
    for &n in alive {
        table.record_mut(n).status = ALIVE;
    }
    for &(holder, target, rights) in held {
        table.record_mut(target).status = ALIVE;
        table.record_mut(holder).status = ALIVE;
        let mut slots = table.record_mut(holder).slots.iter_mut();
        let slot = slots.find(|slot| slot.is_empty()).expect("empty slot");
        *slot = Capability::new(target, rights);
    }
    table
}
