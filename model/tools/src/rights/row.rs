//! A row for each rights value: its rights in words, and what it is worth.

use super::names::right_names;
use yavrinks_model::step::{weaken, Code};
use yavrinks_model::table::{Capability, ALL_RIGHTS};

/// What a row says of its value, in the order of the sheet.
#[derive(Clone, Copy, Debug, PartialEq, Eq)]
pub enum Column {
    /// Whether a weakened copy has wk; otherwise it is empty.
    Weakened,
    /// May read and fetch.
    Reads,
    /// May write, store, revoke, destroy and reclaim.
    Writes,
    /// May send.
    Sends,
}

/// What a row says in each column.
pub type Cells = [bool; 4];

impl Column {
    pub const ALL: [Column; 4] = [
        Column::Weakened,
        Column::Reads,
        Column::Writes,
        Column::Sends,
    ];

    /// The requests that it is about.
    pub fn codes(self) -> &'static [Code] {
        match self {
            Column::Weakened => &[],
            Column::Reads => &[Code::Read, Code::Fetch],
            Column::Writes => &[
                Code::Write,
                Code::Store,
                Code::Revoke,
                Code::Destroy,
                Code::Reclaim,
            ],
            Column::Sends => &[Code::Send],
        }
    }

    /// What the model's sentences say of a value.
    fn of_model(self, value: u8) -> bool {
        let held = Capability::new(0, value);
        let has_needed = |code: &Code| code.needs().is_some_and(|needed| held.has_any(needed));
        match self {
            Column::Weakened => !weaken(held).is_empty(),
            through => through.codes().iter().all(has_needed),
        }
    }
}

/// A rights value and what is said of it.
#[derive(Clone, Debug, PartialEq, Eq)]
pub struct Row {
    pub value: u8,
    /// Its rights in words, as `rd, wk`; `nothing` for none.
    pub rights: String,
    pub cells: Cells,
}

impl Row {
    /// The row that the model's sentences make, for any byte.
    pub fn of_model(value: u8) -> Row {
        let rights = match right_names(value).as_slice() {
            [] => String::from("nothing"),
            names => names.join(", "),
        };
        Row {
            value,
            rights,
            cells: Column::ALL.map(|column| column.of_model(value)),
        }
    }

    pub fn says(&self, column: Column) -> bool {
        self.cells[column as usize]
    }

    pub fn has_rd(&self) -> bool {
        self.rights.split(", ").any(|name| name == "rd")
    }
}

/// The sixteen rows that the model's sentences make.
pub fn rows_of_model() -> Vec<Row> {
    (0..=ALL_RIGHTS).map(Row::of_model).collect()
}

/// Each value with each column.
pub fn all_cells() -> impl Iterator<Item = (u8, Column)> {
    (0..=ALL_RIGHTS).flat_map(|value| Column::ALL.map(|column| (value, column)))
}

/// Whether a step can show a cell. Through an empty slot every request is answered 4, whatever a row says.
pub fn is_shown(value: u8, column: Column) -> bool {
    value != 0 || column == Column::Weakened
}

/// Rows with one cell of the row of a value the other way round.
pub fn with_altered(rows: &[Row], value: u8, column: Column) -> Vec<Row> {
    let mut rows = rows.to_vec();
    for row in rows.iter_mut().filter(|row| row.value == value) {
        row.cells[column as usize] ^= true;
    }
    rows
}
