//! The sixteen rights values, a row each: what is said of them on the sheet that type approval ticks, in the code
//! and in the definitions, and what comes of requests by it.

mod asked;
mod names;
mod row;
mod texts;

pub use asked::{asked, asked_above, first_fault, Asked};
pub use names::right_names;
pub use row::{all_cells, is_shown, rows_of_model, with_altered, Cells, Column, Row};
pub use texts::{code_rows, definition_rows, sheet_rows, SHEET_HEAD};

use crate::repository::text_of;

/// The rows of the repository's sheet, where there is a repository.
pub fn sheet() -> Option<Vec<Row>> {
    let text = text_of("docs", "RIGHTS.md")?;
    Some(sheet_rows(&text).unwrap_or_else(|fault| panic!("docs/RIGHTS.md: {fault}")))
}
