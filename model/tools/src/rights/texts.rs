//! The rows as they are written in three places: on the sheet of `docs/RIGHTS.md`, in the code and in the
//! definitions. Each reader refuses all but sixteen rows in the order of their values.

use super::row::Row;
use yavrinks_model::table::ALL_RIGHTS;

/// The first two lines of the sheet.
pub const SHEET_HEAD: &str = "| value | rights | weakened | may read and fetch \
    | may write, store, revoke, destroy and reclaim | may send | agreed |\n\
    |---|---|---|---|---|---|---|\n";

/// The words of a place for wk and for empty, for yes and for no.
type Words = [&'static str; 4];

/// The rows of the sheet. Its boxes are not ticked: that is done with a pencil.
pub fn sheet_rows(text: &str) -> Result<Vec<Row>, String> {
    let parts: Vec<&str> = text.split(SHEET_HEAD).collect();
    let [_, below] = parts[..] else {
        return Err(format!("there are {} sheets", parts.len() - 1));
    };
    let lines = below.lines().take_while(|line| line.starts_with('|'));
    sixteen(lines, sheet_row)
}

/// As `| 5 | rd, wk | wk | yes | no | no | ☐ |`.
fn sheet_row(value: u8, line: &str) -> Option<Row> {
    let line = line.strip_prefix(&format!("| {value} | "))?;
    let (rights, cells) = line.strip_suffix(" | ☐ |")?.split_once(" | ")?;
    row(value, rights, cells.split(" | "), SAID)
}

/// The rows of the function `worth_of`: every line of it that has an arrow.
pub fn code_rows(text: &str) -> Result<Vec<Row>, String> {
    let (_, function) = text
        .split_once("fn worth_of(")
        .ok_or("there is no function worth_of")?;
    let lines = function.lines().take_while(|line| *line != "}");
    sixteen(lines.filter(|line| line.contains(" => ")), code_row)
}

/// As `5 => Worth(WK, true, false, false), // rd, wk`. The last one is for all bytes from 15 on.
fn code_row(value: u8, line: &str) -> Option<Row> {
    let values = match value {
        ALL_RIGHTS => "15..=255".into(),
        value => value.to_string(),
    };
    let line = line.trim().strip_prefix(&format!("{values} => Worth("))?;
    let (cells, rights) = line.split_once("), // ")?;
    row(value, rights, cells.split(", "), CODED)
}

/// The rows of the definition `rows`: all its lines up to the end of the list.
pub fn definition_rows(text: &str) -> Result<Vec<Row>, String> {
    let (_, definition) = text
        .split_once("\nrows =\n")
        .ok_or("there is no definition rows")?;
    let lines = definition.lines().map(str::trim);
    sixteen(lines.take_while(|line| *line != "∷ []"), definition_row)
}

/// As `∷ (wk, yes, no, no)  -- 5: rd, wk`; the first one has nothing before it.
fn definition_row(value: u8, line: &str) -> Option<Row> {
    let line = match value {
        0 => line,
        _ => line.strip_prefix("∷ ")?,
    };
    let (cells, rights) = line.strip_prefix('(')?.split_once(")  -- ")?;
    let rights = rights.strip_prefix(&format!("{value}: "))?;
    row(value, rights, cells.split(", "), SAID)
}

/// On the sheet and in the definitions, and in the code.
const SAID: Words = ["wk", "empty", "yes", "no"];
const CODED: Words = ["WK", "EMPTY", "true", "false"];

/// Reads the lines as the rows of 0, 1 and so on to 15.
fn sixteen<'a>(
    lines: impl Iterator<Item = &'a str>,
    row: fn(u8, &str) -> Option<Row>,
) -> Result<Vec<Row>, String> {
    let lines: Vec<&str> = lines.collect();
    let values = 0..=ALL_RIGHTS;
    if lines.len() != values.len() {
        return Err(format!("there are {} rows", lines.len()));
    }
    let read = |(value, line)| row(value, line).ok_or(format!("no row of {value}: {line}"));
    values.zip(lines).map(read).collect()
}

/// The row with these four cells.
fn row<'a>(
    value: u8,
    rights: &str,
    cells: impl Iterator<Item = &'a str>,
    [wk, empty, yes, no]: Words,
) -> Option<Row> {
    let cells: Vec<&str> = cells.collect();
    let [weakened, reads, writes, sends] = cells[..] else {
        return None;
    };
    let says = |cell: &str, yes, no| (cell == yes || cell == no).then_some(cell == yes);
    Some(Row {
        value,
        rights: rights.into(),
        cells: [
            says(weakened, wk, empty)?,
            says(reads, yes, no)?,
            says(writes, yes, no)?,
            says(sends, yes, no)?,
        ],
    })
}
