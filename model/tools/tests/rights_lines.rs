//! The rows of the rights values as they are written on the sheet, in the code and in the definitions: those of the
//! repository are the same in all three, and whatever else could stand there is refused or noticed.

use yavrinks_model::table::ALL_RIGHTS;
use yavrinks_tools::repository::text_of;
use yavrinks_tools::rights::{
    all_cells, code_rows, definition_rows, rows_of_model, sheet, sheet_rows, with_altered, Row,
    SHEET_HEAD,
};

#[test]
fn the_lines_of_the_code_are_those_of_the_sheet() {
    if let (Some(text), Some(rows)) = (text_of("crates", "rights/src/lib.rt"), sheet()) {
        assert_eq!(code_rows(&text), Ok(rows));
    }
}

#[test]
fn the_lines_of_the_definitions_are_those_of_the_sheet() {
    let text = text_of("crates", "rights/specs/Rows.antt");
    if let (Some(text), Some(rows)) = (text, sheet()) {
        assert_eq!(definition_rows(&text), Ok(rows));
    }
}

/// One of the three places: how a row stands there, all of them, and how they are read.
struct Place {
    line: fn(&Row) -> String,
    text: fn(&[String]) -> String,
    read: fn(&str) -> Result<Vec<Row>, String>,
}

const SHEET: Place = Place {
    line: |row| {
        let (value, rights) = (row.value, &row.rights);
        let cells = cells(row, ["wk", "empty", "yes", "no"], " | ");
        format!("| {value} | {rights} | {cells} | ☐ |\n")
    },
    text: |lines| {
        let above = "# Rights\n\n| a | b |\n|---|---|\n| 0 | 1 |\n";
        let lines = lines.concat();
        format!("{above}\n{SHEET_HEAD}{lines}\n| who |\n|---|\n")
    },
    read: sheet_rows,
};

const CODE: Place = Place {
    line: |row| {
        let value = match row.value {
            ALL_RIGHTS => "15..=255".into(),
            value => value.to_string(),
        };
        let cells = cells(row, ["WK", "EMPTY", "true", "false"], ", ");
        let rights = &row.rights;
        format!("        {value} => Worth({cells}), // {rights}\n")
    },
    text: |lines| {
        let other = "fn other() {\n    a => b,\n}\n";
        let head = "fn worth_of(rights: u8) -> Worth {\n    match rights {\n";
        let lines = lines.concat();
        format!("{other}\n{head}{lines}    }}\n}}\n\n{other}")
    },
    read: code_rows,
};

const DEFINITIONS: Place = Place {
    line: |row| {
        let before = if row.value == 0 { "" } else { "∷ " };
        let (value, rights) = (row.value, &row.rights);
        let cells = cells(row, ["wk", "empty", "yes", "no"], ", ");
        format!("    {before}({cells})  -- {value}: {rights}\n")
    },
    text: |lines| {
        let lines = lines.concat();
        format!("pub rows : List Worth\nrows =\n{lines}    ∷ []\n\nother : ℕ\nother = 0\n")
    },
    read: definition_rows,
};

const PLACES: [Place; 3] = [SHEET, CODE, DEFINITIONS];

/// What a row says, in words: for wk and for empty, for yes and for no.
fn cells(row: &Row, [wk, empty, yes, no]: [&str; 4], between: &str) -> String {
    let [weakened, reads, writes, sends] = row.cells;
    let may = |cell| if cell { yes } else { no };
    let weakened = if weakened { wk } else { empty };
    [weakened, may(reads), may(writes), may(sends)].join(between)
}

impl Place {
    fn lines(&self, rows: &[Row]) -> Vec<String> {
        rows.iter().map(self.line).collect()
    }

    /// What is read of lines that are written.
    fn read_back(&self, lines: &[String]) -> Result<Vec<Row>, String> {
        (self.read)(&(self.text)(lines))
    }
}

#[test]
fn what_is_written_is_read_back() {
    let rows = rows_of_model();
    for place in PLACES {
        assert_eq!(place.read_back(&place.lines(&rows)), Ok(rows.clone()));
        for (value, column) in all_cells() {
            let altered = with_altered(&rows, value, column);
            let read = place.read_back(&place.lines(&altered));
            assert_eq!(read, Ok(altered));
        }
    }
}

#[test]
fn other_words_for_the_rights_are_noticed() {
    let rows = rows_of_model();
    for place in PLACES {
        for value in 0..rows.len() {
            for rights in ["rd, wr, wk", "wk, rd", "", "rd", "nothing"] {
                let mut others = rows.clone();
                others[value].rights = rights.into();
                let read = place.read_back(&place.lines(&others));
                let same = rows[value].rights == rights;
                assert_eq!(read == Ok(rows.clone()), same, "{value} {rights}");
            }
        }
    }
}

#[test]
fn rows_that_are_missing_swapped_or_added_are_refused() {
    for place in PLACES {
        let lines = place.lines(&rows_of_model());
        for at in 0..lines.len() {
            let mut missing = lines.clone();
            let line = missing.remove(at);
            assert!(place.read_back(&missing).is_err(), "without {at}");
            for to in 0..lines.len() {
                let mut doubled = missing.clone();
                doubled.insert(to, lines[(at + 1) % 16].clone());
                assert!(place.read_back(&doubled).is_err(), "{at} for another, {to}");
                let mut moved = missing.clone();
                moved.insert(to, line.clone());
                assert_eq!(place.read_back(&moved).is_ok(), to == at, "{at} at {to}");
                let mut added = lines.clone();
                added.insert(to, line.clone());
                assert!(place.read_back(&added).is_err(), "{at} once more, at {to}");
            }
        }
    }
}

#[test]
fn lines_of_another_form_are_refused() {
    let replaced = |place: &Place, from: &str, to: &str| {
        let text = (place.text)(&place.lines(&rows_of_model()));
        assert!((place.read)(&text).is_ok());
        assert_eq!(text.matches(from).count(), 1, "{from}");
        (place.read)(&text.replace(from, to))
    };
    for (place, from, to) in [
        (
            &SHEET,
            "| 5 | rd, wk | wk | yes | no | no | ☐ |",
            "| 5 | rd, wk | wk | yes | no | ☐ |",
        ),
        (
            &SHEET,
            "| 5 | rd, wk | wk | yes |",
            "| 5 | rd, wk | wk | may |",
        ),
        (
            &SHEET,
            "| 5 | rd, wk | wk | yes |",
            "| 5 | rd, wk | rd | yes |",
        ),
        (
            &SHEET,
            "| 5 | rd, wk | wk | yes | no | no | ☐ |",
            "| 5 | rd, wk | wk | yes | no | no | ☑ |",
        ),
        (&SHEET, "| 15 | ", "| 16 | "),
        (&SHEET, "may send", "may read"),
        (&SHEET, SHEET_HEAD, ""),
        (&SHEET, "# Rights\n", SHEET_HEAD),
        (&SHEET, "|\n|---|---|---|---|---|---|---|\n", "|\n"),
        (&CODE, " 5 => Worth(WK,", " 5 => Worth(RD,"),
        (&CODE, "15..=255", "15"),
        (&CODE, "15..=255", "_"),
        (&CODE, " 14 => ", " 14..=14 => "),
        (&CODE, " 0 => Worth(EMPTY, false,", " 0 => Worth(EMPTY, no,"),
        (&CODE, "fn worth_of(", "fn worth("),
        (&DEFINITIONS, "-- 5: rd, wk\n", "\n"),
        (&DEFINITIONS, "-- 5: rd, wk\n", "-- 6: rd, wk\n"),
        (&DEFINITIONS, "    ∷ []\n", ""),
        (&DEFINITIONS, "\nrows =\n", "\nothers =\n"),
    ] {
        assert!(replaced(place, from, to).is_err(), "{from} by {to}");
    }
}
