//! Rights by their names.

use yavrinks_model::table::{RD, TX, WK, WR};

/// The names of the rights that a value adds up, in the order of document 01.
pub fn right_names(rights: u8) -> Vec<&'static str> {
    let names = [(RD, "rd"), (WR, "wr"), (WK, "wk"), (TX, "tx")].into_iter();
    names
        .filter(|(right, _)| rights & right != 0)
        .map(|(_, name)| name)
        .collect()
}
