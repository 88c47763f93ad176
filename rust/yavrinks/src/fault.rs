//! Why there is no answer. Each ends the command with status 2.

use std::fmt;
use std::io;

pub enum Fault {
    /// The words are not understood; with the text that says which are.
    Usage { what: String, help: &'static str },
    /// Something could not be read or written.
    Lost {
        doing: &'static str,
        place: String,
        why: io::Error,
    },
}

impl Fault {
    pub fn usage(what: &str, help: &'static str) -> Fault {
        Fault::Usage {
            what: what.to_string(),
            help,
        }
    }

    pub fn reading(place: impl Into<String>, why: io::Error) -> Fault {
        Fault::Lost {
            doing: "read",
            place: place.into(),
            why,
        }
    }

    pub fn writing(place: impl Into<String>, why: io::Error) -> Fault {
        Fault::Lost {
            doing: "write to",
            place: place.into(),
            why,
        }
    }
}

impl fmt::Display for Fault {
    fn fmt(&self, out: &mut fmt::Formatter<'_>) -> fmt::Result {
        match self {
            Fault::Usage { what, help } => write!(out, "yavrinks: {what}\n\n{help}"),
            Fault::Lost { doing, place, why } => {
                writeln!(out, "yavrinks: cannot {doing} {place}: {why}")
            }
        }
    }
}
