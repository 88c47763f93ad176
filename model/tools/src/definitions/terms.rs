//! Values of the model as antt terms. The short names `object`, `unborn`, `slot`, `free` and `pair`
//! are defined at the head of every module of cases, so that a table takes few words.

use yavrinks_model::confinement::Entry;
use yavrinks_model::image::Version;
use yavrinks_model::step::{Pair, Request};
use yavrinks_model::table::{Capability, Record, Table, NO_MAKER};

/// How many items of a list stand on a line.
const ITEMS_ON_A_LINE: usize = 8;

/// A list, broken into lines. It stands alone or in parentheses.
pub fn list(items: &[String]) -> String {
    let mut text = String::new();
    for (k, item) in items.iter().enumerate() {
        text.push_str(item);
        text.push_str(match (k + 1) % ITEMS_ON_A_LINE {
            0 => "\n    ∷ ",
            _ => " ∷ ",
        });
    }
    text + "[]"
}

pub fn numbers(numbers: impl IntoIterator<Item = u64>) -> String {
    let items: Vec<String> = numbers.into_iter().map(|n| n.to_string()).collect();
    list(&items)
}

pub fn bytes(bytes: &[u8]) -> String {
    numbers(bytes.iter().map(|&byte| u64::from(byte)))
}

pub fn truths(truths: &[bool]) -> String {
    let items: Vec<String> = truths.iter().map(bool::to_string).collect();
    list(&items)
}

pub fn capability(capability: Capability) -> String {
    match capability {
        Capability::EMPTY => "free".into(),
        Capability { target, rights } => format!("slot {target} {rights}"),
    }
}

/// A record without its slots, which the definitions keep in a list of their own.
pub fn record(record: &Record) -> String {
    let Record {
        status,
        kind,
        word,
        stock,
        maker,
        ..
    } = record;
    match (status, kind, word, stock, *maker) {
        (0, 0, 0, 0, NO_MAKER) => "unborn".into(),
        _ => format!("object {status} {kind} {word} {stock} {maker}"),
    }
}

pub fn version(version: Version) -> &'static str {
    match version {
        Version::One => "One",
        Version::Two => "Two",
    }
}

pub fn table(table: &Table) -> String {
    let records: Vec<String> = table.records.iter().map(record).collect();
    let slots = table.records.iter().flat_map(|record| record.slots);
    format!(
        "record {{\n  records =\n    {};\n  slots =\n    {};\n}}",
        list(&records),
        capabilities(slots)
    )
}

pub fn asks(requests: &[Request]) -> String {
    let items: Vec<String> = requests.iter().map(ask).collect();
    list(&items)
}

pub fn pairs(pairs: &[Pair]) -> String {
    let items: Vec<String> = pairs
        .iter()
        .map(|(from, to)| format!("pair {from} {to}"))
        .collect();
    list(&items)
}

pub fn capabilities(capabilities: impl IntoIterator<Item = Capability>) -> String {
    let items: Vec<String> = capabilities.into_iter().map(capability).collect();
    list(&items)
}

pub fn entries(entries: &[Entry]) -> String {
    let as_capability = |&(target, rights): &Entry| Capability::new(target, rights);
    capabilities(entries.iter().map(as_capability))
}

/// A request, with its fields in the order of document 01.
pub fn ask(request: &Request) -> String {
    match request {
        Request::Read { actor, t } => format!("read {actor} {t}"),
        Request::Write { actor, t, word } => format!("write {actor} {t} {word}"),
        Request::Fetch { actor, t, i, j } => format!("fetch {actor} {t} {i} {j}"),
        Request::Store { actor, t, i, j } => format!("store {actor} {t} {i} {j}"),
        Request::Revoke { actor, t, j } => format!("revoke {actor} {t} {j}"),
        Request::Send {
            actor,
            t,
            word,
            list,
            reply,
        } => format!("send {actor} {t} {word} ({}) {reply}", pairs(list)),
        Request::Allocate {
            actor,
            n,
            kind,
            part,
            i,
            list,
        } => format!("allocate {actor} {n} {kind} {part} {i} ({})", pairs(list)),
        Request::Destroy { actor, t } => format!("destroy {actor} {t}"),
        Request::Reclaim { actor, t } => format!("reclaim {actor} {t}"),
        Request::Unknown { code, actor } => format!("unknown {code} {actor}"),
    }
}
