//! Reads the lines of the files in `vectors/`: each is a JSON value.
//! The tools read them by this file too, so that there is one reader.

mod json;

pub use json::Json;
use yavrinks_model::confinement::Entry;
use yavrinks_model::image::Version;
use yavrinks_model::set;
use yavrinks_model::step::{Code, Fields, Request};
use yavrinks_model::table::{Capability, Record, Table, NO_MAKER};

/// The values of a text that holds one JSON value a line.
pub fn values(text: &str) -> Vec<Json> {
    text.lines()
        .map(|line| Json::parse(line).expect("JSON"))
        .collect()
}

pub fn field<'a>(value: &'a Json, key: &str) -> &'a Json {
    value.get(key).unwrap_or_else(|| panic!("field {key}"))
}

pub fn number(value: &Json) -> u64 {
    value.as_number().expect("number")
}

pub fn byte(value: &Json) -> u8 {
    u8::try_from(number(value)).expect("byte")
}

/// A byte that is 0 where it is missing.
pub fn byte_or_zero(value: &Json, key: &str) -> u8 {
    value.get(key).map_or(0, byte)
}

pub fn bytes(value: &Json) -> Vec<u8> {
    value.as_list().expect("list").iter().map(byte).collect()
}

/// Bytes that are written as hexadecimal digits.
pub fn hexadecimal(value: &Json) -> Vec<u8> {
    let digits = value.as_text().expect("digits");
    (0..digits.len())
        .step_by(2)
        .map(|at| u8::from_str_radix(&digits[at..at + 2], 16).expect("byte"))
        .collect()
}

pub fn number_set(value: &Json) -> u64 {
    set::of(bytes(value))
}

fn pair(value: &Json) -> (u8, u8) {
    match value.as_list() {
        Some([first, second]) => (byte(first), byte(second)),
        _ => panic!("a pair was expected"),
    }
}

pub fn pairs(value: &Json) -> Vec<(u8, u8)> {
    value.as_list().expect("list").iter().map(pair).collect()
}

pub fn index(key: &str) -> usize {
    key.parse().expect("number as key")
}

fn record(value: &Json) -> Record {
    let known = ["status", "kind", "word", "stock", "slots", "maker"];
    for key in value.as_object().expect("record").keys() {
        assert!(known.contains(&key.as_str()), "field {key} in a record");
    }
    let mut record = Record::UNBORN;
    record.status = byte_or_zero(value, "status");
    record.kind = byte_or_zero(value, "kind");
    record.word = u32::try_from(value.get("word").map_or(0, number)).expect("word");
    record.stock = value.get("stock").map_or(0, number_set);
    record.maker = value.get("maker").map_or(NO_MAKER, byte);
    if let Some(slots) = value.get("slots") {
        for (key, slot) in slots.as_object().expect("slots") {
            let (target, rights) = pair(slot);
            record.slots[index(key)] = Capability::new(target, rights);
        }
    }
    record
}

pub fn table(value: &Json) -> Table {
    let mut table = Table::unborn();
    for (key, value) in value.as_object().expect("table") {
        table.records[index(key)] = record(value);
    }
    table
}

/// A line of a file of tests: what is tested, and the number and the bound that are the answer; from 2.6 on the
/// number of rounds too.
pub struct TestLine {
    pub table: Table,
    pub members: u64,
    pub list: Vec<Entry>,
    pub answer: (u8, u64),
    pub rounds: Option<u8>,
}

impl TestLine {
    pub fn of(value: &Json) -> TestLine {
        TestLine {
            table: table(field(value, "table")),
            members: number_set(field(value, "members")),
            list: pairs(field(value, "list")),
            answer: (
                byte(field(value, "number")),
                number_set(field(value, "bound")),
            ),
            rounds: value.get("rounds").map(byte),
        }
    }
}

/// A request has the fields that its code has, and no others. Before 2.8 a line with code 9 has its actor alone:
/// that is no reclaim, which has a slot.
fn request(value: &Json) -> Request {
    let (code, actor) = (byte(field(value, "code")), byte(field(value, "actor")));
    let word = value.get("word").map_or(0, number);
    let of_earlier = code == Code::Reclaim.number() && value.get("t").is_none();
    let known = match Code::of(code) {
        Some(known) if !of_earlier => known,
        _ => return Request::Unknown { code, actor },
    };
    known.request(Fields {
        actor,
        t: byte_or_zero(value, "t"),
        i: byte_or_zero(value, "i"),
        j: byte_or_zero(value, "j"),
        n: byte_or_zero(value, "n"),
        kind: byte_or_zero(value, "kind"),
        part: value.get("part").map_or(0, number_set),
        word: u32::try_from(word).expect("word"),
        list: value.get("list").map_or(Vec::new(), pairs),
        reply: byte_or_zero(value, "reply"),
    })
}

/// A line of a file of steps: what is asked of which table, the reply, and the table after it.
pub struct StepLine {
    pub table: Table,
    pub request: Request,
    pub answer: (u8, Table),
}

impl StepLine {
    pub fn of(value: &Json) -> StepLine {
        let before = table(field(value, "table"));
        let after = match field(value, "after") {
            Json::Null => before.clone(),
            changed => table(changed),
        };
        StepLine {
            table: before,
            request: request(field(value, "request")),
            answer: (byte(field(value, "reply")), after),
        }
    }
}

/// A line of a file of images: what one call is given, and its number with the table that it brings back or
/// with the buffer afterwards.
pub enum ImageLine {
    Read {
        bytes: Vec<u8>,
        answer: (u8, Table),
    },
    Write {
        version: Version,
        table: Table,
        before: Vec<u8>,
        answer: (u8, Vec<u8>),
    },
}

impl ImageLine {
    pub fn of(value: &Json) -> ImageLine {
        let number = byte(field(value, "number"));
        let of_line = table(field(value, "table"));
        match field(value, "call").as_text() {
            Some("read") => ImageLine::Read {
                bytes: hexadecimal(field(value, "bytes")),
                answer: (number, of_line),
            },
            Some("write") => {
                let before = buffer_of(field(value, "size"));
                let after = match field(value, "bytes") {
                    Json::Null => before.clone(),
                    written => hexadecimal(written),
                };
                ImageLine::Write {
                    version: Version::of(byte(field(value, "version"))).expect("version"),
                    table: of_line,
                    before,
                    answer: (number, after),
                }
            }
            call => panic!("call {call:?}"),
        }
    }
}

/// A buffer as it is before a call: each byte A5.
fn buffer_of(size: &Json) -> Vec<u8> {
    vec![0xA5; usize::try_from(number(size)).expect("size")]
}
