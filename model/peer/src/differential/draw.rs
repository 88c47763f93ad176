//! The bytes of a step: aimed requests, ones with empty copies, random ones, and bytes that are no request.

use yavrinks_model::step::{Code, Request};
use yavrinks_model::table::Table;
use yavrinks_model::wire::{encode, request_in};
use yavrinks_tools::generate::{any_request, bounded_fields};
use yavrinks_tools::rng::Rng;

use super::aim::{aimed, empty_copy, in_range, pair};
use super::steps::Ask;

/// The next bytes for the table as it is.
pub fn draw(rng: &mut Rng, table: &Table) -> Ask {
    match rng.between(0, 99) {
        0..=51 => ask(aimed(rng, table)),
        52..=66 => ask(empty_copy(rng, table)),
        67..=76 => ask(any_request(rng)),
        77..=82 => ask(random_fields(rng)),
        83..=85 => unknown_code(rng),
        86..=89 => ask(long_list(rng, table)),
        90..=92 => cut_short(rng, table),
        93..=95 => too_long(rng, table),
        96 => wrong_count(rng, table),
        _ => random_bytes(rng),
    }
}

/// A request with its bytes.
pub fn ask(request: Request) -> Ask {
    Ask {
        bytes: encode(&request).into_boxed_slice(),
        request: Some(request),
    }
}

/// Bytes that are no request.
fn no_request(bytes: Vec<u8>) -> Ask {
    Ask {
        bytes: bytes.into_boxed_slice(),
        request: None,
    }
}

/// The code of a request.
fn known_code(rng: &mut Rng) -> Code {
    rng.pick(&Code::ALL).unwrap_or(Code::Read)
}

/// One of the two codes that have a list.
fn listed_code(rng: &mut Rng) -> Code {
    if rng.percent(50) {
        Code::Send
    } else {
        Code::Allocate
    }
}

/// A known code, and any byte in every field.
fn random_fields(rng: &mut Rng) -> Request {
    let code = known_code(rng);
    let mut request = in_range(rng, code, 0, 0);
    for (field, _) in bounded_fields(&mut request) {
        *field = rng.bits() as u8;
    }
    request
}

/// A code that is not 1 to 9, with bytes after it in any number.
fn unknown_code(rng: &mut Rng) -> Ask {
    let length = rng.between(1, 24) as usize;
    let mut bytes = any_bytes(rng, length);
    bytes[0] = if rng.percent(20) {
        0
    } else {
        rng.byte_above(9)
    };
    no_request(bytes)
}

/// A send or an allocate that the table may grant, but for its list of 5 to 255 pairs.
fn long_list(rng: &mut Rng, table: &Table) -> Request {
    let mut request = aimed(rng, table);
    if !matches!(request, Request::Send { .. } | Request::Allocate { .. }) {
        let code = listed_code(rng);
        request = in_range(rng, code, request.actor(), 0);
    }
    let length = if rng.percent(80) {
        rng.between(5, 8)
    } else {
        rng.between(5, 255)
    };
    if let Request::Send { list, .. } | Request::Allocate { list, .. } = &mut request {
        while list.len() < length as usize {
            list.push(pair(rng));
        }
    }
    request
}

/// A request without its last bytes: most often one, up to all of them.
fn cut_short(rng: &mut Rng, table: &Table) -> Ask {
    let mut bytes = encode(&aimed(rng, table));
    let kept = if rng.percent(60) {
        bytes.len() - 1
    } else {
        rng.between(0, bytes.len() as u64 - 1) as usize
    };
    bytes.truncate(kept);
    no_request(bytes)
}

/// A request with bytes after it.
fn too_long(rng: &mut Rng, table: &Table) -> Ask {
    let mut bytes = encode(&aimed(rng, table));
    let more = if rng.percent(60) {
        1
    } else {
        rng.between(1, 40)
    };
    let more = any_bytes(rng, more as usize);
    bytes.extend(more);
    no_request(bytes)
}

/// A send or an allocate whose count is not that of its pairs.
fn wrong_count(rng: &mut Rng, table: &Table) -> Ask {
    let code = listed_code(rng);
    let actor = aimed(rng, table).actor();
    let mut bytes = encode(&in_range(rng, code, actor, 0));
    let place = if code == Code::Send { 7 } else { 13 };
    let count = bytes[place];
    while bytes[place] == count {
        bytes[place] = if rng.percent(80) {
            rng.byte(0, 8)
        } else {
            rng.bits() as u8
        };
    }
    no_request(bytes)
}

/// Any bytes: with a known code at times, and then now and then a request.
fn random_bytes(rng: &mut Rng) -> Ask {
    let length = rng.between(0, 30) as usize;
    let mut bytes = any_bytes(rng, length);
    if let Some(code) = bytes.first_mut() {
        if rng.percent(60) {
            *code = known_code(rng).number();
        }
    }
    Ask {
        request: request_in(&bytes),
        bytes: bytes.into_boxed_slice(),
    }
}

/// So many random bytes.
pub fn any_bytes(rng: &mut Rng, length: usize) -> Vec<u8> {
    let mut bytes = Vec::with_capacity(length + 7);
    while bytes.len() < length {
        bytes.extend(rng.bits().to_le_bytes());
    }
    bytes.truncate(length);
    bytes
}
