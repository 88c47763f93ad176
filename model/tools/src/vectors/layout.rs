//! How the cases lie in their files: tables, requests and lists as bytes, big-endian.
//! Bytes that a request or a list does not use are random, so that code that reads them shows.

use crate::rng::Rng;
use yavrinks_model::confinement::{Entry, MAX_ENTRIES};
use yavrinks_model::image::{encode, Version, HEAD_LENGTH};
use yavrinks_model::step::{Pair, Request, MAX_PAIRS};
use yavrinks_model::table::Table;

/// The bytes of a request.
const REQUEST_LENGTH: usize = 29;
/// Where the word, the part and the list of a request begin.
const WORD_AT: usize = 8;
const PART_AT: usize = 12;
const LIST_AT: usize = 20;

/// The records of a table, sound or not: an image of version 2 without its head.
pub fn table(table: &Table) -> Vec<u8> {
    encode(Version::Two, table).split_off(HEAD_LENGTH)
}

/// Random bytes.
fn noise(rng: &mut Rng, length: usize) -> Vec<u8> {
    (0..length).map(|_| rng.byte(0, 255)).collect()
}

/// A request: code, actor, t, i, j, n, kind, reply, word, part, and the list with its count.
pub fn request(rng: &mut Rng, request: &Request) -> Vec<u8> {
    let mut bytes = noise(rng, REQUEST_LENGTH);
    bytes[0] = request.code();
    bytes[1] = request.actor();
    if let Some((t, _)) = request.used_slot() {
        bytes[2] = t;
    }
    match request {
        Request::Fetch { i, j, .. } | Request::Store { i, j, .. } => {
            bytes[3] = *i;
            bytes[4] = *j;
        }
        Request::Revoke { j, .. } => bytes[4] = *j,
        Request::Write { word, .. } => put(&mut bytes, WORD_AT, &word.to_be_bytes()),
        Request::Send {
            word, list, reply, ..
        } => {
            bytes[7] = *reply;
            put(&mut bytes, WORD_AT, &word.to_be_bytes());
            put_list(&mut bytes, LIST_AT, list, MAX_PAIRS);
        }
        Request::Allocate {
            n,
            kind,
            part,
            i,
            list,
            ..
        } => {
            bytes[3] = *i;
            bytes[5] = *n;
            bytes[6] = *kind;
            put(&mut bytes, PART_AT, &part.to_be_bytes());
            put_list(&mut bytes, LIST_AT, list, MAX_PAIRS);
        }
        Request::Read { .. }
        | Request::Destroy { .. }
        | Request::Reclaim { .. }
        | Request::Unknown { .. } => {}
    }
    bytes
}

/// Members and a list of entries with its count.
pub fn members_and_list(rng: &mut Rng, members: u64, list: &[Entry]) -> Vec<u8> {
    let mut bytes = members.to_be_bytes().to_vec();
    let at = bytes.len();
    bytes.extend(noise(rng, 1 + 2 * MAX_ENTRIES));
    put_list(&mut bytes, at, list, MAX_ENTRIES);
    bytes
}

fn put(bytes: &mut [u8], at: usize, content: &[u8]) {
    bytes[at..at + content.len()].copy_from_slice(content);
}

/// The count, at most 255, and as many items as there is room for.
fn put_list(bytes: &mut [u8], at: usize, list: &[Pair], room: usize) {
    bytes[at] = list.len() as u8;
    for (k, &(first, second)) in list.iter().take(room).enumerate() {
        put(bytes, at + 1 + 2 * k, &[first, second]);
    }
}
