//! Requests and lists as bytes. A request is its code and then the documents' fields in their order, a
//! byte each; a word is 4 bytes and a part 8, the most significant first; a list is a count byte and its
//! pairs. The list of a test is two bytes for each entry: target, rights.

use crate::confinement::{Entry, MAX_ENTRIES};
use crate::image::big_endian;
use crate::step::{Code, Fields, Pair, Request, MAX_PAIRS};

/// Who asks where no byte says who does: a number that no object has.
pub const NOBODY: u8 = 64;

/// The request that bytes are. Those that are none make a request without fields, which is refused.
pub fn decode(bytes: &[u8]) -> Request {
    request_in(bytes).unwrap_or(Request::Unknown {
        code: bytes.first().copied().unwrap_or(0),
        actor: bytes.get(1).copied().unwrap_or(NOBODY),
    })
}

/// The bytes of a request. A list may be of any length that a count byte can say.
pub fn encode(request: &Request) -> Vec<u8> {
    let mut bytes = vec![request.code(), request.actor()];
    bytes.extend(request.used_slot().map(|(t, _)| t));
    match request {
        Request::Read { .. }
        | Request::Destroy { .. }
        | Request::Reclaim { .. }
        | Request::Unknown { .. } => {}
        Request::Write { word, .. } => bytes.extend(word.to_be_bytes()),
        Request::Fetch { i, j, .. } | Request::Store { i, j, .. } => bytes.extend([*i, *j]),
        Request::Revoke { j, .. } => bytes.push(*j),
        Request::Send {
            word, list, reply, ..
        } => {
            bytes.extend(word.to_be_bytes());
            put_list(&mut bytes, list);
            bytes.push(*reply);
        }
        Request::Allocate {
            n,
            kind,
            part,
            i,
            list,
            ..
        } => {
            bytes.extend([*n, *kind]);
            bytes.extend(part.to_be_bytes());
            bytes.push(*i);
            put_list(&mut bytes, list);
        }
    }
    bytes
}

fn put_list(bytes: &mut Vec<u8>, list: &[Pair]) {
    bytes.push(list.len() as u8);
    bytes.extend(list.iter().flat_map(|&(from, to)| [from, to]));
}

/// The list of a test that bytes are. An odd number of bytes is no list, and counts as one that is too
/// long.
pub fn decode_list(bytes: &[u8]) -> Vec<Entry> {
    match bytes.len() % 2 {
        0 => bytes.chunks(2).map(|two| (two[0], two[1])).collect(),
        _ => vec![(0, 0); MAX_ENTRIES + 1],
    }
}

/// What is left of a request's bytes.
struct Rest<'a>(&'a [u8]);

impl Rest<'_> {
    fn number(&mut self, size: usize) -> Option<u64> {
        let (first, rest) = self.0.split_at_checked(size)?;
        self.0 = rest;
        Some(big_endian(first))
    }

    fn byte(&mut self) -> Option<u8> {
        self.number(1).map(|byte| byte as u8)
    }

    fn list(&mut self) -> Option<Vec<Pair>> {
        let count = usize::from(self.byte()?);
        if count > MAX_PAIRS {
            return None;
        }
        (0..count)
            .map(|_| Some((self.byte()?, self.byte()?)))
            .collect()
    }
}

/// The request, if the bytes are one, no fewer and no more.
pub fn request_in(bytes: &[u8]) -> Option<Request> {
    let mut rest = Rest(bytes);
    let code = Code::of(rest.byte()?)?;
    let fields = fields_in(code, &mut rest)?;
    rest.0.is_empty().then(|| code.request(fields))
}

/// The fields of a request with the code, in the documents' order.
fn fields_in(code: Code, rest: &mut Rest) -> Option<Fields> {
    let mut fields = Fields {
        actor: rest.byte()?,
        ..Fields::default()
    };
    if code == Code::Allocate {
        fields.n = rest.byte()?;
    } else {
        fields.t = rest.byte()?;
    }
    match code {
        Code::Read | Code::Destroy | Code::Reclaim => {}
        Code::Write => fields.word = rest.number(4)? as u32,
        Code::Fetch | Code::Store => {
            fields.i = rest.byte()?;
            fields.j = rest.byte()?;
        }
        Code::Revoke => fields.j = rest.byte()?,
        Code::Send => {
            fields.word = rest.number(4)? as u32;
            fields.list = rest.list()?;
            fields.reply = rest.byte()?;
        }
        Code::Allocate => {
            fields.kind = rest.byte()?;
            fields.part = rest.number(8)?;
            fields.i = rest.byte()?;
            fields.list = rest.list()?;
        }
    }
    Some(fields)
}
