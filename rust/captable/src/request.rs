//! A request, its bytes (the code, then the documents' fields in their order), and its line for a reader.

use core::fmt;

use crate::pairs::{PairList, MAX_PAIRS};
use crate::{Set, ACTIVE, PASSIVE};

/// The code of each request.
mod code {
    pub const READ: u8 = 1;
    pub const WRITE: u8 = 2;
    pub const FETCH: u8 = 3;
    pub const STORE: u8 = 4;
    pub const REVOKE: u8 = 5;
    pub const SEND: u8 = 6;
    pub const ALLOCATE: u8 = 7;
    pub const DESTROY: u8 = 8;
    pub const RECLAIM: u8 = 9;
}

/// The `reply` of a send that asks for no reply slot.
pub const NO_REPLY: u8 = 8;

/// The bytes of the longest request: an allocate with four pairs.
pub const REQUEST_BYTES: usize = 14 + 2 * MAX_PAIRS;

/// A request. Any field may be out of range: the step refuses it.
///
/// The actor is who asks, and all that a request may do it may do as the actor. Nothing in the table can
/// tell whether the actor is right: whoever makes a request vouches for it.
///
/// A copy that comes out empty changes no slot, in fetch, store, send and allocate: see
/// [empty copies](crate#empty-copies).
#[derive(Clone, Copy, Debug, PartialEq, Eq)]
pub enum Request {
    /// The actor's word becomes the target's word. Needs rd or wk.
    Read {
        /// The object that asks.
        actor: u8,
        /// The actor's slot that is used; its target is the target.
        t: u8,
    },
    /// The target's word becomes the word. Needs wr.
    Write {
        /// The object that asks.
        actor: u8,
        /// The actor's slot that is used; its target is the target.
        t: u8,
        /// The new word.
        word: u32,
    },
    /// The target's slot i goes to the actor's slot j, weakened if rd is absent. Needs rd or wk. A copy that
    /// comes out empty leaves slot j as it was: one of an empty slot, and without rd one of rights 2, 8 or 10.
    Fetch {
        /// The object that asks.
        actor: u8,
        /// The actor's slot that is used; its target is the target.
        t: u8,
        /// The target's slot that is copied.
        i: u8,
        /// The actor's slot that the copy lands in.
        j: u8,
    },
    /// The actor's slot i goes to the target's slot j. Needs wr. If slot i is empty, slot j is left as it was.
    Store {
        /// The object that asks.
        actor: u8,
        /// The actor's slot that is used; its target is the target.
        t: u8,
        /// The actor's slot that is copied.
        i: u8,
        /// The target's slot that the copy lands in.
        j: u8,
    },
    /// The target's slot j is emptied. Needs wr. But for a reclaim no other request empties a slot of an object that
    /// stays alive. To empty a slot of its own, an object needs wr over itself.
    Revoke {
        /// The object that asks.
        actor: u8,
        /// The actor's slot that is used; its target is the target.
        t: u8,
        /// The target's slot that is emptied.
        j: u8,
    },
    /// The word and the pairs go to an active target, and then perhaps a capability to answer by. Needs
    /// tx. A slot that gets none but empty copies is left as it was.
    Send {
        /// The object that asks.
        actor: u8,
        /// The actor's slot that is used; its target is the target.
        t: u8,
        /// The target's new word.
        word: u32,
        /// The actor's slots that are copied into the target, in this order.
        list: PairList,
        /// The target's slot that gets (actor, tx) after the pairs, or [`NO_REPLY`].
        reply: u8,
    },
    /// A number of the actor's stock becomes an alive object. Its slots are empty, but for those where a
    /// filled copy lands.
    Allocate {
        /// The object that asks.
        actor: u8,
        /// The number that becomes alive.
        n: u8,
        /// Its kind.
        kind: u8,
        /// The part of the actor's stock that it gets.
        part: Set,
        /// The actor's slot that gets all rights over it.
        i: u8,
        /// The actor's slots that are copied into it, in this order.
        list: PairList,
    },
    /// The target becomes dead: it loses its word and slots and keeps its kind and its maker, and its stock joins the
    /// actor's. Its number stays in use until a reclaim. Needs wr.
    Destroy {
        /// The object that asks.
        actor: u8,
        /// The actor's slot that is used; its target is the target.
        t: u8,
    },
    /// The target, which is dead, becomes unborn, and its number joins the actor's stock. Every slot of any object that
    /// names it is emptied, slot t too, and every maker that names it becomes [`NO_MAKER`](crate::NO_MAKER). Needs wr.
    /// Who else holds a capability over it has no say, and the reply tells nothing of them: see
    /// [dead numbers again](crate#dead-numbers-again).
    Reclaim {
        /// The object that asks.
        actor: u8,
        /// The actor's slot that is used; its target is the target.
        t: u8,
    },
}

/// The bytes of a request, as [`Table::step_bytes`](crate::Table::step_bytes) takes them.
#[derive(Clone, Copy, Debug)]
pub struct RequestBytes {
    bytes: [u8; REQUEST_BYTES],
    length: usize,
}

impl RequestBytes {
    /// The bytes.
    #[must_use]
    pub fn as_slice(&self) -> &[u8] {
        &self.bytes[..self.length]
    }

    fn of(fields: &[u8]) -> RequestBytes {
        let made = RequestBytes {
            bytes: [0; REQUEST_BYTES],
            length: 0,
        };
        made.and(fields)
    }

    fn and(mut self, fields: &[u8]) -> RequestBytes {
        let next = self.length + fields.len();
        self.bytes[self.length..next].copy_from_slice(fields);
        self.length = next;
        self
    }

    fn and_list(mut self, list: &PairList) -> RequestBytes {
        self = self.and(&[list.as_slice().len() as u8]);
        for &(from, to) in list.as_slice() {
            self = self.and(&[from, to]);
        }
        self
    }
}

impl Request {
    /// The request's bytes.
    #[must_use]
    pub fn to_bytes(&self) -> RequestBytes {
        match *self {
            Request::Read { actor, t } => RequestBytes::of(&[code::READ, actor, t]),
            Request::Write { actor, t, word } => {
                RequestBytes::of(&[code::WRITE, actor, t]).and(&word.to_be_bytes())
            }
            Request::Fetch { actor, t, i, j } => RequestBytes::of(&[code::FETCH, actor, t, i, j]),
            Request::Store { actor, t, i, j } => RequestBytes::of(&[code::STORE, actor, t, i, j]),
            Request::Revoke { actor, t, j } => RequestBytes::of(&[code::REVOKE, actor, t, j]),
            Request::Send {
                actor,
                t,
                word,
                list,
                reply,
            } => RequestBytes::of(&[code::SEND, actor, t])
                .and(&word.to_be_bytes())
                .and_list(&list)
                .and(&[reply]),
            Request::Allocate {
                actor,
                n,
                kind,
                part,
                i,
                list,
            } => RequestBytes::of(&[code::ALLOCATE, actor, n, kind])
                .and(&part.bits().to_be_bytes())
                .and(&[i])
                .and_list(&list),
            Request::Destroy { actor, t } => RequestBytes::of(&[code::DESTROY, actor, t]),
            Request::Reclaim { actor, t } => RequestBytes::of(&[code::RECLAIM, actor, t]),
        }
    }

    /// The request that these bytes are, and none for any bytes that are no request: a code that is not 1
    /// to 9, a byte too few or too many, a list above four pairs. The step refuses those by 2.
    ///
    /// Fields may be out of range, as in any request. The actor is what the bytes say: see
    /// [`Table::step_as`](crate::Table::step_as) for bytes that someone else wrote.
    #[must_use]
    pub fn from_bytes(bytes: &[u8]) -> Option<Request> {
        Some(match *bytes {
            [code::READ, actor, t] => Request::Read { actor, t },
            [code::WRITE, actor, t, a, b, c, d] => Request::Write {
                actor,
                t,
                word: u32::from_be_bytes([a, b, c, d]),
            },
            [code::FETCH, actor, t, i, j] => Request::Fetch { actor, t, i, j },
            [code::STORE, actor, t, i, j] => Request::Store { actor, t, i, j },
            [code::REVOKE, actor, t, j] => Request::Revoke { actor, t, j },
            [code::SEND, actor, t, a, b, c, d, count, ref pairs @ .., reply] => Request::Send {
                actor,
                t,
                word: u32::from_be_bytes([a, b, c, d]),
                list: PairList::from_bytes(count, pairs)?,
                reply,
            },
            [code::ALLOCATE, actor, n, kind, a, b, c, d, e, f, g, h, i, count, ref pairs @ ..] => {
                Request::Allocate {
                    actor,
                    n,
                    kind,
                    part: Set::from_bits(u64::from_be_bytes([a, b, c, d, e, f, g, h])),
                    i,
                    list: PairList::from_bytes(count, pairs)?,
                }
            }
            [code::DESTROY, actor, t] => Request::Destroy { actor, t },
            [code::RECLAIM, actor, t] => Request::Reclaim { actor, t },
            _ => return None,
        })
    }
}

/// One line: who asks, what, and through which slot, as `4 writes 7 through slot 0`.
impl fmt::Display for Request {
    fn fmt(&self, out: &mut fmt::Formatter<'_>) -> fmt::Result {
        match *self {
            Request::Read { actor, t } => write!(out, "{actor} reads through slot {t}"),
            Request::Write { actor, t, word } => {
                write!(out, "{actor} writes {word} through slot {t}")
            }
            Request::Fetch { actor, t, i, j } => write!(
                out,
                "{actor} fetches the target's slot {i} through slot {t} into its own slot {j}"
            ),
            Request::Store { actor, t, i, j } => write!(
                out,
                "{actor} stores its own slot {i} through slot {t} into the target's slot {j}"
            ),
            Request::Revoke { actor, t, j } => {
                write!(
                    out,
                    "{actor} revokes the target's slot {j} through slot {t}"
                )
            }
            Request::Send {
                actor,
                t,
                word,
                list,
                reply,
            } => {
                write!(out, "{actor} sends {word} through slot {t}")?;
                write_copies(out, &list)?;
                match reply {
                    NO_REPLY => write!(out, ", no reply slot"),
                    slot => write!(out, ", reply slot {slot}"),
                }
            }
            Request::Allocate {
                actor,
                n,
                kind,
                part,
                i,
                list,
            } => {
                write!(out, "{actor} allocates {n}, ")?;
                match kind {
                    PASSIVE => write!(out, "passive")?,
                    ACTIVE => write!(out, "active")?,
                    other => write!(out, "kind {other}")?,
                }
                write!(out, ", stock {part}, held in slot {i}")?;
                write_copies(out, &list)
            }
            Request::Destroy { actor, t } => write!(out, "{actor} destroys through slot {t}"),
            Request::Reclaim { actor, t } => write!(out, "{actor} reclaims through slot {t}"),
        }
    }
}

/// The pairs of a list, if it has any.
fn write_copies(out: &mut fmt::Formatter<'_>, list: &PairList) -> fmt::Result {
    for (place, (from, to)) in list.as_slice().iter().enumerate() {
        let before = if place == 0 { ", copies slot" } else { "," };
        write!(out, "{before} {from} to {to}")?;
    }
    Ok(())
}
