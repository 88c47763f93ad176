//! The kinds of steps that 2.4 of document 02 is about, and how often each comes.

use crate::copies::{copies, reply_slot, Copied};
use yavrinks_model::step::{Code, Request};
use yavrinks_model::table::{Table, SLOTS, TX, WR};

/// A kind, by what one request does to one slot. Filled means filled before the request. Where a kind does
/// not name the reply, no reply slot is on top; only `OnEmpty` counts with a reply on top as well.
#[derive(Clone, Copy, Debug, PartialEq, Eq, PartialOrd, Ord)]
pub enum EmptyKind {
    FetchWithRd,
    FetchWithoutRd,
    WeakenedWr,
    WeakenedTx,
    WeakenedWrTx,
    Store,
    Send,
    SendEmptyAfterFilled,
    SendFilledAfterEmpty,
    ReplyOnKept,
    ReplyOnEmptyAfterFilled,
    ReplyOnFilledAfterEmpty,
    SendToOneself,
    Allocate,
    AllocateEmptyAfterFilled,
    AllocateFilledAfterEmpty,
    OnEmpty,
    Revoke,
}

impl EmptyKind {
    pub const ALL: [EmptyKind; 18] = [
        EmptyKind::FetchWithRd,
        EmptyKind::FetchWithoutRd,
        EmptyKind::WeakenedWr,
        EmptyKind::WeakenedTx,
        EmptyKind::WeakenedWrTx,
        EmptyKind::Store,
        EmptyKind::Send,
        EmptyKind::SendEmptyAfterFilled,
        EmptyKind::SendFilledAfterEmpty,
        EmptyKind::ReplyOnKept,
        EmptyKind::ReplyOnEmptyAfterFilled,
        EmptyKind::ReplyOnFilledAfterEmpty,
        EmptyKind::SendToOneself,
        EmptyKind::Allocate,
        EmptyKind::AllocateEmptyAfterFilled,
        EmptyKind::AllocateFilledAfterEmpty,
        EmptyKind::OnEmpty,
        EmptyKind::Revoke,
    ];

    /// What a table of counts says.
    pub fn label(self) -> &'static str {
        match self {
            EmptyKind::FetchWithRd => "fetch with rd of an empty slot, on a filled one",
            EmptyKind::FetchWithoutRd => "fetch without rd of an empty slot, on a filled one",
            EmptyKind::WeakenedWr => "fetch of wr weakened to nothing, on a filled slot",
            EmptyKind::WeakenedTx => "fetch of tx weakened to nothing, on a filled slot",
            EmptyKind::WeakenedWrTx => "fetch of wr and tx weakened to nothing, on a filled slot",
            EmptyKind::Store => "store of an empty slot, on a filled one",
            EmptyKind::Send => "send with an empty pair, on a filled slot",
            EmptyKind::SendEmptyAfterFilled => "send with an empty pair after a filled one",
            EmptyKind::SendFilledAfterEmpty => "send with a filled pair after an empty one",
            EmptyKind::ReplyOnKept => "reply on top of a filled slot that an empty pair keeps",
            EmptyKind::ReplyOnEmptyAfterFilled => {
                "reply on top of an empty pair after a filled one"
            }
            EmptyKind::ReplyOnFilledAfterEmpty => {
                "reply on top of a filled pair after an empty one"
            }
            EmptyKind::SendToOneself => "send to oneself with an empty pair, on a filled slot",
            EmptyKind::Allocate => "allocate with an empty pair, the maker's own slot filled",
            EmptyKind::AllocateEmptyAfterFilled => "allocate with an empty pair after a filled one",
            EmptyKind::AllocateFilledAfterEmpty => "allocate with a filled pair after an empty one",
            EmptyKind::OnEmpty => "empty copy on an empty slot",
            EmptyKind::Revoke => "revoke of a filled slot",
        }
    }
}

/// A slot that a request copies to or empties, with the copies to it in order.
struct Place<'a> {
    before: &'a Table,
    request: &'a Request,
    holder: u8,
    slot: u8,
    copies: Vec<Copied>,
}

impl Place<'_> {
    fn code(&self) -> Option<Code> {
        Code::of(self.request.code())
    }

    fn is_filled_at(&self, n: u8) -> bool {
        !self.before.record(n).slots[usize::from(self.slot)].is_empty()
    }

    fn is_filled(&self) -> bool {
        self.is_filled_at(self.holder)
    }

    /// Whether there are copies, and all of them are empty.
    fn all_empty(&self) -> bool {
        !self.copies.is_empty() && self.copies.iter().all(|copied| copied.is_empty())
    }

    fn is_kept(&self) -> bool {
        self.all_empty() && self.is_filled()
    }

    /// Whether an empty copy comes somewhere after a filled one, or the other way round.
    fn comes_after(&self, later_is_empty: bool) -> bool {
        let mut copies = self.copies.iter();
        let earlier = copies.any(|copied| copied.is_empty() != later_is_empty);
        earlier && copies.any(|copied| copied.is_empty() == later_is_empty)
    }

    /// Whether a fetch of a slot with these rights keeps the place.
    fn keeps_fetched(&self, rights: u8) -> bool {
        let found = self
            .copies
            .iter()
            .all(|copied| copied.found.rights == rights);
        self.code() == Some(Code::Fetch) && found && self.is_kept()
    }

    /// Whether a send copies to it, with a reply on top or without.
    fn is_sent_to(&self, with_reply: bool) -> bool {
        let on_top = reply_slot(self.request) == Some(self.slot);
        self.code() == Some(Code::Send) && on_top == with_reply
    }

    fn is_made(&self) -> bool {
        self.code() == Some(Code::Allocate)
    }

    fn is_of(&self, kind: EmptyKind) -> bool {
        let weakened = self.copies.iter().any(|copied| copied.weakened);
        let actor = self.request.actor();
        match kind {
            EmptyKind::FetchWithRd => self.keeps_fetched(0) && !weakened,
            EmptyKind::FetchWithoutRd => self.keeps_fetched(0) && weakened,
            EmptyKind::WeakenedWr => self.keeps_fetched(WR),
            EmptyKind::WeakenedTx => self.keeps_fetched(TX),
            EmptyKind::WeakenedWrTx => self.keeps_fetched(WR | TX),
            EmptyKind::Store => self.code() == Some(Code::Store) && self.is_kept(),
            EmptyKind::Send => self.is_sent_to(false) && self.is_kept(),
            EmptyKind::SendEmptyAfterFilled => self.is_sent_to(false) && self.comes_after(true),
            EmptyKind::SendFilledAfterEmpty => self.is_sent_to(false) && self.comes_after(false),
            EmptyKind::ReplyOnKept => self.is_sent_to(true) && self.is_kept(),
            EmptyKind::ReplyOnEmptyAfterFilled => self.is_sent_to(true) && self.comes_after(true),
            EmptyKind::ReplyOnFilledAfterEmpty => self.is_sent_to(true) && self.comes_after(false),
            EmptyKind::SendToOneself => self.is_of(EmptyKind::Send) && self.holder == actor,
            EmptyKind::Allocate => self.is_made() && self.all_empty() && self.is_filled_at(actor),
            EmptyKind::AllocateEmptyAfterFilled => self.is_made() && self.comes_after(true),
            EmptyKind::AllocateFilledAfterEmpty => self.is_made() && self.comes_after(false),
            EmptyKind::OnEmpty => self.all_empty() && !self.is_filled(),
            EmptyKind::Revoke => self.code() == Some(Code::Revoke) && self.is_filled(),
        }
    }
}

/// The places of a request that is done on this table.
fn places<'a>(before: &'a Table, request: &'a Request) -> Vec<Place<'a>> {
    let place = |holder, slot, copies| Place {
        before,
        request,
        holder,
        slot,
        copies,
    };
    if let Request::Revoke { actor, t, j } = request {
        let used = before.record(*actor).slots[usize::from(*t)];
        return vec![place(used.target, *j, Vec::new())];
    }
    let copies = copies(before, request);
    let to = |slot: u8| -> Vec<Copied> {
        let all = copies.iter().copied();
        all.filter(|copied| copied.slot == slot).collect()
    };
    let slots = (0..SLOTS as u8).map(|slot| (slot, to(slot)));
    slots
        .filter(|(_, copies)| !copies.is_empty())
        .map(|(slot, copies)| place(copies[0].holder, slot, copies))
        .collect()
}

/// The kinds that a request is of, if it is done on this table.
pub fn empty_kinds(before: &Table, request: &Request) -> Vec<EmptyKind> {
    let places = places(before, request);
    let is_of = |kind: &EmptyKind| places.iter().any(|place| place.is_of(*kind));
    EmptyKind::ALL.into_iter().filter(is_of).collect()
}

/// How often each kind comes. A step counts once for each kind that it is of.
#[derive(Clone, Debug, Default, PartialEq, Eq)]
pub struct EmptyCounts {
    counts: [u64; EmptyKind::ALL.len()],
}

impl EmptyCounts {
    /// Counts a request that is done on this table.
    pub fn count(&mut self, before: &Table, request: &Request) {
        for kind in empty_kinds(before, request) {
            self.counts[kind as usize] += 1;
        }
    }

    pub fn of(&self, kind: EmptyKind) -> u64 {
        self.counts[kind as usize]
    }
}
