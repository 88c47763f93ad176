//! What a request copies, in order, and where it lands: told apart from the model's own step, so that
//! empty copies can be counted and other rules for them tried.

use yavrinks_model::step::{weaken, Pair, Request, NO_REPLY};
use yavrinks_model::table::{Capability, Slots, Table, RD, TX};

/// One copy of a request.
#[derive(Clone, Copy, Debug, PartialEq, Eq)]
pub struct Copied {
    /// Whose slot it comes from.
    pub source: u8,
    /// Whose slot it goes to, and which.
    pub holder: u8,
    pub slot: u8,
    /// What the slot holds that it comes from.
    pub found: Capability,
    pub weakened: bool,
}

impl Copied {
    /// What comes out.
    pub fn copy(self) -> Capability {
        if self.weakened {
            weaken(self.found)
        } else {
            self.found
        }
    }

    pub fn is_empty(self) -> bool {
        self.copy().is_empty()
    }

    /// Whether only weakening makes it empty.
    pub fn is_weakened_to_nothing(self) -> bool {
        self.is_empty() && !self.found.is_empty()
    }
}

/// The copies of a request that is done on this table, in order.
pub fn copies(before: &Table, request: &Request) -> Vec<Copied> {
    let actor = request.actor();
    let own = before.record(actor).slots;
    let used = match request.used_slot() {
        Some((t, _)) => own[usize::from(t)],
        None => Capability::EMPTY,
    };
    let of_actor = |holder, from: u8, slot| Copied {
        source: actor,
        holder,
        slot,
        found: own[usize::from(from)],
        weakened: false,
    };
    let of_pairs = |holder, list: &[Pair]| {
        let pairs = list.iter();
        pairs
            .map(|&(from, to)| of_actor(holder, from, to))
            .collect()
    };
    match request {
        Request::Fetch { i, j, .. } => vec![Copied {
            source: used.target,
            holder: actor,
            slot: *j,
            found: before.record(used.target).slots[usize::from(*i)],
            weakened: !used.has_any(RD),
        }],
        Request::Store { i, j, .. } => vec![of_actor(used.target, *i, *j)],
        Request::Send { list, .. } => of_pairs(used.target, list),
        Request::Allocate { n, list, .. } => of_pairs(*n, list),
        _ => Vec::new(),
    }
}

/// The reply slot of a send, if it asks for one.
pub fn reply_slot(request: &Request) -> Option<u8> {
    match request {
        Request::Send { reply, .. } if *reply != NO_REPLY => Some(*reply),
        _ => None,
    }
}

/// Whose slots a request that is done copies to, and what they hold afterwards, if each copy lands by the
/// rule: that is given what the slot holds and the copy. A reply slot comes last. None if nothing is copied.
pub fn landed_by(
    before: &Table,
    request: &Request,
    rule: impl Fn(Capability, &Copied) -> Capability,
) -> Option<(u8, Slots)> {
    let copies = copies(before, request);
    let holder = copies.first()?.holder;
    let mut slots = before.record(holder).slots;
    for copied in &copies {
        let slot = &mut slots[usize::from(copied.slot)];
        *slot = rule(*slot, copied);
    }
    if let Some(reply) = reply_slot(request) {
        slots[usize::from(reply)] = Capability::new(request.actor(), TX);
    }
    Some((holder, slots))
}
