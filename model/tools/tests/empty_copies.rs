//! Empty copies in the cases of the program `vectors`: how many there are of each kind, and that they tell
//! wrong readings of 2.4 apart.

use yavrinks_model::step::{step, Code, Fields, Pair, Request};
use yavrinks_model::table::{Capability, Table, ACTIVE, ALIVE, ALL_RIGHTS, RD, TX, WK, WR};
use yavrinks_tools::copies::{copies, reply_slot, Copied};
use yavrinks_tools::empty_kinds::{empty_kinds, EmptyKind};
use yavrinks_tools::generate::StepCase;
use yavrinks_tools::vectors::{
    chain, counts_text, edges, in_chain, in_steps, shared_step_cases, step_cases,
};

const FETCH: Code = Code::Fetch;
const STORE: Code = Code::Store;
const SEND: Code = Code::Send;
const ALLOCATE: Code = Code::Allocate;

// Kinds and counts.

/// 0, 1 and 2 are active. 0 has all rights over 1 in slot 0, (2, rd) in slot 1, all rights over itself in slot
/// 2 and (1, wk) in slot 3, and can make 9. 1 has (2, wr) in slot 1. All other slots are empty.
fn small_table() -> Table {
    let mut table = Table::unborn();
    for record in &mut table.records[..3] {
        (record.status, record.kind) = (ALIVE, ACTIVE);
    }
    let held = [(1, ALL_RIGHTS), (2, RD), (0, ALL_RIGHTS), (1, WK)];
    for (slot, (target, rights)) in held.into_iter().enumerate() {
        table.records[0].slots[slot] = Capability::new(target, rights);
    }
    table.records[0].stock = 1 << 9;
    table.records[1].slots[1] = Capability::new(2, WR);
    table
}

/// The kinds of a request that 0 makes on the small table.
fn kinds(code: Code, fields: Fields) -> Vec<EmptyKind> {
    let (table, request) = (small_table(), code.request(fields));
    assert_eq!(step(&table, &request).0, 0, "{request:?}");
    empty_kinds(&table, &request)
}

#[test]
fn kinds_of_fetch_store_and_revoke() {
    let asked = |code, t, i, j| {
        let fields = Fields::default();
        kinds(code, Fields { t, i, j, ..fields })
    };
    assert_eq!(asked(FETCH, 0, 5, 1), [EmptyKind::FetchWithRd]);
    assert_eq!(asked(FETCH, 3, 5, 1), [EmptyKind::FetchWithoutRd]);
    assert_eq!(asked(FETCH, 3, 1, 1), [EmptyKind::WeakenedWr]);
    assert_eq!(asked(FETCH, 3, 1, 5), [EmptyKind::OnEmpty]);
    assert_eq!(asked(FETCH, 0, 1, 1), []);
    assert_eq!(asked(STORE, 0, 5, 1), [EmptyKind::Store]);
    assert_eq!(asked(STORE, 0, 5, 5), [EmptyKind::OnEmpty]);
    assert_eq!(asked(STORE, 0, 1, 1), []);
    assert_eq!(asked(Code::Revoke, 0, 0, 1), [EmptyKind::Revoke]);
    assert_eq!(asked(Code::Revoke, 0, 0, 5), []);
}

#[test]
fn kinds_of_send() {
    let asked = |t, list: &[Pair], reply| {
        let (list, fields) = (list.to_vec(), Fields::default());
        kinds(
            SEND,
            Fields {
                t,
                list,
                reply,
                ..fields
            },
        )
    };
    assert_eq!(asked(0, &[(5, 1)], 8), [EmptyKind::Send]);
    assert_eq!(asked(0, &[(5, 1)], 2), [EmptyKind::Send]);
    assert_eq!(asked(0, &[(5, 1)], 1), [EmptyKind::ReplyOnKept]);
    assert_eq!(asked(0, &[(1, 1), (1, 6)], 1), []);
    let (later_empty, later_filled) = ([(1, 6), (0, 2), (5, 6)], [(5, 6), (1, 6)]);
    for (list, reply, kind) in [
        (&later_empty[..], 8, EmptyKind::SendEmptyAfterFilled),
        (&later_filled, 8, EmptyKind::SendFilledAfterEmpty),
        (&later_empty, 6, EmptyKind::ReplyOnEmptyAfterFilled),
        (&later_filled, 6, EmptyKind::ReplyOnFilledAfterEmpty),
    ] {
        assert_eq!(asked(0, list, reply), [kind]);
    }
    let to_oneself = [EmptyKind::Send, EmptyKind::SendToOneself];
    assert_eq!(asked(2, &[(5, 1)], 8), to_oneself);
}

#[test]
fn kinds_of_allocate() {
    let asked = |list: &[Pair]| {
        let (n, i, list) = (9, 7, list.to_vec());
        let fields = Fields::default();
        kinds(
            ALLOCATE,
            Fields {
                n,
                i,
                list,
                ..fields
            },
        )
    };
    // The new object's slot is empty in either case.
    let own_filled = [EmptyKind::Allocate, EmptyKind::OnEmpty];
    assert_eq!(asked(&[(5, 1)]), own_filled);
    assert_eq!(asked(&[(5, 6)]), [EmptyKind::OnEmpty]);
    let later_empty = [EmptyKind::AllocateEmptyAfterFilled];
    assert_eq!(asked(&[(1, 1), (5, 1)]), later_empty);
    let later_filled = [EmptyKind::AllocateFilledAfterEmpty];
    assert_eq!(asked(&[(5, 1), (1, 1)]), later_filled);
}

/// Without the shared steps, of which one alone is a store of an empty slot on a filled one.
#[test]
fn the_cases_of_vectors_have_empty_copies_of_every_kind() {
    let cases = step_cases();
    let shared = shared_step_cases();
    assert!(cases.starts_with(&shared));
    assert_eq!(shared.len(), 160 + 1);
    assert_eq!(in_steps(&shared).of(EmptyKind::Store), 1);
    let counts = in_steps(&cases[shared.len()..]);
    for kind in EmptyKind::ALL {
        assert!(counts.of(kind) >= 4, "{kind:?}: {}", counts.of(kind));
    }
    // On one table, where an early error shows in every later line.
    let in_chain = in_chain(&chain());
    for kind in [
        EmptyKind::FetchWithRd,
        EmptyKind::Store,
        EmptyKind::Send,
        EmptyKind::SendEmptyAfterFilled,
        EmptyKind::SendFilledAfterEmpty,
        EmptyKind::Revoke,
    ] {
        assert!(in_chain.of(kind) >= 10, "{kind:?}: {}", in_chain.of(kind));
    }
}

#[test]
fn the_counts_are_printed_by_kind_and_file() {
    let text = counts_text();
    let rows: Vec<&str> = text.lines().skip(1).collect();
    assert_eq!(rows.len(), EmptyKind::ALL.len());
    let all = [
        in_steps(&step_cases()),
        in_chain(&chain()),
        in_chain(&edges()),
    ];
    for (row, kind) in rows.iter().zip(EmptyKind::ALL) {
        let numbers = row.strip_prefix(kind.label()).expect("label");
        let numbers: Vec<u64> = numbers
            .split_whitespace()
            .map(|number| number.parse().expect("number"))
            .collect();
        assert!(numbers.iter().copied().eq(all.iter().map(|of| of.of(kind))));
    }
}

// Wrong readings.

/// What is written to a slot, and all that a reading could go by.
struct Writing<'a> {
    before: &'a Table,
    request: &'a Request,
    /// Whose slot it is, and which.
    holder: u8,
    slot: u8,
    /// What the slot holds by now.
    held: Capability,
    what: What,
    /// The copies of the request before this one.
    earlier: &'a [Copied],
}

#[derive(Clone, Copy)]
enum What {
    Copy(Copied),
    Reply,
    Revoke,
}

impl Writing<'_> {
    fn at(&self, n: u8, slot: u8) -> Capability {
        self.before.record(n).slots[usize::from(slot)]
    }

    fn is_in(&self, codes: &[Code]) -> bool {
        codes
            .iter()
            .any(|code| code.number() == self.request.code())
    }

    /// Whether an earlier copy to the same slot is empty.
    fn after_empty(&self) -> bool {
        let mut to_slot = self.earlier.iter().filter(|one| one.slot == self.slot);
        to_slot.any(|one| one.is_empty())
    }

    /// What the slot holds afterwards.
    fn right(&self) -> Capability {
        match self.what {
            What::Copy(copied) if copied.is_empty() => self.held,
            What::Copy(copied) => copied.copy(),
            What::Reply => Capability::new(self.request.actor(), TX),
            What::Revoke => Capability::EMPTY,
        }
    }

    /// The same, but an empty copy leaves something else.
    fn right_but(&self, empty: Capability) -> Capability {
        match self.what {
            What::Copy(copied) if copied.is_empty() => empty,
            _ => self.right(),
        }
    }

    /// The same in some requests, and in the others as it was before 2.4.
    fn right_in(&self, codes: &[Code]) -> Capability {
        match self.is_in(codes) {
            true => self.right(),
            false => self.right_but(Capability::EMPTY),
        }
    }

    /// The same, but in allocate an empty copy leaves something else.
    fn right_but_made(&self, empty: impl Fn(u8, u8) -> Capability) -> Capability {
        match self.request {
            Request::Allocate { n, i, .. } => self.right_but(empty(*n, *i)),
            _ => self.right(),
        }
    }
}

/// What a slot holds after something is written to it, as somebody could read 2.4.
type Reading = fn(&Writing) -> Capability;

const WRONG: [(&str, Reading); 18] = [
    ("in no request", |w| w.right_in(&[])),
    ("in fetch alone", |w| w.right_in(&[FETCH])),
    ("not in fetch", |w| w.right_in(&[STORE, SEND, ALLOCATE])),
    ("not in store", |w| w.right_in(&[FETCH, SEND, ALLOCATE])),
    ("not in send", |w| w.right_in(&[FETCH, STORE, ALLOCATE])),
    ("not in allocate", |w| w.right_in(&[FETCH, STORE, SEND])),
    ("not in weakening", |w| match w.what {
        What::Copy(copied) if copied.is_weakened_to_nothing() => Capability::EMPTY,
        _ => w.right(),
    }),
    ("in weakening alone", |w| match w.what {
        What::Copy(copied) if !copied.is_weakened_to_nothing() => copied.copy(),
        _ => w.right(),
    }),
    ("a later pair is blocked", |w| match w.what {
        What::Copy(_) if w.after_empty() => w.held,
        _ => w.right(),
    }),
    ("all later pairs are blocked", |w| match w.what {
        What::Copy(_) if w.earlier.iter().any(|one| one.is_empty()) => w.held,
        _ => w.right(),
    }),
    ("the reply is blocked", |w| match w.what {
        What::Reply if w.after_empty() => w.held,
        _ => w.right(),
    }),
    ("an earlier pair is undone", |w| {
        w.right_but(w.at(w.holder, w.slot))
    }),
    ("a filled slot is kept always", |w| match w.what {
        What::Copy(_) if !w.held.is_empty() => w.held,
        _ => w.right(),
    }),
    ("revoke keeps the slot", |w| match w.what {
        What::Revoke => w.held,
        _ => w.right(),
    }),
    ("the slot of the object copied from", |w| match w.what {
        What::Copy(copied) => w.right_but(w.at(copied.source, w.slot)),
        _ => w.right(),
    }),
    ("made: the maker's slot of that number", |w| {
        w.right_but_made(|_, _| w.at(w.request.actor(), w.slot))
    }),
    ("made: what the maker's slot i held", |w| {
        w.right_but_made(|_, i| w.at(w.request.actor(), i))
    }),
    ("made: what the maker's slot i gets", |w| {
        w.right_but_made(|n, _| Capability::new(n, ALL_RIGHTS))
    }),
];

/// Whose slots a request changes that is done: those of the target, in fetch the actor's, in allocate those
/// of the new object. Other slots a reading leaves alone.
fn holder(case: &StepCase) -> Option<u8> {
    let own = case.table.record(case.request.actor()).slots;
    match case.request {
        Request::Fetch { actor, .. } => Some(actor),
        Request::Allocate { n, .. } => Some(n),
        Request::Store { t, .. } | Request::Revoke { t, .. } | Request::Send { t, .. } => {
            Some(own[usize::from(t)].target)
        }
        _ => None,
    }
}

/// The table after the request of a case, under a reading. This is not `landed_by`: a reading also decides on
/// the reply and on a revoke, and goes by the copies before.
fn after(reading: Reading, case: &StepCase) -> Table {
    let StepCase { table, request } = case;
    let (reply, mut after) = step(table, request);
    let changed = if reply == 0 { holder(case) } else { None };
    let Some(holder) = changed else {
        return after;
    };
    let copies = copies(table, request);
    let mut slots = table.record(holder).slots;
    let mut write = |slot: u8, what, earlier: &[Copied]| {
        let held = slots[usize::from(slot)];
        slots[usize::from(slot)] = reading(&Writing {
            before: table,
            request,
            holder,
            slot,
            held,
            what,
            earlier,
        });
    };
    for (k, &copied) in copies.iter().enumerate() {
        write(copied.slot, What::Copy(copied), &copies[..k]);
    }
    if let Some(slot) = reply_slot(request) {
        write(slot, What::Reply, &copies);
    }
    if let Request::Revoke { j, .. } = request {
        write(*j, What::Revoke, &[]);
    }
    after.record_mut(holder).slots = slots;
    after
}

/// Each of them by eight cases at least that are not shared ones.
#[test]
fn the_cases_of_vectors_tell_wrong_readings_apart() {
    let cases = step_cases();
    let shared = shared_step_cases().len();
    let right: Reading = |writing| writing.right();
    for case in &cases {
        assert_eq!(after(right, case), step(&case.table, &case.request).1);
    }
    for (name, reading) in WRONG {
        let other = |case: &&StepCase| {
            let expected = step(&case.table, &case.request).1;
            after(reading, case) != expected
        };
        let of_shared = cases[..shared].iter().filter(other).count();
        let others = cases[shared..].iter().filter(other).count();
        println!("{name}: {others}, and {of_shared} shared");
        assert!(others >= 8, "{name}: {others}");
    }
}
