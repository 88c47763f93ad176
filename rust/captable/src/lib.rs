//! The capability table of a sealed controller, proved against its written model, for Rust.
//!
//! The calls are those of `libcaptable.a`, which `tools/build` proves and writes. This crate
//! gives them types: a [`Table`] of 64 objects with eight slots each, a [`Request`] of nine kinds,
//! potential access as a [`Relation`], the confinement test with its [`Finding`], the [`Chain`] to an object of its
//! bound, images, and [imports](Table::import) of take-and-grant tables. A refusal is a value with the number of
//! document 01 or 02, and changes neither the table nor any buffer.
//!
//! ```
//! use captable::{Capability, Request, Set, StepRefusal, Table, ACTIVE, ALIVE, WR};
//!
//! let mut table = Table::unborn();
//! table.record_mut(4).status = ALIVE;
//! table.record_mut(4).kind = ACTIVE;
//! table.record_mut(3).status = ALIVE;
//! *table.slot_mut(4, 0) = Capability { target: 3, rights: WR };
//! assert!(table.is_sound());
//!
//! // 4 writes 7 into 3 through its slot 0, and may not read it.
//! table.step(&Request::Write { actor: 4, t: 0, word: 7 })?;
//! assert_eq!(table.record(3).word, 7);
//! let refusal = table.step(&Request::Read { actor: 4, t: 0 }).unwrap_err();
//! assert_eq!(refusal, StepRefusal::RightAbsent);
//! assert_eq!(refusal.number(), 6);
//!
//! // Whom can a subsystem {4} ever influence, if it may hold wr over 3? 3 alone, in one round.
//! let list = [Capability { target: 3, rights: WR }];
//! let found = table.test(Set::of(&[4]), &list).unwrap();
//! assert_eq!(found.bound, Set::of(&[3]));
//! assert_eq!(found.rounds, 1);
//!
//! // How does it get at 3? By what is listed.
//! assert_eq!(table.chain(Set::of(&[4]), &list, 3).unwrap().as_slice(), [3]);
//!
//! // The stored image reads back to an equal table.
//! let image = table.to_image().unwrap();
//! assert_eq!(Table::from_image(&image).unwrap(), table);
//! # Ok::<(), StepRefusal>(())
//! ```
//!
//! # Who made it
//!
//! Each record says [who made the object](Record::made_by): the actor of its allocate, or nobody for an object that was
//! not made in a run or whose maker's number was [reclaimed](#dead-numbers-again). A table of zeros is not sound, for
//! its unborn records have the maker 0: a new one begins as [`Table::unborn`].
//!
//! Images of version 2, [`IMAGE_BYTES`] long, have the makers. Those of version 1, [`OLDER_IMAGE_BYTES`] long, have no
//! place for them. Both are [read](Table::from_image), and a table goes [back to version 1](Table::to_older_image) as
//! long as it has no maker. [`confine`] takes version 1 alone.
//!
//! ```
//! use captable::{PairList, Request, Set, StepRefusal, Table, WriteOlderRefusal, ACTIVE, ALIVE};
//!
//! let mut table = Table::unborn();
//! table.record_mut(5).status = ALIVE;
//! table.record_mut(5).kind = ACTIVE;
//! table.record_mut(5).stock = Set::of(&[10]);
//! let older = table.to_older_image().unwrap();
//! assert_eq!(Table::from_image(&older).unwrap(), table);
//!
//! let (part, list) = (Set::EMPTY, PairList::EMPTY);
//! table.step(&Request::Allocate { actor: 5, n: 10, kind: ACTIVE, part, i: 0, list })?;
//! assert_eq!(table.record(10).made_by(), Some(5));
//! assert_eq!(table.record(5).made_by(), None);
//! assert_eq!(table.to_older_image(), Err(WriteOlderRefusal::MakerRecorded));
//! # Ok::<(), StepRefusal>(())
//! ```
//!
//! # Dead numbers again
//!
//! A [destroy](Request::Destroy) leaves a dead number, and a [reclaim](Request::Reclaim) makes of a dead number an
//! unborn one, in the stock of whoever asked. It needs wr over it, and no more: who else holds a capability over the
//! number is not asked, does not stand in the way, and cannot be told from the reply.
//!
//! | what names the number | after the reclaim |
//! |---|---|
//! | a slot of any object, active or passive, whatever its rights | empty; its holder is not told, and is answered 4 when it uses the slot |
//! | the [maker](Record::made_by) of any object | nobody |
//! | its own record | [`Record::UNBORN`] |
//!
//! Whatever is made of it afterwards is another object. A mailbox, a queued request or a set of members that the
//! firmware keeps by number was the old one's, and has to be cleared when the object is destroyed or its number
//! reclaimed.
//!
//! ```
//! use captable::{Capability, PairList, Record, Request, Set, StepRefusal, Table, ACTIVE, ALIVE, WK};
//!
//! // 5 makes 10 of its stock and holds it in slot 0; 6 comes to read it weakly.
//! let mut table = Table::unborn();
//! for n in [5, 6] {
//!     table.record_mut(n).status = ALIVE;
//!     table.record_mut(n).kind = ACTIVE;
//! }
//! table.record_mut(5).stock = Set::of(&[10]);
//! let (part, list) = (Set::EMPTY, PairList::EMPTY);
//! let make = Request::Allocate { actor: 5, n: 10, kind: ACTIVE, part, i: 0, list };
//! table.step(&make)?;
//! *table.slot_mut(6, 0) = Capability { target: 10, rights: WK };
//!
//! // The number comes back when 10 is dead, and not before.
//! let reclaim = Request::Reclaim { actor: 5, t: 0 };
//! assert_eq!(table.step(&reclaim), Err(StepRefusal::TargetAlive));
//! table.step(&Request::Destroy { actor: 5, t: 0 })?;
//! table.step(&reclaim)?;
//! assert_eq!(*table.record(10), Record::UNBORN);
//! assert_eq!(table.record(5).stock, Set::of(&[10]));
//! assert_eq!(*table.slot(6, 0), Capability::EMPTY);
//!
//! // It is made again, and 6 has nothing over the new object.
//! table.step(&make)?;
//! assert_eq!(table.step(&Request::Read { actor: 6, t: 0 }), Err(StepRefusal::SlotEmpty));
//! # Ok::<(), StepRefusal>(())
//! ```
//!
//! # One caller at a time
//!
//! A step copies the table out, works on the copy and copies it back. A second step on the same table
//! that began and ended in between would be undone, and both would have been answered 0. Here `&mut` shuts
//! that out: two callers cannot step one table at once unless a lock stands between them.
//!
//! ```compile_fail,E0499
//! use captable::{Request, Table};
//!
//! let mut table = Table::unborn();
//! std::thread::scope(|threads| {
//!     threads.spawn(|| table.step(&Request::Read { actor: 0, t: 0 }));
//!     threads.spawn(|| table.step(&Request::Read { actor: 4, t: 0 }));
//! });
//! ```
//!
//! With a lock it is what the compiler takes:
//!
//! ```
//! use captable::{Request, Table};
//! use std::sync::Mutex;
//!
//! static TABLE: Mutex<Table> = Mutex::new(Table::unborn());
//! std::thread::scope(|threads| {
//!     threads.spawn(|| TABLE.lock().unwrap().step(&Request::Read { actor: 0, t: 0 }));
//!     threads.spawn(|| TABLE.lock().unwrap().step(&Request::Read { actor: 4, t: 0 }));
//! });
//! ```
//!
//! [`raw::captable_step`] takes a pointer and shuts out nothing. Nor does the compiler see a table that an
//! interrupt handler reaches through a `static mut` or an `UnsafeCell`: there the firmware has to mask that
//! interrupt for the length of a step, or to have the handler leave its request for the main loop.
//!
//! # Who asks
//!
//! A request's actor is authority: the step uses the slots, the word and the stock of the object that the
//! request names, and nothing in the table can tell who wrote that name. A routine that fills in the bytes
//! of its own requests can speak as any object. Only the firmware knows which routine is running, so it
//! has to say so: [`Table::step_as`] takes the actor apart from the bytes and overwrites theirs.
//! [`Table::step_bytes`] believes them, and is for bytes that the firmware wrote itself.
//!
//! # Empty copies
//!
//! A fetch, a store, a send and an allocate copy slots. A copy that comes out empty changes no slot: the
//! destination holds what it held before.
//!
//! | request | its copy is empty | then |
//! |---|---|---|
//! | [fetch](Request::Fetch) | of an empty slot; through wk without rd also of rights 2, 8 or 10 | the actor's slot stays |
//! | [store](Request::Store) | of an empty slot | the target's slot stays |
//! | [send](Request::Send) | of an empty slot, for each pair | the target's slot stays as the pairs before left it |
//! | [allocate](Request::Allocate) | of an empty slot, for each pair | the new object's slot stays as the pairs before left it, at first empty |
//!
//! So of several pairs to one slot the last one that is not empty wins, and the reply slot of a send comes after
//! all of them. The request is done all the same: `Ok(())` does not say that something came. A slot of an object
//! that stays alive is emptied by a [revoke](Request::Revoke) and by a [reclaim](Request::Reclaim) of the number that
//! it names, and by nothing else; a [destroy](Request::Destroy) takes all slots with the object.
//!
//! ```
//! use captable::{Capability, Request, StepRefusal, Table, ACTIVE, ALIVE, RD, WR};
//!
//! // The routine 0 reads 1 through its slot 0, its channel, and has wr over itself in slot 1.
//! let mut table = Table::unborn();
//! table.record_mut(0).status = ALIVE;
//! table.record_mut(0).kind = ACTIVE;
//! table.record_mut(1).status = ALIVE;
//! let channel = Capability { target: 1, rights: RD };
//! *table.slot_mut(0, 0) = channel;
//! *table.slot_mut(0, 1) = Capability { target: 0, rights: WR };
//!
//! // All slots of 1 are empty. A fetch from one of them into slot 0 is done and leaves the channel.
//! table.step(&Request::Fetch { actor: 0, t: 0, i: 3, j: 0 })?;
//! assert_eq!(*table.slot(0, 0), channel);
//!
//! // A revoke empties it.
//! table.step(&Request::Revoke { actor: 0, t: 1, j: 0 })?;
//! assert_eq!(*table.slot(0, 0), Capability::EMPTY);
//! # Ok::<(), StepRefusal>(())
//! ```
//!
//! # What needs an entry
//!
//! The list of a [test](Table::test) has up to eight entries, each a target and rights. What a member holds
//! over a non-member needs an entry, unless its rights are exactly wk:
//!
//! | rights over a non-member | have to be listed for it |
//! |---|---|
//! | wk and no other | nothing |
//! | rd, wr, tx, one of them or more | each of them |
//! | wk and others, as 5 (rd and wk), 6 or 12 | each of them, wk too |
//!
//! If a right is missing that has to be listed, the test is refused by 12. An entry with wk alone is allowed: it
//! takes one of the eight places, and the bound is the same with it and without it. The bound is worked from the
//! list, and not from what the members hold.
//!
//! ```
//! use captable::{Capability, Finding, Set, Table, TestRefusal, ALIVE, RD, WK};
//!
//! // The routine 0 reads a material table, object 9, through wk alone.
//! let mut table = Table::unborn();
//! table.record_mut(0).status = ALIVE;
//! table.record_mut(9).status = ALIVE;
//! let (routine, weak) = (Set::of(&[0]), Capability { target: 9, rights: WK });
//! *table.slot_mut(0, 0) = weak;
//! let nobody = Finding { bound: Set::EMPTY, rounds: 0 };
//! assert_eq!(table.test(routine, &[]), Ok(nobody));
//! assert_eq!(table.test(routine, &[weak]), Ok(nobody));
//!
//! // With rd beside it, both have to be listed.
//! *table.slot_mut(0, 0) = Capability { target: 9, rights: RD | WK };
//! let rd = Capability { target: 9, rights: RD };
//! assert_eq!(table.test(routine, &[]), Err(TestRefusal::RightUnlisted));
//! assert_eq!(table.test(routine, &[rd]), Err(TestRefusal::RightUnlisted));
//! assert_eq!(table.test(routine, &[rd, weak]), Ok(Finding { bound: Set::of(&[9]), rounds: 1 }));
//! ```
//!
//! # Two ways
//!
//! Potential access and the confinement test come twice, with the same answer for every table, bound, rounds and
//! refusals included:
//!
//! | the first way | by groups |
//! |---|---|
//! | [`Table::potential_access`] | [`Table::access_by_groups`] |
//! | [`Table::test`] | [`Table::test_by_groups`] |
//!
//! `potential_access` goes by document 01's rules one by one, and `test` by rounds over all that is there. By groups,
//! objects that a held rd, wr or tx joins, in either direction and through others, are one group: an object has all four rights over its group, and wk alone over every
//! born object outside of it from which links lead to it. It is the shorter way on every table and
//! for every test that was measured; a full table is answered many times sooner. It takes more stack, which the header
//! states.
//!
//! ```
//! use captable::{Capability, Set, Table, ALIVE, RD, WR};
//!
//! // 1 reads 2, and the members {0} may write to 2.
//! let mut table = Table::unborn();
//! for n in 0..3 {
//!     table.record_mut(n).status = ALIVE;
//! }
//! *table.slot_mut(1, 0) = Capability { target: 2, rights: RD };
//! let (members, list) = (Set::of(&[0]), [Capability { target: 2, rights: WR }]);
//! let found = table.test_by_groups(members, &list)?;
//! assert_eq!((found.bound, found.rounds), (Set::of(&[1, 2]), 2));
//! assert_eq!(table.test(members, &list), Ok(found));
//! # Ok::<(), captable::TestRefusal>(())
//! ```
//!
//! # What it links
//!
//! `libcaptable.a` from the folder that the variable `CAPTABLE_LIB_DIR` names by an absolute path, or else
//! from the repository's `target/staticlib`. The archive is code for x86-64 with ELF objects and System V
//! calls; the build stops with a sentence where the target is another or the archive is missing. That code
//! uses the SSE registers: with no system below it, the firmware has to enable them, and an interrupt
//! handler that steps a table has to save them. What was linked says its [`version`], which is to be
//! [`VERSION`].
#![no_std]
#![deny(missing_docs)]

mod chain;
mod confine;
mod finding;
mod pairs;
pub mod raw;
mod refusal;
mod relation;
mod request;
mod set;
mod show;
mod table;

pub use chain::{Chain, MAX_LINKS};
pub use confine::{confine, Printed, CONFINE_BYTES};
pub use finding::Finding;
pub use pairs::{Pair, PairList, TooManyPairs, MAX_PAIRS};
pub use raw::{Capability, Record};
pub use refusal::{
    AccessRefusal, ChainRefusal, ImportRefusal, ReadRefusal, StepRefusal, TestRefusal,
    WriteOlderRefusal, WriteRefusal,
};
pub use relation::{Relation, Right};
pub use request::{Request, RequestBytes, NO_REPLY, REQUEST_BYTES};
pub use set::{Numbers, Set};
pub use table::Table;

/// The number of objects of a table.
pub const OBJECTS: u8 = 64;
/// The number of slots of an object.
pub const SLOTS: u8 = 8;
/// The length of an image in bytes: of version 2, which has the makers.
pub const IMAGE_BYTES: usize = 1987;
/// The length of an image of the older form in bytes: of version 1, which has no place for makers.
pub const OLDER_IMAGE_BYTES: usize = 1923;
/// The length of the longest import in bytes: 64 entities with eight capabilities each.
pub const IMPORT_BYTES: usize = 1092;
/// The most entries that the list of a test may have. What a member holds with [`WK`] alone needs none.
pub const MAX_ENTRIES: usize = 8;

/// Status of a number that no object has.
pub const UNBORN: u8 = 0;
/// Status of an object in use.
pub const ALIVE: u8 = 1;
/// Status of an object that was destroyed, until its number is [reclaimed](Request::Reclaim).
pub const DEAD: u8 = 2;

/// Kind of an object that makes no requests.
pub const PASSIVE: u8 = 0;
/// Kind of an object that makes requests and can be sent to.
pub const ACTIVE: u8 = 1;

/// The [maker](Record::maker) of an object that was not made in a run or whose maker's number was
/// [reclaimed](Request::Reclaim), and of an unborn record.
pub const NO_MAKER: u8 = 64;

/// The right to read.
pub const RD: u8 = 1;
/// The right to write.
pub const WR: u8 = 2;
/// The weak right: reading that passes on nothing stronger than itself. Who holds it alone influences nobody
/// by it, and a [test](Table::test) asks for no entry for it.
pub const WK: u8 = 4;
/// The right to send.
pub const TX: u8 = 8;

/// The version of the calls that this crate was written for: 65,536 times the first number, 256 times the
/// second, and the third.
pub const VERSION: u32 = 0x00_0A_00;

/// The version of the calls that were linked. Where it is not [`VERSION`], the archive is another than the
/// crate was written for.
#[must_use]
pub fn version() -> u32 {
    // SAFETY: the call takes nothing.
    unsafe { raw::captable_version() }
}
