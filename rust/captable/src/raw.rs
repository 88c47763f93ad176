//! The archive's calls and structs as they cross, field for field those of `include/captable.h`.
//!
//! The safe calls are methods of [`Table`](crate::Table). These are here for whoever needs the exact
//! boundary: a slice goes as its pointer and then its length, and every answer is a number of document 01
//! or 02, 0 for done. The structs are `Copy`, as C's are, since the calls take them by value.

use crate::{Set, NO_MAKER};

/// What a slot holds: a target, and rights over it (1 rd, 2 wr, 4 wk, 8 tx). All zero is an empty slot.
#[repr(C)]
#[derive(Clone, Copy, Debug, Default, PartialEq, Eq)]
pub struct Capability {
    /// The number of the object that the capability is over.
    pub target: u8,
    /// The rights, added up. `docs/RIGHTS.md` has a row for each of the sixteen values: what it may be used for,
    /// and what a fetch without rd makes of it.
    pub rights: u8,
}

impl Capability {
    /// What an empty slot holds.
    pub const EMPTY: Capability = Capability {
        target: 0,
        rights: 0,
    };
}

/// An object's record. Its default is [`Record::UNBORN`], which is not all zero.
#[repr(C)]
#[derive(Clone, Copy, Debug, PartialEq, Eq)]
pub struct Record {
    /// 0 unborn, 1 alive, 2 dead.
    pub status: u8,
    /// 0 passive, 1 active.
    pub kind: u8,
    /// The number of the object that made it, or [`NO_MAKER`]; see [`made_by`](Record::made_by).
    pub maker: u8,
    /// The object's word.
    pub word: u32,
    /// The unborn numbers that the object may make objects of. It crosses as its 64 bits.
    pub stock: Set,
}

impl Record {
    /// The record of a number that no object has.
    pub const UNBORN: Record = Record {
        status: 0,
        kind: 0,
        maker: NO_MAKER,
        word: 0,
        stock: Set::EMPTY,
    };

    /// Who made the object: the actor of its allocate. None for an object that was not made in a run, as those are
    /// that an import brings in or that an image of version 1 has, for one whose maker's number was reclaimed, and for
    /// a number that no object has.
    ///
    /// An allocate writes it, a reclaim of the maker's number takes it away, and nothing else changes it; a dead object
    /// keeps it. In a sound table the maker is born, and may be dead by now. It is there for service to look at, and is
    /// no authority: no call asks for it but to see whether the table is sound.
    #[must_use]
    pub const fn made_by(&self) -> Option<u8> {
        match self.maker {
            NO_MAKER => None,
            maker => Some(maker),
        }
    }
}

/// The record of a number that no object has.
impl Default for Record {
    fn default() -> Record {
        Record::UNBORN
    }
}

/// The table: 64 records, and slot j of object n at n * 8 + j. One of zeros is not sound, since its unborn records have
/// the maker 0: every call that takes it answers 1.
#[repr(C)]
#[derive(Clone, Copy, Debug, PartialEq, Eq)]
pub struct Table {
    /// The records, in number order.
    pub records: [Record; 64],
    /// The slots, eight for each record.
    pub slots: [Capability; 512],
}

/// A table and a number.
#[repr(C)]
#[derive(Clone, Copy, Debug, PartialEq, Eq)]
pub struct Outcome {
    /// The table after the call.
    pub table: Table,
    /// 0, or why the call was refused.
    pub number: u8,
}

/// Potential access: the row at 64 * right + holder has the numbers over which the holder has the
/// right, rights in the order rd, wr, wk, tx.
#[repr(C)]
#[derive(Clone, Copy, Debug, PartialEq, Eq)]
pub struct Relation {
    /// The rows.
    pub rows: [u64; 256],
    /// 0, or 1 for a table that is not sound.
    pub number: u8,
}

/// What the confinement test found.
#[repr(C)]
#[derive(Clone, Copy, Debug, PartialEq, Eq)]
pub struct Finding {
    /// The non-members that the members can ever influence, bit n for number n; empty on a refusal. Worked
    /// from the list, and not from what the members hold.
    pub bound: u64,
    /// In how many rounds that influence spreads: how many rounds added an object. 0 for an empty bound and on a
    /// refusal, and at most 63. See [`Finding::rounds`](crate::Finding::rounds).
    pub rounds: u8,
    /// 0 for accepted, or why the test was refused.
    pub number: u8,
}

/// A chain of links from the stand-in to an object of the bound.
#[repr(C)]
#[derive(Clone, Copy, Debug, PartialEq, Eq)]
pub struct Shown {
    /// The chain's object numbers in turn, the stand-in left out; zero after the count.
    pub numbers: [u8; 63],
    /// How many numbers the chain has; none on a refusal.
    pub count: u8,
    /// 0, or why no chain is shown.
    pub number: u8,
}

extern "C" {
    /// The version of these calls: see [`VERSION`](crate::VERSION).
    pub fn captable_version() -> u32;
    /// The wholly unborn table.
    pub fn captable_unborn() -> Table;
    /// 0 for a sound table, 1 for any other.
    pub fn captable_sound(table: Table) -> u8;
    /// One request on the lent table. A refusal leaves the table as it was, and a copy that comes out empty the
    /// slot that it goes to.
    ///
    /// The second byte of the request names the actor, whose rights are used: the caller vouches for it.
    ///
    /// # Safety
    /// `table` points to a table that nothing else uses during the call, no other step and no interrupt
    /// handler either: the table is copied out and back, and what another wrote meanwhile would be undone.
    /// `request` points to `length` bytes.
    pub fn captable_step(table: *mut Table, request: *const u8, length: usize) -> u8;
    /// One request on a table by value: the reply's number, and the table after it.
    ///
    /// # Safety
    /// `request` points to `length` bytes.
    pub fn captable_step_by_value(table: Table, request: *const u8, length: usize) -> Outcome;
    /// Potential access of a table.
    pub fn captable_access(table: Table) -> Relation;
    /// Potential access of a table, worked by groups: the same answer as that of `captable_access`.
    pub fn captable_access_by_groups(table: Table) -> Relation;
    /// The confinement test of a set of members and a list, two bytes for each entry: the bound, and the rounds that
    /// it took. What a member holds with wk alone needs no entry.
    ///
    /// # Safety
    /// `list` points to `length` bytes.
    pub fn captable_test(table: Table, members: u64, list: *const u8, length: usize) -> Finding;
    /// The same test, its bound worked by groups: the same answer as that of `captable_test`.
    ///
    /// # Safety
    /// `list` points to `length` bytes.
    pub fn captable_test_by_groups(
        table: Table,
        members: u64,
        list: *const u8,
        length: usize,
    ) -> Finding;
    /// The chain to an object of the bound of that test.
    ///
    /// # Safety
    /// `list` points to `length` bytes.
    pub fn captable_chain(
        table: Table,
        members: u64,
        list: *const u8,
        length: usize,
        object: u8,
    ) -> Shown;
    /// Reads an image of either version; on every refusal with the wholly unborn table.
    ///
    /// # Safety
    /// `image` points to `length` bytes.
    pub fn captable_read(image: *const u8, length: usize) -> Outcome;
    /// Brings in a take-and-grant table of an older rig; on every refusal with the wholly unborn table. The
    /// table that is given back is always sound.
    ///
    /// # Safety
    /// `bytes` points to `length` bytes.
    pub fn captable_import(bytes: *const u8, length: usize) -> Outcome;
    /// Writes a table's image, of version 2, into the first 1,987 bytes of a buffer. A refusal leaves every byte.
    ///
    /// # Safety
    /// `buffer` points to `length` bytes that nothing else uses during the call.
    pub fn captable_write(table: Table, buffer: *mut u8, length: usize) -> u8;
    /// Writes the older form, an image of version 1, into the first 1,923 bytes of a buffer, unless some maker is not
    /// 64. A refusal leaves every byte.
    ///
    /// # Safety
    /// `buffer` points to `length` bytes that nothing else uses during the call.
    pub fn captable_write_older(table: Table, buffer: *mut u8, length: usize) -> u8;
    /// Puts what the program `confine` prints for the input at the start of a buffer of 256 bytes, leaves
    /// the rest of it, and says how many bytes that is.
    ///
    /// # Safety
    /// `input` points to `length` bytes, `out` to 256 bytes that nothing else uses during the call.
    pub fn captable_confine(input: *const u8, length: usize, out: *mut [u8; 256]) -> usize;
}
