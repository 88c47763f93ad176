//! The table and its calls.

use crate::raw;
use crate::request::REQUEST_BYTES;
use crate::{AccessRefusal, ChainRefusal, ImportRefusal, ReadRefusal};
use crate::{Capability, Chain, Finding, Record, Relation, Request, Set};
use crate::{StepRefusal, TestRefusal, WriteOlderRefusal, WriteRefusal};
use crate::{IMAGE_BYTES, MAX_ENTRIES, OBJECTS, OLDER_IMAGE_BYTES, SLOTS};

/// The capability table: 64 records with eight slots each. Any value may be put into it; every call
/// checks that it is sound first.
///
/// There is one table in a case, and it has 2 KB. So a table is no `Copy`: `let mut t = table` moves it,
/// and a second table, whose steps the first never sees, is made by `clone` alone.
///
/// ```compile_fail,E0382
/// let table = captable::Table::unborn();
/// let mut second = table;
/// second.record_mut(0).status = captable::ALIVE;
/// assert!(table.is_sound()); // the table has moved: no copy was left here to be asked by mistake
/// ```
///
/// ```
/// let table = captable::Table::unborn();
/// let mut second = table.clone();
/// second.record_mut(0).status = captable::ALIVE;
/// assert!(table.is_sound());
/// ```
#[derive(Clone, PartialEq, Eq)]
pub struct Table(raw::Table);

/// The wholly unborn table.
impl Default for Table {
    fn default() -> Table {
        Table::unborn()
    }
}

impl Table {
    /// The wholly unborn table, which is sound: zeros, but for the maker of each record, which is
    /// [`NO_MAKER`](crate::NO_MAKER). It can be the first value of a `static`.
    #[must_use]
    pub const fn unborn() -> Table {
        Table(raw::Table {
            records: [Record::UNBORN; OBJECTS as usize],
            slots: [Capability::EMPTY; OBJECTS as usize * SLOTS as usize],
        })
    }

    /// The table of an image of version 1 or 2. One of version 1 gives every record [`NO_MAKER`](crate::NO_MAKER), and
    /// goes back by [`to_older_image`](Table::to_older_image) to equal bytes.
    ///
    /// # Errors
    /// 14 for fewer than three bytes; then 15 for a version byte that is neither 1 nor 2, at any length; then 14
    /// unless the slice and the length field have the length of that version, 1,923 or 1,987; then 1 for a table that
    /// is not sound.
    pub fn from_image(image: &[u8]) -> Result<Table, ReadRefusal> {
        // SAFETY: the pointer and the length are of one slice.
        let outcome = unsafe { raw::captable_read(image.as_ptr(), image.len()) };
        ReadRefusal::check(outcome.number)?;
        Ok(Table(outcome.table))
    }

    /// The take-and-grant table of an older rig (source document 001), brought in. It is always sound.
    ///
    /// The bytes are their own length in two bytes, the most significant first; the version byte 1; how many
    /// entities there are, 0 to 64; and the entities, each with how many capabilities it has, 0 to 8, and for
    /// each of them the target and the rights, which add up: 1 Read, 2 Write, 4 Grant, 8 Create, 16 Store.
    ///
    /// Entities are numbered from 0 as they come, and become alive and active, with word 0 and no stock. Their
    /// capabilities go into their slots in order: Read becomes rd, Write wr, Grant tx, Store rd and wr
    /// together, Create nothing; a capability that is left with no right gives an empty slot in its place.
    /// All other numbers are unborn, and since they are in no stock, no object can be made in this table. Nobody made
    /// what it has.
    ///
    /// ```
    /// use captable::{Capability, ImportRefusal, Set, Table, RD, WR};
    ///
    /// // 0 and 2 have Store over 1, and 3 has Write over 0.
    /// let bytes = [0, 14, 1, 4, 1, 1, 16, 0, 1, 1, 16, 1, 0, 2];
    /// let table = Table::import(&bytes)?;
    /// assert_eq!(*table.slot(0, 0), Capability { target: 1, rights: RD | WR });
    ///
    /// // It is judged as any table: 3 gets at 0, and by the Store links at 1 and 2.
    /// let list = [Capability { target: 0, rights: WR }];
    /// let found = table.test(Set::of(&[3]), &list).unwrap();
    /// assert_eq!(found.bound, Set::of(&[0, 1, 2]));
    ///
    /// assert_eq!(Table::import(&bytes[..13]), Err(ImportRefusal::ImportLengthWrong));
    /// # Ok::<(), ImportRefusal>(())
    /// ```
    ///
    /// # Errors
    /// 20 for fewer than four bytes or a length field that is not how many there are, then 21 for a version
    /// byte that is not 1, then 22 for more than 64 entities. Then the first offence as the entities are gone
    /// through byte by byte: 22 for more than eight capabilities, a target that is no entity's number or
    /// rights above 31, 20 where the bytes end before the entities do or go on after them.
    pub fn import(bytes: &[u8]) -> Result<Table, ImportRefusal> {
        // SAFETY: the pointer and the length are of one slice.
        let outcome = unsafe { raw::captable_import(bytes.as_ptr(), bytes.len()) };
        ImportRefusal::check(outcome.number)?;
        Ok(Table(outcome.table))
    }

    /// Writes the image, of version 2, into the buffer's first [`IMAGE_BYTES`] bytes. A refusal leaves every byte.
    ///
    /// # Errors
    /// 1 for a table that is not sound, then 16 for a buffer that is too short.
    pub fn write_image(&self, buffer: &mut [u8]) -> Result<(), WriteRefusal> {
        // SAFETY: the pointer and the length are of one slice, which is borrowed for the call alone.
        WriteRefusal::check(unsafe {
            raw::captable_write(self.0, buffer.as_mut_ptr(), buffer.len())
        })
    }

    /// The image as an array.
    ///
    /// # Errors
    /// 1 for a table that is not sound.
    pub fn to_image(&self) -> Result<[u8; IMAGE_BYTES], WriteRefusal> {
        let mut image = [0; IMAGE_BYTES];
        self.write_image(&mut image)?;
        Ok(image)
    }

    /// Writes the older form, an image of version 1, into the buffer's first [`OLDER_IMAGE_BYTES`] bytes. A refusal
    /// leaves every byte.
    ///
    /// # Errors
    /// 1 for a table that is not sound, then 23 if some [maker](Record::made_by) is recorded, that of a dead object
    /// too, then 16 for a buffer that is too short.
    pub fn write_older_image(&self, buffer: &mut [u8]) -> Result<(), WriteOlderRefusal> {
        // SAFETY: the pointer and the length are of one slice, which is borrowed for the call alone.
        WriteOlderRefusal::check(unsafe {
            raw::captable_write_older(self.0, buffer.as_mut_ptr(), buffer.len())
        })
    }

    /// The older form as an array, such as an input of [`confine`](crate::confine()) begins with.
    ///
    /// # Errors
    /// 1 for a table that is not sound, then 23 if some [maker](Record::made_by) is recorded.
    pub fn to_older_image(&self) -> Result<[u8; OLDER_IMAGE_BYTES], WriteOlderRefusal> {
        let mut image = [0; OLDER_IMAGE_BYTES];
        self.write_older_image(&mut image)?;
        Ok(image)
    }

    /// Is the table sound?
    #[must_use]
    pub fn is_sound(&self) -> bool {
        // SAFETY: the call takes a value alone.
        unsafe { raw::captable_sound(self.0) == 0 }
    }

    /// One request. A refusal leaves the table as it was.
    ///
    /// The request's actor is who asks, and the caller vouches for it. A copy that comes out empty changes no
    /// slot, and the request is done all the same: see [empty copies](crate#empty-copies).
    ///
    /// # Errors
    /// 1 to 9, the first cause in number order; of a reclaim 24 too, after 4 and before 6.
    pub fn step(&mut self, request: &Request) -> Result<(), StepRefusal> {
        self.step_bytes(request.to_bytes().as_slice())
    }

    /// One request from bytes that someone else wrote, asked by the actor that the caller knows it to be.
    ///
    /// The byte that names the actor is overwritten by `actor` in a copy. Bytes too short to have one are
    /// stepped as they are, and like all bytes that are no request they are refused by 2. A refusal
    /// leaves the table as it was.
    ///
    /// A mailbox that its owner can still write to while this runs is no `&[u8]`: copy it first, byte by
    /// byte with [`core::ptr::read_volatile`], and hand in the copy.
    ///
    /// ```
    /// # let mut table = captable::Table::unborn();
    /// # for n in [3, 4, 5] {
    /// #     table.record_mut(n).status = captable::ALIVE;
    /// #     table.record_mut(n).kind = captable::ACTIVE;
    /// # }
    /// # *table.slot_mut(4, 0) = captable::Capability { target: 3, rights: captable::WR };
    /// use captable::StepRefusal;
    ///
    /// // 4 may write to 3. 5 may not, and claims in its mailbox to be 4.
    /// let mailbox = [2, 4, 0, 0, 0, 0, 7];
    /// let running = 5;
    /// assert_eq!(table.step_as(running, &mailbox), Err(StepRefusal::SlotEmpty));
    /// assert_eq!(table.record(3).word, 0);
    /// ```
    ///
    /// # Errors
    /// 1 to 9, the first cause in number order; of a reclaim 24 too, after 4 and before 6.
    pub fn step_as(&mut self, actor: u8, mailbox: &[u8]) -> Result<(), StepRefusal> {
        let mut bytes = [0; REQUEST_BYTES];
        let Some(request) = bytes.get_mut(..mailbox.len()) else {
            // Longer than any request is no request, and so are no bytes at all: both get the same number.
            return self.step_bytes(&[]);
        };
        request.copy_from_slice(mailbox);
        if let Some(place) = request.get_mut(1) {
            *place = actor;
        }
        self.step_bytes(request)
    }

    /// One request from its bytes: the code, then the documents' fields. Any other bytes are refused by 2.
    /// A refusal leaves the table as it was.
    ///
    /// The second byte names the actor, and whoever wrote it decided whose rights are used. For bytes that
    /// a routine may have written this is the wrong call: it could speak as any object. Use
    /// [`step_as`](Table::step_as).
    ///
    /// # Errors
    /// 1 to 9, the first cause in number order; of a reclaim 24 too, after 4 and before 6.
    pub fn step_bytes(&mut self, request: &[u8]) -> Result<(), StepRefusal> {
        // SAFETY: the table is borrowed for the call alone, and the pointer and the length are of one slice.
        StepRefusal::check(unsafe {
            raw::captable_step(&mut self.0, request.as_ptr(), request.len())
        })
    }

    /// Who can come to have which right over whom.
    ///
    /// # Errors
    /// 1 for a table that is not sound.
    pub fn potential_access(&self) -> Result<Relation, AccessRefusal> {
        // SAFETY: the call takes a value alone.
        let relation = unsafe { raw::captable_access(self.0) };
        AccessRefusal::check(relation.number)?;
        Ok(Relation::new(relation.rows))
    }

    /// The same answer as that of [`potential_access`](Table::potential_access), for every table, worked in another way.
    /// See [two ways](crate#two-ways).
    ///
    /// ```
    /// # let mut table = captable::Table::unborn();
    /// # for n in [1, 2, 3, 4] {
    /// #     table.record_mut(n).status = captable::ALIVE;
    /// # }
    /// # *table.slot_mut(1, 0) = captable::Capability { target: 2, rights: captable::RD };
    /// # *table.slot_mut(3, 0) = captable::Capability { target: 2, rights: captable::WR };
    /// # *table.slot_mut(4, 0) = captable::Capability { target: 3, rights: captable::WK };
    /// use captable::{Right, Set};
    ///
    /// // 1 reads 2, and 3 writes to it: 1, 2 and 3 are one group. 4 reads 3 weakly, and so all of them.
    /// let access = table.access_by_groups()?;
    /// assert_eq!(access.over(1, Right::Wr), Set::of(&[1, 2, 3]));
    /// assert_eq!(access.over(4, Right::Wk), Set::of(&[1, 2, 3, 4]));
    /// assert_eq!(access.over(4, Right::Rd), Set::of(&[4]));
    /// assert_eq!(access, table.potential_access()?);
    /// # Ok::<(), captable::AccessRefusal>(())
    /// ```
    ///
    /// # Errors
    /// 1 for a table that is not sound.
    pub fn access_by_groups(&self) -> Result<Relation, AccessRefusal> {
        // SAFETY: the call takes a value alone.
        let relation = unsafe { raw::captable_access_by_groups(self.0) };
        AccessRefusal::check(relation.number)?;
        Ok(Relation::new(relation.rows))
    }

    /// The confinement test: the non-members that the members can ever influence, if over non-members they
    /// hold no more than the list has, wk alone not counted; and in how many [rounds](Finding::rounds) that
    /// influence spreads.
    ///
    /// A member's capability to a non-member needs an entry, unless its rights are exactly wk: every right of
    /// it has to be listed for its target, in one entry or in several. Beside another right wk has to be
    /// listed too. A capability with rights exactly wk needs no entry; an entry with wk alone is allowed
    /// and leaves the bound as it is. The bound is worked from the list, and not from what the members hold. See
    /// [what needs an entry](crate#what-needs-an-entry).
    ///
    /// ```
    /// # let mut table = captable::Table::unborn();
    /// # for n in [1, 2, 3, 5] {
    /// #     table.record_mut(n).status = captable::ALIVE;
    /// # }
    /// # *table.slot_mut(2, 0) = captable::Capability { target: 1, rights: captable::WK };
    /// # *table.slot_mut(2, 1) = captable::Capability { target: 3, rights: captable::WK };
    /// use captable::{Capability, Set, WR};
    ///
    /// // The members {5} may write to 1. 2 reads 1 and 3 weakly, so that it learns from 1, and 3 learns nothing.
    /// let found = table.test(Set::of(&[5]), &[Capability { target: 1, rights: WR }])?;
    /// assert_eq!(found.bound, Set::of(&[1, 2]));
    /// // Round one adds 1, and round two adds 2.
    /// assert_eq!(found.rounds, 2);
    /// # Ok::<(), captable::TestRefusal>(())
    /// ```
    ///
    /// # Errors
    /// 1 for a table that is not sound, and 10 to 13, the first cause in number order: 12 for a right that
    /// needs an entry and is not listed, 13 for a non-member's capability that names a member, whatever its
    /// rights are.
    pub fn test(&self, members: Set, list: &[Capability]) -> Result<Finding, TestRefusal> {
        let list = ListBytes::new(list);
        // SAFETY: the length is within the array.
        let finding =
            unsafe { raw::captable_test(self.0, members.bits(), list.bytes.as_ptr(), list.length) };
        TestRefusal::check(finding.number)?;
        Ok(Finding::new(&finding))
    }

    /// The same answer as that of [`test`](Table::test), refusals included, with the bound worked in another way. See
    /// [two ways](crate#two-ways).
    ///
    /// # Errors
    /// Those of [`test`](Table::test).
    pub fn test_by_groups(
        &self,
        members: Set,
        list: &[Capability],
    ) -> Result<Finding, TestRefusal> {
        let list = ListBytes::new(list);
        // SAFETY: the length is within the array.
        let finding = unsafe {
            raw::captable_test_by_groups(self.0, members.bits(), list.bytes.as_ptr(), list.length)
        };
        TestRefusal::check(finding.number)?;
        Ok(Finding::new(&finding))
    }

    /// How an object comes to be in the bound that [`test`](Table::test) gives: a shortest chain of links
    /// to it from the stand-in, which is in the place of all members and holds exactly the list. Among
    /// chains of one length it is the one whose numbers come first, compared from the stand-in's end.
    ///
    /// Each link is one capability that a non-member holds or that is listed: rd, wr and tx lead either
    /// way, wk from target to holder. So what a member holds without an entry, which is wk alone, is no link.
    ///
    /// ```
    /// # let mut table = captable::Table::unborn();
    /// # for n in [1, 2, 5] {
    /// #     table.record_mut(n).status = captable::ALIVE;
    /// # }
    /// # *table.slot_mut(2, 0) = captable::Capability { target: 1, rights: captable::WK };
    /// use captable::{Capability, Set, WR};
    ///
    /// // The members {5} may write to 1, which 2 reads weakly.
    /// let (members, list) = (Set::of(&[5]), [Capability { target: 1, rights: WR }]);
    /// assert!(table.test(members, &list)?.bound.contains(2));
    /// let chain = table.chain(members, &list, 2).expect("2 is in the bound");
    /// assert_eq!(chain.as_slice(), [1, 2]);
    /// assert_eq!(chain.to_string(), "1 -> 2");
    /// # Ok::<(), captable::TestRefusal>(())
    /// ```
    ///
    /// # Errors
    /// Those of the test, in number order; then 18 for an object above 63, unborn or a member, and 19 for
    /// one outside the bound.
    pub fn chain(
        &self,
        members: Set,
        list: &[Capability],
        object: u8,
    ) -> Result<Chain, ChainRefusal> {
        let list = ListBytes::new(list);
        // SAFETY: the length is within the array.
        let shown = unsafe {
            raw::captable_chain(
                self.0,
                members.bits(),
                list.bytes.as_ptr(),
                list.length,
                object,
            )
        };
        ChainRefusal::check(shown.number)?;
        Ok(Chain::new(&shown))
    }

    /// The record of object `n`.
    ///
    /// # Panics
    /// If `n` is above 63.
    #[must_use]
    pub fn record(&self, n: u8) -> &Record {
        &self.0.records[usize::from(n)]
    }

    /// The record of object `n`, to be changed.
    ///
    /// # Panics
    /// If `n` is above 63.
    pub fn record_mut(&mut self, n: u8) -> &mut Record {
        &mut self.0.records[usize::from(n)]
    }

    /// Slot `j` of object `n`.
    ///
    /// # Panics
    /// If `n` is above 63 or `j` above 7.
    #[must_use]
    pub fn slot(&self, n: u8, j: u8) -> &Capability {
        &self.0.slots[place(n, j)]
    }

    /// The same slot, to be changed.
    ///
    /// # Panics
    /// If `n` is above 63 or `j` above 7.
    pub fn slot_mut(&mut self, n: u8, j: u8) -> &mut Capability {
        &mut self.0.slots[place(n, j)]
    }

    /// The table as it crosses to the archive.
    #[must_use]
    pub fn as_raw(&self) -> &raw::Table {
        &self.0
    }

    /// A table as it crosses to the archive, to be changed.
    pub fn as_raw_mut(&mut self) -> &mut raw::Table {
        &mut self.0
    }
}

/// The list of a test as it crosses: two bytes for each entry.
struct ListBytes {
    bytes: [u8; 2 * (MAX_ENTRIES + 1)],
    length: usize,
}

impl ListBytes {
    /// A list that is too long goes as its first nine entries, and is refused like all of it.
    fn new(list: &[Capability]) -> ListBytes {
        let mut bytes = [0; 2 * (MAX_ENTRIES + 1)];
        for (two, entry) in bytes.chunks_exact_mut(2).zip(list) {
            two.copy_from_slice(&[entry.target, entry.rights]);
        }
        let length = 2 * list.len().min(MAX_ENTRIES + 1);
        ListBytes { bytes, length }
    }
}

/// Where slot j of object n stands.
fn place(n: u8, j: u8) -> usize {
    assert!(n < OBJECTS, "there is no object {n}");
    assert!(j < SLOTS, "an object has slots 0 to 7, and no slot {j}");
    usize::from(n) * usize::from(SLOTS) + usize::from(j)
}
