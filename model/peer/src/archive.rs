//! The calls that are compared. The bodies below are those of the linked archive; a test overrides one
//! of them to see a wrong archive found out.
//!
//! What a call may only read is lent to be changed all the same, so that a call that wrote there would
//! be found out too.

use captable::raw;

use crate::fast;

extern "C" {
    /// The soundness scan in C.
    fn peer_scan(table: *const raw::Table) -> u8;
}

/// The version that the comparison is for, 0.10.0: the first number times 65,536, the second times 256.
pub const VERSION: u32 = 2560;

/// The archive's calls, the scan in C and the version that is written for speed.
pub trait Calls {
    /// The wholly unborn table.
    fn unborn(&self) -> raw::Table {
        // SAFETY: the call takes nothing.
        unsafe { raw::captable_unborn() }
    }

    /// 0 for a sound table, 1 for any other.
    fn sound(&self, table: &mut raw::Table) -> u8 {
        // SAFETY: the call takes a value alone.
        unsafe { raw::captable_sound(*table) }
    }

    /// One request on a table that is lent.
    fn step(&self, table: &mut raw::Table, request: &mut [u8]) -> u8 {
        // SAFETY: the table is borrowed for the call alone; pointer and length are of one slice.
        unsafe { raw::captable_step(table, request.as_mut_ptr(), request.len()) }
    }

    /// One request on a table by value.
    fn stepped(&self, table: &mut raw::Table, request: &mut [u8]) -> raw::Outcome {
        // SAFETY: pointer and length are of one slice.
        unsafe { raw::captable_step_by_value(*table, request.as_mut_ptr(), request.len()) }
    }

    /// Potential access.
    fn access(&self, table: &mut raw::Table) -> raw::Relation {
        // SAFETY: the call takes a value alone.
        unsafe { raw::captable_access(*table) }
    }

    /// Potential access, by groups.
    fn access_by_groups(&self, table: &mut raw::Table) -> raw::Relation {
        // SAFETY: the call takes a value alone.
        unsafe { raw::captable_access_by_groups(*table) }
    }

    /// The confinement test.
    fn test(&self, table: &mut raw::Table, members: u64, list: &mut [u8]) -> raw::Finding {
        // SAFETY: pointer and length are of one slice.
        unsafe { raw::captable_test(*table, members, list.as_mut_ptr(), list.len()) }
    }

    /// The confinement test, its bound by groups.
    fn test_by_groups(
        &self,
        table: &mut raw::Table,
        members: u64,
        list: &mut [u8],
    ) -> raw::Finding {
        // SAFETY: pointer and length are of one slice.
        unsafe { raw::captable_test_by_groups(*table, members, list.as_mut_ptr(), list.len()) }
    }

    /// The chain to an object of the bound.
    fn chain(
        &self,
        table: &mut raw::Table,
        members: u64,
        list: &mut [u8],
        object: u8,
    ) -> raw::Shown {
        // SAFETY: pointer and length are of one slice.
        unsafe { raw::captable_chain(*table, members, list.as_mut_ptr(), list.len(), object) }
    }

    /// Reads an image.
    fn read(&self, image: &mut [u8]) -> raw::Outcome {
        // SAFETY: pointer and length are of one slice.
        unsafe { raw::captable_read(image.as_mut_ptr(), image.len()) }
    }

    /// Brings in a take-and-grant table.
    fn import(&self, bytes: &mut [u8]) -> raw::Outcome {
        // SAFETY: pointer and length are of one slice.
        unsafe { raw::captable_import(bytes.as_mut_ptr(), bytes.len()) }
    }

    /// Writes an image of version 2 into a buffer.
    fn write(&self, table: &mut raw::Table, buffer: &mut [u8]) -> u8 {
        // SAFETY: pointer and length are of one slice, which is borrowed for the call alone.
        unsafe { raw::captable_write(*table, buffer.as_mut_ptr(), buffer.len()) }
    }

    /// Writes an image of version 1 into a buffer.
    fn write_older(&self, table: &mut raw::Table, buffer: &mut [u8]) -> u8 {
        // SAFETY: pointer and length are of one slice, which is borrowed for the call alone.
        unsafe { raw::captable_write_older(*table, buffer.as_mut_ptr(), buffer.len()) }
    }

    /// Puts what `confine` prints into the buffer, and says how many bytes that is.
    fn confine(&self, input: &mut [u8], out: &mut [u8; 256]) -> usize {
        // SAFETY: pointer and length are of one slice; the buffer is borrowed for the call alone.
        unsafe { raw::captable_confine(input.as_mut_ptr(), input.len(), out) }
    }

    /// The archive's version.
    fn version(&self) -> u32 {
        // SAFETY: the call takes nothing.
        unsafe { raw::captable_version() }
    }

    /// The scan in C: 0 for a sound table, 1 for any other.
    fn scan(&self, table: &raw::Table) -> u8 {
        // SAFETY: the scan reads one table, laid out as the archive has it.
        unsafe { peer_scan(table) }
    }

    /// Potential access by the version that is written for speed.
    fn fast_access(&self, table: &raw::Table) -> raw::Relation {
        let mut answer = raw::Relation {
            rows: [u64::MAX; 256],
            number: u8::MAX,
        };
        fast::access(table, &mut answer);
        answer
    }

    /// The confinement test by the version that is written for speed.
    fn fast_test(&self, table: &raw::Table, members: u64, list: &[u8]) -> raw::Finding {
        fast::test(table, members, list)
    }
}

/// The linked archive.
pub struct Archive;

impl Calls for Archive {}
