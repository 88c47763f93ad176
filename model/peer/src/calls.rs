//! The archive's calls by name, what each of them is given, and the number that it answers.

use captable::raw;
use yavrinks_model::table::Table;
use yavrinks_tools::generate::printed_number;

use crate::archive::{Archive, Calls, VERSION};
use crate::convert::{to_model, to_raw};

/// An exported call.
#[derive(Clone, Copy, Debug, PartialEq, Eq)]
pub enum Call {
    Step,
    Stepped,
    Sound,
    Access,
    AccessByGroups,
    Test,
    TestByGroups,
    Chain,
    Read,
    Import,
    Write,
    WriteOlder,
    Confine,
    Unborn,
    Version,
}

impl Call {
    pub const ALL: [Call; 15] = [
        Call::Step,
        Call::Stepped,
        Call::Sound,
        Call::Access,
        Call::AccessByGroups,
        Call::Test,
        Call::TestByGroups,
        Call::Chain,
        Call::Read,
        Call::Import,
        Call::Write,
        Call::WriteOlder,
        Call::Confine,
        Call::Unborn,
        Call::Version,
    ];

    /// The name that the archive exports.
    pub fn name(self) -> &'static str {
        match self {
            Call::Step => "captable_step",
            Call::Stepped => "captable_step_by_value",
            Call::Sound => "captable_sound",
            Call::Access => "captable_access",
            Call::AccessByGroups => "captable_access_by_groups",
            Call::Test => "captable_test",
            Call::TestByGroups => "captable_test_by_groups",
            Call::Chain => "captable_chain",
            Call::Read => "captable_read",
            Call::Import => "captable_import",
            Call::Write => "captable_write",
            Call::WriteOlder => "captable_write_older",
            Call::Confine => "captable_confine",
            Call::Unborn => "captable_unborn",
            Call::Version => "captable_version",
        }
    }

    /// Is the table pushed by the caller?
    pub fn takes_table(self) -> bool {
        !matches!(
            self,
            Call::Step | Call::Read | Call::Import | Call::Confine | Call::Unborn | Call::Version
        )
    }
}

/// What a call is given. Of each field only what the call takes is used.
#[derive(Clone, Debug)]
pub struct Sample {
    pub name: String,
    /// The number that the model gives for it.
    pub number: u8,
    pub table: Table,
    pub members: u64,
    /// The request, the list, the image, the import, the input or the buffer.
    pub bytes: Vec<u8>,
    /// The object whose chain is asked for.
    pub object: u8,
}

/// The number that the archive gives.
pub fn answer(call: Call, sample: &Sample) -> u8 {
    let (mut table, mut bytes) = (to_raw(&sample.table), sample.bytes.clone());
    match call {
        Call::Step => Archive.step(&mut table, &mut bytes),
        Call::Stepped => Archive.stepped(&mut table, &mut bytes).number,
        Call::Sound => Archive.sound(&mut table),
        Call::Access => Archive.access(&mut table).number,
        Call::AccessByGroups => Archive.access_by_groups(&mut table).number,
        Call::Test => Archive.test(&mut table, sample.members, &mut bytes).number,
        Call::TestByGroups => {
            let found = Archive.test_by_groups(&mut table, sample.members, &mut bytes);
            found.number
        }
        Call::Chain => {
            let shown = Archive.chain(&mut table, sample.members, &mut bytes, sample.object);
            shown.number
        }
        Call::Read => Archive.read(&mut bytes).number,
        Call::Import => Archive.import(&mut bytes).number,
        Call::Write => Archive.write(&mut table, &mut bytes),
        Call::WriteOlder => Archive.write_older(&mut table, &mut bytes),
        Call::Confine => {
            let mut out = [0; 256];
            let count = Archive.confine(&mut bytes, &mut out);
            printed_number(&String::from_utf8_lossy(&out[..count.min(256)]))
        }
        Call::Unborn => unborn_number(&Archive.unborn()),
        Call::Version => version_number(Archive.version()),
    }
}

/// The unborn table's stand-in for a number: 0 for the one that is expected, 1 for any other.
pub fn unborn_number(table: &raw::Table) -> u8 {
    u8::from(to_model(table) != Table::unborn())
}

/// The version's stand-in for a number: 0 for the one that is expected, 1 for any other.
pub fn version_number(version: u32) -> u8 {
    u8::from(version != VERSION)
}
