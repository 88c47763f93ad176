//! How often makers were met: recorded by requests, in the tables that were compared for soundness, and as an offence.

use std::fmt;

use yavrinks_model::step::Request;
use yavrinks_model::table::{Record, Table, NO_MAKER, UNBORN};
use yavrinks_tools::generate::without_makers;

/// What a request that was done has to do with makers, whom a born record of a sound table has, and why a table is
/// unsound that would be sound without its makers.
#[derive(Clone, Copy, Debug, PartialEq, Eq)]
pub enum MakerKind {
    Recorded,
    RecordedByMade,
    DestroyedMade,
    DestroyedMaker,
    Nobody,
    Alive,
    Dead,
    Itself,
    OfUnborn,
    Unborn,
    NoNumber,
}

impl MakerKind {
    pub const ALL: [MakerKind; 11] = [
        MakerKind::Recorded,
        MakerKind::RecordedByMade,
        MakerKind::DestroyedMade,
        MakerKind::DestroyedMaker,
        MakerKind::Nobody,
        MakerKind::Alive,
        MakerKind::Dead,
        MakerKind::Itself,
        MakerKind::OfUnborn,
        MakerKind::Unborn,
        MakerKind::NoNumber,
    ];

    fn label(self) -> &'static str {
        match self {
            MakerKind::Recorded => "allocate that recorded its actor",
            MakerKind::RecordedByMade => "allocate by an object that was made itself",
            MakerKind::DestroyedMade => "destroy of an object that has a maker",
            MakerKind::DestroyedMaker => "destroy of an object that made another",
            MakerKind::Nobody => "born record, sound table: the maker is 64",
            MakerKind::Alive => "born record, sound table: another, alive",
            MakerKind::Dead => "born record, sound table: another, dead",
            MakerKind::Itself => "born record, sound table: itself",
            MakerKind::OfUnborn => "unsound by makers alone: of an unborn record",
            MakerKind::Unborn => "unsound by makers alone: an unborn number",
            MakerKind::NoNumber => "unsound by makers alone: above 64",
        }
    }
}

/// How often each kind came.
#[derive(Clone, Debug, Default, PartialEq, Eq)]
pub struct MakerCounts([u64; MakerKind::ALL.len()]);

impl MakerCounts {
    fn add(&mut self, kind: MakerKind) {
        self.0[kind as usize] += 1;
    }

    pub fn of(&self, kind: MakerKind) -> u64 {
        self.0[kind as usize]
    }

    /// Counts a request that was done on the table.
    pub fn count_request(&mut self, before: &Table, request: &Request) {
        match *request {
            Request::Allocate { actor, .. } => {
                self.add(MakerKind::Recorded);
                if before.record(actor).maker != NO_MAKER {
                    self.add(MakerKind::RecordedByMade);
                }
            }
            Request::Destroy { actor, t } => {
                let target = before.record(actor).slots[usize::from(t)].target;
                if before.record(target).maker != NO_MAKER {
                    self.add(MakerKind::DestroyedMade);
                }
                if (0..64).any(|n| n != target && before.record(n).maker == target) {
                    self.add(MakerKind::DestroyedMaker);
                }
            }
            _ => {}
        }
    }

    /// Counts the makers in a table: of all born records where it is sound, and of those that offend where nothing
    /// else does.
    pub fn count_table(&mut self, table: &Table) {
        let sound = table.is_sound();
        if !sound && !without_makers(table).is_sound() {
            return;
        }
        let kinds = (0..64).filter_map(|n| match sound {
            true => kind_in_sound(table, n),
            false => offence(table, table.record(n)),
        });
        kinds.for_each(|kind| self.add(kind));
    }
}

fn kind_in_sound(table: &Table, n: u8) -> Option<MakerKind> {
    let record = table.record(n);
    if !record.is_born() {
        return None;
    }
    Some(match record.maker {
        NO_MAKER => MakerKind::Nobody,
        maker if maker == n => MakerKind::Itself,
        maker if table.record(maker).is_alive() => MakerKind::Alive,
        _ => MakerKind::Dead,
    })
}

fn offence(table: &Table, record: &Record) -> Option<MakerKind> {
    match record.maker {
        NO_MAKER => None,
        _ if record.status == UNBORN => Some(MakerKind::OfUnborn),
        maker if maker > NO_MAKER => Some(MakerKind::NoNumber),
        maker if !table.is_born(maker) => Some(MakerKind::Unborn),
        _ => None,
    }
}

impl fmt::Display for MakerCounts {
    fn fmt(&self, out: &mut fmt::Formatter<'_>) -> fmt::Result {
        writeln!(out, "makers")?;
        for kind in MakerKind::ALL {
            writeln!(out, "{:58}{:>9}", kind.label(), self.of(kind))?;
        }
        Ok(())
    }
}
