//! How often each call gave each number, how often empty copies, makers and reclaims were met, how many rounds tests
//! took, how many groups tables had, and the tables that are printed of it.

use std::fmt;

use super::grouped::{GroupCounts, Way};
use super::makers::{MakerCounts, MakerKind};
use super::reclaims::{Again, ReclaimCounts, Tally};
use super::rounds::RoundCounts;
use yavrinks_model::image::{Version, VERSION_AT};
use yavrinks_model::step::{Code, Request};
use yavrinks_model::table::Table;
use yavrinks_tools::empty_kinds::{EmptyCounts, EmptyKind};

/// The numbers that calls give are 0 to 24.
const NUMBERS: usize = 25;

/// The lines of the summary, in order.
#[derive(Clone, Copy, Debug, PartialEq, Eq)]
pub enum Line {
    Code(Code),
    OtherCode,
    NoRequest,
    Sound,
    Access,
    AccessByGroups,
    Test,
    TestByGroups,
    Chain,
    Write(Version),
    Read(Version),
    /// Bytes that have no version byte, or one of no version.
    ReadOther,
    Import,
    Confine,
}

/// How many lines there are.
const LINES: usize = 24;

/// The names of the lines, in order of their place.
fn names() -> Vec<String> {
    let others = [
        "codes not 1 to 9",
        "bytes of wrong length",
        "soundness",
        "potential access",
        "the same by groups",
        "confinement test",
        "the same by groups",
        "chain to an object",
        "version 1 written, read",
        "version 2 written, read",
        "version 1 read",
        "version 2 read",
        "other bytes read",
        "import",
        "confine",
    ];
    let codes = Code::ALL.map(Code::label).into_iter();
    codes.chain(others.map(String::from)).collect()
}

/// The lines of requests come before this one.
const FIRST_OTHER: usize = 11;

impl Line {
    fn place(self) -> usize {
        match self {
            Line::Code(code) => usize::from(code.number()) - 1,
            Line::OtherCode => 9,
            Line::NoRequest => 10,
            Line::Sound => FIRST_OTHER,
            Line::Access => 12,
            Line::AccessByGroups => 13,
            Line::Test => 14,
            Line::TestByGroups => 15,
            Line::Chain => 16,
            Line::Write(version) => 16 + usize::from(version.number()),
            Line::Read(version) => 18 + usize::from(version.number()),
            Line::ReadOther => 21,
            Line::Import => 22,
            Line::Confine => 23,
        }
    }

    /// The line of bytes that are read as an image.
    pub fn of_image(image: &[u8]) -> Line {
        let version = image.get(VERSION_AT).and_then(|&byte| Version::of(byte));
        version.map_or(Line::ReadOther, Line::Read)
    }
}

/// The lines that are tests or begin with one.
const TESTS: [Line; 3] = [Line::Test, Line::Chain, Line::Confine];

/// How often each line had each number: in all, and of tests those where a member holds wk alone that the
/// list lacks. How often each kind of empty copies, of makers and of reclaims came, each number of rounds and of groups.
#[derive(Clone, Debug, Default, PartialEq, Eq)]
pub struct Counts {
    all: [[u64; NUMBERS]; LINES],
    unlisted: [[u64; NUMBERS]; LINES],
    empty: EmptyCounts,
    makers: MakerCounts,
    reclaims: ReclaimCounts,
    rounds: RoundCounts,
    groups: GroupCounts,
}

impl Counts {
    /// Counts one answer. No call gives a number above 24.
    pub fn add(&mut self, line: Line, number: u8) {
        self.all[line.place()][usize::from(number)] += 1;
    }

    /// Counts apart an answer to a test where a member holds wk alone that the list lacks.
    pub fn add_unlisted(&mut self, line: Line, number: u8) {
        self.unlisted[line.place()][usize::from(number)] += 1;
    }

    /// Counts the empty copies of a request that was done on the table, what it has to do with makers, and what a
    /// reclaim met.
    pub fn add_done(&mut self, before: &Table, request: &Request) {
        self.empty.count(before, request);
        self.makers.count_request(before, request);
        self.reclaims.count(before, request);
    }

    /// Counts a number that was made again after a reclaim.
    pub fn add_again(&mut self, again: Again) {
        self.reclaims.count_again(again);
    }

    /// How often a tally of reclaims came.
    pub fn of_reclaim(&self, tally: Tally) -> u64 {
        self.reclaims.of(tally)
    }

    /// Counts the makers in a table.
    pub fn add_makers(&mut self, table: &Table) {
        self.makers.count_table(table);
    }

    /// How often a kind of makers came.
    pub fn of_maker(&self, kind: MakerKind) -> u64 {
        self.makers.of(kind)
    }

    /// Counts an accepted test by its rounds.
    pub fn add_rounds(&mut self, rounds: u8) {
        self.rounds.add(rounds);
    }

    /// Counts a sound table that was compared both ways, by its groups.
    pub fn add_groups(&mut self, way: Way, table: &Table, groups: &[u64]) {
        self.groups.add(way, table, groups);
    }

    /// The counts of groups.
    pub fn groups(&self) -> &GroupCounts {
        &self.groups
    }

    /// How many accepted tests took so many rounds.
    pub fn of_rounds(&self, rounds: u8) -> u64 {
        self.rounds.of(rounds)
    }

    /// How often a request that was done was of the kind.
    pub fn of_empty(&self, kind: EmptyKind) -> u64 {
        self.empty.of(kind)
    }

    /// How often the line had the number.
    pub fn of(&self, line: Line, number: u8) -> u64 {
        self.all[line.place()][usize::from(number)]
    }

    /// How often it had the number where a member holds wk alone that the list lacks.
    pub fn of_unlisted(&self, line: Line, number: u8) -> u64 {
        self.unlisted[line.place()][usize::from(number)]
    }
}

impl fmt::Display for Counts {
    fn fmt(&self, out: &mut fmt::Formatter<'_>) -> fmt::Result {
        let names = names();
        let (requests, others) = names.split_at(FIRST_OTHER);
        let (replies, numbers) = self.all.split_at(FIRST_OTHER);
        write_part(out, "requests by reply", requests, replies)?;
        writeln!(out)?;
        writeln!(out, "empty copies in requests that were done")?;
        for kind in EmptyKind::ALL {
            writeln!(out, "{:58}{:>9}", kind.label(), self.of_empty(kind))?;
        }
        writeln!(out)?;
        write_part(out, "other calls by number", others, numbers)?;
        writeln!(out)?;
        let tests = TESTS.map(Line::place);
        let unlisted = tests.map(|place| self.unlisted[place]);
        let names = tests.map(|place| names[place].clone());
        write_part(out, "of these with unlisted wk", &names, &unlisted)?;
        writeln!(out)?;
        writeln!(out, "{}", self.makers)?;
        writeln!(out, "{}", self.reclaims)?;
        writeln!(out, "{}", self.rounds)?;
        write!(out, "{}", self.groups)
    }
}

/// Lines under a head of the numbers that any of them had, and the sums.
fn write_part(
    out: &mut fmt::Formatter<'_>,
    title: &str,
    names: &[String],
    lines: &[[u64; NUMBERS]],
) -> fmt::Result {
    let sum = |number: &usize| lines.iter().map(|line| line[*number]).sum::<u64>();
    let seen: Vec<usize> = (0..NUMBERS).filter(|number| sum(number) > 0).collect();
    write!(out, "{title:25}")?;
    for number in &seen {
        write!(out, "{number:>9}")?;
    }
    writeln!(out, "{:>10}", "all")?;
    for (name, line) in names.iter().zip(lines) {
        write!(out, "{name:25}")?;
        for &number in &seen {
            write!(out, "{:>9}", line[number])?;
        }
        writeln!(out, "{:>10}", line.iter().sum::<u64>())?;
    }
    write!(out, "{:25}", "all")?;
    for number in &seen {
        write!(out, "{:>9}", sum(number))?;
    }
    writeln!(out, "{:>10}", lines.iter().flatten().sum::<u64>())
}
