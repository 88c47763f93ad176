//! How many rounds accepted tests took.

use std::fmt;
use std::ops::RangeInclusive;

/// The most rounds that a test can take.
const MOST: usize = 63;

/// The columns that are printed, each with the numbers of rounds that it sums up.
const COLUMNS: [(&str, RangeInclusive<usize>); 6] = [
    ("0", 0..=0),
    ("1", 1..=1),
    ("2", 2..=2),
    ("3", 3..=3),
    ("4 to 9", 4..=9),
    ("10 to 63", 10..=MOST),
];

/// How often each number of rounds came.
#[derive(Clone, Debug, PartialEq, Eq)]
pub struct RoundCounts([u64; MOST + 1]);

impl Default for RoundCounts {
    fn default() -> RoundCounts {
        RoundCounts([0; MOST + 1])
    }
}

impl RoundCounts {
    pub fn add(&mut self, rounds: u8) {
        self.0[usize::from(rounds)] += 1;
    }

    pub fn of(&self, rounds: u8) -> u64 {
        self.0[usize::from(rounds)]
    }
}

impl fmt::Display for RoundCounts {
    fn fmt(&self, out: &mut fmt::Formatter<'_>) -> fmt::Result {
        write!(out, "{:25}", "accepted tests by rounds")?;
        for (name, _) in COLUMNS {
            write!(out, "{name:>9}")?;
        }
        writeln!(out, "{:>10}{:>6}", "all", "most")?;
        write!(out, "{:25}", "confinement test")?;
        for (_, rounds) in COLUMNS {
            write!(out, "{:>9}", self.0[rounds].iter().sum::<u64>())?;
        }
        let most = (0..=MOST).rev().find(|&rounds| self.0[rounds] > 0);
        let all = self.0.iter().sum::<u64>();
        writeln!(out, "{all:>10}{:>6}", most.unwrap_or(0))
    }
}
