//! Wrong readings of 2.6 of document 02: how many rounds somebody could report for a test. Cases have to tell each of
//! them from the right one. Rounds are counted over 65 points here, the 64 numbers and the stand-in.

use crate::generate::ConfinementCase;
use yavrinks_model::confinement::{confinement_test, Entry};
use yavrinks_model::set;
use yavrinks_model::table::{Capability, ALL_RIGHTS, OBJECTS, RD, TX, WK, WR};

/// How many rounds are reported of a test.
type Count = fn(&ConfinementCase) -> u8;

/// A wrong reading.
#[derive(Clone, Copy, Debug)]
pub struct Misreading {
    pub name: &'static str,
    accepted: Count,
    refused: Count,
}

impl Misreading {
    /// A reading that is wrong about accepted tests alone.
    const fn of_accepted(name: &'static str, accepted: Count) -> Misreading {
        Misreading {
            name,
            accepted,
            refused: |_| 0,
        }
    }

    /// How many rounds it reports.
    pub fn rounds(&self, case: &ConfinementCase) -> u8 {
        if confinement_test(&case.table, case.members, &case.list).is_accepted() {
            (self.accepted)(case)
        } else {
            (self.refused)(case)
        }
    }
}

/// The wrong readings.
pub const MISREADINGS: [Misreading; 16] = [
    Misreading::of_accepted("counts the round that adds nothing", |case| {
        right_rounds(case) + 1
    }),
    Misreading {
        name: "starts at 1",
        accepted: |case| right_rounds(case) + 1,
        refused: |_| 1,
    },
    Misreading::of_accepted("counts objects", |case| {
        right_links(case).all_there().count_ones() as u8 - 1
    }),
    Misreading::of_accepted("stops at the highest number", to_the_highest),
    Misreading::of_accepted("grows in place, upwards", |case| {
        let order = || [STAND_IN].into_iter().chain(0..OBJECTS);
        right_links(case).rounds_by(|links, there| links.round_in_place(there, order()))
    }),
    Misreading::of_accepted("grows in place, downwards", |case| {
        let order = || (0..POINTS).rev();
        right_links(case).rounds_by(|links, there| links.round_in_place(there, order()))
    }),
    Misreading::of_accepted("takes wk from holder to target", |case| {
        Links::of(case, ALL_RIGHTS, RD | WR | TX).rounds()
    }),
    Misreading::of_accepted("takes wk either way", |case| {
        Links::of(case, ALL_RIGHTS, ALL_RIGHTS).rounds()
    }),
    Misreading::of_accepted("takes rd as wk", |case| {
        Links::of(case, WR | TX, ALL_RIGHTS).rounds()
    }),
    Misreading {
        name: "keeps the counter of a refused test",
        accepted: right_rounds,
        refused: right_rounds,
    },
    Misreading::of_accepted("counts the stand-in", with_the_stand_in),
    Misreading::of_accepted("goes through members", through_members),
    Misreading::of_accepted("goes by what members hold", |case| {
        right_rounds(&with_list(case, held_outside(case)))
    }),
    Misreading::of_accepted("takes unlisted wk for an entry", |case| {
        let held = held_outside(case).into_iter();
        let weak = held.filter(|&(_, rights)| rights == WK);
        let entries = weak.map(|(target, _)| (target, WR));
        let list = case.list.iter().copied().chain(entries);
        right_rounds(&with_list(case, list.collect()))
    }),
    Misreading::of_accepted("leaves the entry out", |case| {
        right_rounds(case).saturating_sub(1)
    }),
    Misreading::of_accepted("counts to 62 at most", |case| right_rounds(case).min(62)),
];

/// The point of the stand-in, after the 64 numbers.
const STAND_IN: usize = OBJECTS;
const POINTS: usize = OBJECTS + 1;
/// The stand-in as a set of points.
const STAND_IN_ALONE: u128 = 1 << STAND_IN;

/// The points one link from each point, as bits.
struct Links([u128; POINTS]);

impl Links {
    /// The links of what non-members hold and of what is listed: from holder to target with one of the rights
    /// `forth`, from target to holder with one of the rights `back`.
    fn of(case: &ConfinementCase, forth: u8, back: u8) -> Links {
        let mut links = Links([0; POINTS]);
        for n in set::numbers(!case.members) {
            for held in case.table.record(n).capabilities() {
                links.add(usize::from(n), held, forth, back);
            }
        }
        for &(target, rights) in &case.list {
            links.add(STAND_IN, Capability::new(target, rights), forth, back);
        }
        links
    }

    /// Adds the links of a capability. One whose target is no number has none.
    fn add(&mut self, holder: usize, held: Capability, forth: u8, back: u8) {
        let target = usize::from(held.target);
        if target >= OBJECTS {
            return;
        }
        if held.has_any(forth) {
            self.0[holder] |= 1 << target;
        }
        if held.has_any(back) {
            self.0[target] |= 1 << holder;
        }
    }

    /// What is there after a round.
    fn round(&self, there: u128) -> u128 {
        let starts = (0..POINTS).filter(|point| there >> point & 1 == 1);
        starts.fold(there, |grown, point| grown | self.0[point])
    }

    /// The same where a point that the round has added leads on at once, if its turn is still to come.
    fn round_in_place(&self, there: u128, order: impl Iterator<Item = usize>) -> u128 {
        order.fold(there, |grown, point| match grown >> point & 1 {
            0 => grown,
            _ => grown | self.0[point],
        })
    }

    /// How many rounds from the stand-in add a point.
    fn rounds(&self) -> u8 {
        self.rounds_by(Links::round)
    }

    fn rounds_by(&self, round: impl Fn(&Links, u128) -> u128) -> u8 {
        self.rounds_from(STAND_IN_ALONE, round)
    }

    fn rounds_from(&self, start: u128, round: impl Fn(&Links, u128) -> u128) -> u8 {
        let mut there = start;
        let mut rounds = 0;
        loop {
            let grown = round(self, there);
            if grown == there {
                return rounds;
            }
            there = grown;
            rounds += 1;
        }
    }

    /// What is there in the end, the stand-in too.
    fn all_there(&self) -> u128 {
        (0..POINTS).fold(STAND_IN_ALONE, |there, _| self.round(there))
    }
}

/// The links as 2.1 describes them.
fn right_links(case: &ConfinementCase) -> Links {
    Links::of(case, RD | WR | TX, ALL_RIGHTS)
}

/// How many rounds there are, for a refused test too.
fn right_rounds(case: &ConfinementCase) -> u8 {
    right_links(case).rounds()
}

/// Rounds until the highest number of the bound is there.
fn to_the_highest(case: &ConfinementCase) -> u8 {
    let links = right_links(case);
    let objects = links.all_there() & !STAND_IN_ALONE;
    let Some(highest) = objects.checked_ilog2() else {
        return 0;
    };
    links.rounds_by(|links, there| match there >> highest & 1 {
        0 => links.round(there),
        _ => there,
    })
}

/// Not even the stand-in is there at first, and a link that leads back adds it.
fn with_the_stand_in(case: &ConfinementCase) -> u8 {
    let links = right_links(case);
    match links.0[STAND_IN] & !STAND_IN_ALONE {
        0 => 0,
        first => 1 + links.rounds_from(first, Links::round),
    }
}

/// What members hold gives links too, and they are added like others.
pub fn through_members(case: &ConfinementCase) -> u8 {
    let mut links = right_links(case);
    for member in set::numbers(case.members) {
        for held in case.table.record(member).capabilities() {
            links.add(usize::from(member), held, RD | WR | TX, ALL_RIGHTS);
        }
    }
    links.rounds()
}

/// What members hold over non-members, as entries.
fn held_outside(case: &ConfinementCase) -> Vec<Entry> {
    set::numbers(case.members)
        .flat_map(|member| case.table.record(member).capabilities())
        .filter(|held| !set::contains(case.members, held.target))
        .map(|held| (held.target, held.rights))
        .collect()
}

fn with_list(case: &ConfinementCase, list: Vec<Entry>) -> ConfinementCase {
    ConfinementCase {
        list,
        ..case.clone()
    }
}
