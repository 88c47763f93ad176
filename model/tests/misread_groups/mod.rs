//! Wrong readings of 2.9: what somebody could take potential access or the bound by groups to be.
//! The tools put their cases to this file too, so that there is one list. Points are bits here, the 64 numbers and
//! after them the stand-in.

use yavrinks_model::access::{Access, Relation};
use yavrinks_model::confinement::{confinement_test, Entry, Tested};
use yavrinks_model::set;
use yavrinks_model::table::{Capability, Table, ALL_RIGHTS, OBJECTS, RD, TX, WK, WR};

/// A wrong reading.
#[derive(Clone, Copy, Debug, PartialEq, Eq, PartialOrd, Ord)]
pub enum Misread {
    /// wk joins too.
    WkJoins,
    /// rd is taken as wk: it joins nobody, and leads from target to holder alone.
    RdAsWk,
    /// rd joins one way: the target is in the holder's group, and the holder not in the target's. It leads from target
    /// to holder alone.
    RdJoinsOneWay,
    /// tx leads from holder to target alone, and joins nobody.
    TxOneWay,
    /// A capability with wk among its rights is weak, whatever the others are.
    WkAmongOthers,
    /// An object has rights over its own group alone.
    OwnGroupAlone,
    /// A dead object takes no part.
    DeadLeftOut,
    /// wk is over those to which links lead out of x.
    LinksOut,
    /// One link has to lead there, not several.
    OneLink,
    /// Links of wk alone lead to x.
    WkLinksAlone,
    /// What members hold is left out of potential access.
    MembersLeftOut,
    /// What members hold is let into the bound, and they come into it.
    MembersInBound,
    /// The stand-in holds what members hold, and not the list.
    MembersForList,
    /// One pass over what is held gives both ends the lower of their marks, and not all of their groups: a join that
    /// comes later is missed. Links lead from who has the same mark, and by wk.
    OnePass,
    /// A group is who is joined to x directly.
    NotThroughOthers,
    /// Who is joined to nobody has no group, and so no right over itself.
    AloneIsNoGroup,
    /// An unborn number is a group by itself.
    UnbornTakePart,
}

impl Misread {
    pub const ALL: [Misread; 17] = [
        Misread::WkJoins,
        Misread::RdAsWk,
        Misread::RdJoinsOneWay,
        Misread::TxOneWay,
        Misread::WkAmongOthers,
        Misread::OwnGroupAlone,
        Misread::DeadLeftOut,
        Misread::LinksOut,
        Misread::OneLink,
        Misread::WkLinksAlone,
        Misread::MembersLeftOut,
        Misread::MembersInBound,
        Misread::MembersForList,
        Misread::OnePass,
        Misread::NotThroughOthers,
        Misread::AloneIsNoGroup,
        Misread::UnbornTakePart,
    ];

    /// Potential access by this reading. One alone asks for members.
    pub fn access(self, table: &Table, members: u64) -> (u8, Access) {
        access_read(Some(self), table, members)
    }

    /// The test by this reading. A refused one is as ever, and so are the rounds.
    pub fn test(self, table: &Table, members: u64, list: &[Entry]) -> Tested {
        test_read(Some(self), table, members, list)
    }

    /// The group of x in a sound table by this reading.
    pub fn group(self, table: &Table, members: u64, x: u8) -> u64 {
        let points = Points::of_table(Some(self), table, members);
        points.groups()[usize::from(x)] as u64
    }
}

/// Potential access by a wrong reading, or with nothing misread.
pub fn access_read(misread: Option<Misread>, table: &Table, members: u64) -> (u8, Access) {
    if !table.is_sound() {
        return (1, Access::none());
    }
    (0, Points::of_table(misread, table, members).relation())
}

/// The test by a wrong reading, or with nothing misread.
pub fn test_read(misread: Option<Misread>, table: &Table, members: u64, list: &[Entry]) -> Tested {
    let right = confinement_test(table, members, list);
    if !right.is_accepted() {
        return right;
    }
    let points = Points::of_test(misread, table, members, list);
    let influenced = points.relation::<POINTS>().influenced_points(STAND_IN);
    let objects = set::of((0..64).filter(|&n| influenced[usize::from(n)]));
    let bound = match misread {
        Some(Misread::MembersInBound) => objects,
        _ => objects & !members,
    };
    Tested::accepted(bound, right.rounds)
}

const STAND_IN: usize = OBJECTS;
const POINTS: usize = OBJECTS + 1;

/// Who takes part, as bits, and what is held between them.
struct Points {
    misread: Option<Misread>,
    part: u128,
    held: Vec<(usize, Capability)>,
}

impl Points {
    fn of_table(misread: Option<Misread>, table: &Table, members: u64) -> Points {
        let holders = match misread {
            Some(Misread::MembersLeftOut) => !members,
            _ => u64::MAX,
        };
        let mut points = Points::taking_part(misread, table, u64::MAX);
        points.let_hold(table, holders);
        points
    }

    fn of_test(misread: Option<Misread>, table: &Table, members: u64, list: &[Entry]) -> Points {
        let holders = match misread {
            Some(Misread::MembersInBound) => u64::MAX,
            _ => !members,
        };
        let mut points = Points::taking_part(misread, table, holders);
        points.part |= 1 << STAND_IN;
        points.let_hold(table, holders);
        if misread == Some(Misread::MembersForList) {
            for member in set::numbers(members) {
                let held = table.record(member).capabilities();
                held.for_each(|held| points.hold(STAND_IN, held));
            }
        } else {
            for &(target, rights) in list {
                points.hold(STAND_IN, Capability::new(target, rights));
            }
        }
        points
    }

    /// Those of the numbers that take part, holding nothing yet.
    fn taking_part(misread: Option<Misread>, table: &Table, numbers: u64) -> Points {
        let takes_part = |n: &u8| match misread {
            Some(Misread::DeadLeftOut) => table.record(*n).is_alive(),
            Some(Misread::UnbornTakePart) => true,
            _ => table.is_born(*n),
        };
        let part = set::of(set::numbers(numbers).filter(takes_part));
        Points {
            misread,
            part: u128::from(part),
            held: Vec::new(),
        }
    }

    fn let_hold(&mut self, table: &Table, holders: u64) {
        for holder in set::numbers(holders) {
            let held = table.record(holder).capabilities();
            held.for_each(|held| self.hold(usize::from(holder), held));
        }
    }

    /// What is held over a point that takes no part is left out.
    fn hold(&mut self, holder: usize, held: Capability) {
        if self.part >> held.target & 1 == 1 {
            self.held.push((holder, held));
        }
    }

    /// Whether a capability brings the target into the holder's group, and the holder into the target's.
    fn joins(&self, held: Capability) -> (bool, bool) {
        let both = match self.misread {
            Some(Misread::WkJoins) => held.has_any(ALL_RIGHTS),
            Some(Misread::RdAsWk) => held.has_any(WR | TX),
            Some(Misread::RdJoinsOneWay) => {
                return (held.has_any(RD | WR | TX), held.has_any(WR | TX))
            }
            Some(Misread::TxOneWay) => held.has_any(RD | WR),
            Some(Misread::WkAmongOthers) => !held.has_any(WK),
            _ => held.has_any(RD | WR | TX),
        };
        (both, both)
    }

    /// Whether a capability leads from holder to target, and from target to holder.
    fn leads(&self, held: Capability) -> (bool, bool) {
        match self.misread {
            Some(Misread::RdAsWk | Misread::RdJoinsOneWay) => (held.has_any(WR | TX), true),
            Some(Misread::TxOneWay) => (held.has_any(RD | WR | TX), held.has_any(RD | WR | WK)),
            Some(Misread::WkAmongOthers) => (!held.has_any(WK), true),
            Some(Misread::WkLinksAlone) => (false, held.has_any(WK)),
            _ => (held.has_any(RD | WR | TX), true),
        }
    }

    /// For each point those that a capability brings to it, by what it does for holder and for target.
    fn beside(&self, does: impl Fn(Capability) -> (bool, bool)) -> [u128; POINTS] {
        let mut beside = [0; POINTS];
        for &(holder, held) in &self.held {
            let target = usize::from(held.target);
            let (of_target, of_holder) = does(held);
            beside[holder] |= u128::from(of_target) << target;
            beside[target] |= u128::from(of_holder) << holder;
        }
        beside
    }

    /// The group of each point.
    fn groups(&self) -> [u128; POINTS] {
        let joined = self.beside(|held| self.joins(held));
        let mut groups = match self.misread {
            Some(Misread::OnePass) => self.groups_in_one_pass(),
            Some(Misread::NotThroughOthers) => each(|x| joined[x] | 1 << x),
            _ => each(|x| reached(x, &joined) | 1 << x),
        };
        for (x, group) in groups.iter_mut().enumerate() {
            let alone = *group == 1 << x && self.misread == Some(Misread::AloneIsNoGroup);
            if alone || self.part >> x & 1 == 0 {
                *group = 0;
            }
        }
        groups
    }

    fn groups_in_one_pass(&self) -> [u128; POINTS] {
        let mut marks: [usize; POINTS] = each(|x| x);
        for &(holder, held) in &self.held {
            let target = usize::from(held.target);
            if self.joins(held).0 {
                let lower = marks[holder].min(marks[target]);
                (marks[holder], marks[target]) = (lower, lower);
            }
        }
        let taking_part = |y: &usize| self.part >> y & 1 == 1;
        each(|x| {
            let alike = (0..POINTS).filter(|&y| marks[y] == marks[x]);
            alike.filter(taking_part).fold(0, |all, y| all | 1 << y)
        })
    }

    /// Over whom each point has wk, if they are outside its group.
    fn weakly(&self) -> [u128; POINTS] {
        // A link that leads from target to holder brings the target to the holder.
        let to = self.beside(|held| {
            let (forth, back) = self.leads(held);
            (back, forth)
        });
        match self.misread {
            Some(Misread::OwnGroupAlone) => [0; POINTS],
            Some(Misread::OneLink) => to,
            Some(Misread::LinksOut) => {
                let out = self.beside(|held| self.leads(held));
                each(|x| reached(x, &out))
            }
            Some(Misread::OnePass) => {
                let weak = self.beside(|held| (held.has_any(WK), false));
                let groups = self.groups();
                let to = each(|x| groups[x] | weak[x]);
                each(|x| reached(x, &to))
            }
            _ => each(|x| reached(x, &to)),
        }
    }

    fn relation<const N: usize>(&self) -> Relation<N> {
        let (groups, weakly) = (self.groups(), self.weakly());
        let mut relation = Relation::none();
        for x in 0..N {
            for y in 0..N {
                if groups[x] >> y & 1 == 1 {
                    relation.add(x, y, ALL_RIGHTS);
                } else if weakly[x] >> y & 1 == 1 {
                    relation.add(x, y, WK);
                }
            }
        }
        relation
    }
}

fn each<T>(of: impl FnMut(usize) -> T) -> [T; POINTS] {
    std::array::from_fn(of)
}

/// What can be reached from x by one step or more.
fn reached(x: usize, beside: &[u128; POINTS]) -> u128 {
    let mut reached = beside[x];
    loop {
        let from = (0..POINTS).filter(|y| reached >> y & 1 == 1);
        let grown = from.fold(reached, |all, y| all | beside[y]);
        if grown == reached {
            return reached;
        }
        reached = grown;
    }
}
