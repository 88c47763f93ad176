//! The capability table: records, soundness, table K and the wholly unborn table.
//! Fields hold any value of their width, so that an unsound table can be represented too.

use crate::set;

/// The number of records in a table.
pub const OBJECTS: usize = 64;
/// The number of slots in a record.
pub const SLOTS: usize = 8;

/// Status of a number that has not been made into an object yet.
pub const UNBORN: u8 = 0;
/// Status of an object that is in use.
pub const ALIVE: u8 = 1;
/// Status of an object that was destroyed. Its number is used again after a reclaim alone.
pub const DEAD: u8 = 2;

/// The maker of what was not made in a run, and of an unborn number: a number that no object has.
pub const NO_MAKER: u8 = 64;

/// Kind of an object that makes no requests.
pub const PASSIVE: u8 = 0;
/// Kind of an object that makes requests and can be sent to.
pub const ACTIVE: u8 = 1;

/// The right to read.
pub const RD: u8 = 1;
/// The right to write.
pub const WR: u8 = 2;
/// The weak right: reading that passes on nothing stronger than itself.
pub const WK: u8 = 4;
/// The right to send.
pub const TX: u8 = 8;
/// All four rights.
pub const ALL_RIGHTS: u8 = RD | WR | WK | TX;

/// The content of one slot.
#[derive(Clone, Copy, Debug, PartialEq, Eq)]
pub struct Capability {
    pub target: u8,
    pub rights: u8,
}

impl Capability {
    /// The content of an empty slot.
    pub const EMPTY: Capability = Capability::new(0, 0);

    pub const fn new(target: u8, rights: u8) -> Capability {
        Capability { target, rights }
    }

    /// A slot with rights 0 but a target other than 0 is filled, and so an offence.
    pub fn is_empty(self) -> bool {
        self == Capability::EMPTY
    }

    /// Whether at least one of the given rights is present.
    pub fn has_any(self, rights: u8) -> bool {
        self.rights & rights != 0
    }
}

/// The eight slots of a record.
pub type Slots = [Capability; SLOTS];

/// Eight empty slots.
pub const NO_SLOTS: Slots = [Capability::EMPTY; SLOTS];

/// One record of a table.
#[derive(Clone, Copy, Debug, PartialEq, Eq)]
pub struct Record {
    pub status: u8,
    pub kind: u8,
    pub word: u32,
    pub stock: u64,
    pub slots: Slots,
    /// The number of the object that made it, or `NO_MAKER`.
    pub maker: u8,
}

impl Record {
    /// The record of an unborn number.
    pub const UNBORN: Record = Record {
        status: UNBORN,
        kind: PASSIVE,
        word: 0,
        stock: 0,
        slots: NO_SLOTS,
        maker: NO_MAKER,
    };

    pub fn is_alive(&self) -> bool {
        self.status == ALIVE
    }

    pub fn is_born(&self) -> bool {
        self.status == ALIVE || self.status == DEAD
    }

    pub fn is_active(&self) -> bool {
        self.kind == ACTIVE
    }

    /// Whether the object can make requests.
    pub fn can_act(&self) -> bool {
        self.is_alive() && self.is_active()
    }

    /// The capabilities in the filled slots, in slot order.
    pub fn capabilities(&self) -> impl Iterator<Item = Capability> + '_ {
        self.slots.iter().copied().filter(|slot| !slot.is_empty())
    }

    /// Whether word, stock and slots hold nothing.
    fn holds_nothing(&self) -> bool {
        self.word == 0 && self.stock == 0 && self.slots == NO_SLOTS
    }
}

/// A table of 64 records.
#[derive(Clone, Debug, PartialEq, Eq)]
pub struct Table {
    pub records: [Record; OBJECTS],
}

impl Table {
    /// The wholly unborn table.
    pub fn unborn() -> Table {
        Table {
            records: [Record::UNBORN; OBJECTS],
        }
    }

    /// Table K of document 01, the start of its examples.
    pub fn k() -> Table {
        let mut table = Table::unborn();
        for record in &mut table.records[0..=6] {
            record.status = ALIVE;
        }
        for n in [0, 2, 4, 5] {
            table.records[n].kind = ACTIVE;
        }
        table.records[0].slots[0] = Capability::new(1, RD);
        table.records[2].slots[0] = Capability::new(1, WK);
        table.records[2].slots[1] = Capability::new(6, WK);
        table.records[4].slots[0] = Capability::new(3, WR);
        table.records[5].slots[0] = Capability::new(1, WR);
        table.records[5].stock = set::of([10, 11]);
        table.records[4].stock = set::of([12]);
        table
    }

    /// The record of number `n`, which is at most 63.
    pub fn record(&self, n: u8) -> &Record {
        &self.records[usize::from(n)]
    }

    /// The record of number `n`, to be changed.
    pub fn record_mut(&mut self, n: u8) -> &mut Record {
        &mut self.records[usize::from(n)]
    }

    /// Whether `n` is an object number and born. A target above 63 is not.
    pub fn is_born(&self, n: u8) -> bool {
        self.records
            .get(usize::from(n))
            .is_some_and(Record::is_born)
    }

    /// The born numbers.
    pub fn born(&self) -> u64 {
        set::of((0..64).filter(|&n| self.is_born(n)))
    }

    /// Whether some maker is not 64.
    pub fn has_makers(&self) -> bool {
        self.records.iter().any(|record| record.maker != NO_MAKER)
    }

    /// Soundness: the four clauses of document 01 and the one of 2.7, one function each.
    pub fn is_sound(&self) -> bool {
        self.statuses_and_kinds_are_listed()
            && self.only_the_alive_hold_anything()
            && self.filled_slots_are_valid()
            && self.stocks_are_valid()
            && self.makers_are_valid()
    }

    fn statuses_and_kinds_are_listed(&self) -> bool {
        self.records.iter().all(|record| {
            matches!(record.status, UNBORN | ALIVE | DEAD)
                && matches!(record.kind, PASSIVE | ACTIVE)
        })
    }

    fn only_the_alive_hold_anything(&self) -> bool {
        self.records.iter().all(|record| match record.status {
            UNBORN => record.kind == PASSIVE && record.holds_nothing(),
            DEAD => record.holds_nothing(),
            _ => true,
        })
    }

    fn filled_slots_are_valid(&self) -> bool {
        self.records.iter().all(|record| {
            record.capabilities().all(|capability| {
                self.is_born(capability.target) && (1..=ALL_RIGHTS).contains(&capability.rights)
            })
        })
    }

    fn stocks_are_valid(&self) -> bool {
        let mut in_earlier_stocks = 0;
        for record in &self.records {
            if record.stock & in_earlier_stocks != 0 {
                return false;
            }
            in_earlier_stocks |= record.stock;
        }
        set::numbers(in_earlier_stocks).all(|n| self.record(n).status == UNBORN)
    }

    /// A maker is 64 or a born number, and 64 alone for an unborn record.
    fn makers_are_valid(&self) -> bool {
        self.records.iter().all(|record| match record.status {
            UNBORN => record.maker == NO_MAKER,
            _ => record.maker == NO_MAKER || self.is_born(record.maker),
        })
    }
}
