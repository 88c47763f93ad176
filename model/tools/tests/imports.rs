//! Imports worked a second way: bytes are first taken apart into entities, and rights looked up in a
//! table of 32 rows. Then what has to hold of all that is brought in: the claim on Store links, with the
//! relations of document 001 as it says them.

use std::collections::{BTreeMap, BTreeSet};

use yavrinks_model::access::potential_access;
use yavrinks_model::set;
use yavrinks_model::table::{Capability, Record, Table, ACTIVE, ALIVE, PASSIVE};
use yavrinks_model::take_grant::import;
use yavrinks_tools::generate::{full_import, import_bytes, import_case, IMPORT_NUMBERS};
use yavrinks_tools::rng::Rng;
use yavrinks_tools::shared::shared_imports;
use yavrinks_tools::vectors::import_cases;

/// The old rights that links are made of.
const STORE: u8 = 16;

/// The capabilities of an entity: target and old rights.
type Entity = Vec<(u8, u8)>;

/// Why bytes are turned away.
#[derive(Clone, Copy, Debug, PartialEq, Eq, PartialOrd, Ord)]
enum Cause {
    Short,
    LengthField,
    Version,
    EntityCount,
    NoCapabilityCount,
    CapabilityCount,
    NoTarget,
    Target,
    NoRights,
    Rights,
    BytesLeft,
}

impl Cause {
    const ALL: [Cause; 11] = [
        Cause::Short,
        Cause::LengthField,
        Cause::Version,
        Cause::EntityCount,
        Cause::NoCapabilityCount,
        Cause::CapabilityCount,
        Cause::NoTarget,
        Cause::Target,
        Cause::NoRights,
        Cause::Rights,
        Cause::BytesLeft,
    ];

    fn number(self) -> u8 {
        match self {
            Cause::Version => 21,
            Cause::EntityCount | Cause::CapabilityCount | Cause::Target | Cause::Rights => 22,
            _ => 20,
        }
    }
}

/// How bytes are taken apart and what becomes of them: rightly, or with one thing wrong.
#[derive(Clone, Copy)]
struct Rules {
    most_entities: u8,
    most_capabilities: u8,
    highest_rights: u8,
    /// How far above the highest entity a target may be.
    above: u8,
    version_first: bool,
    low_byte_first: bool,
    /// Whether a capability has to be there whole before its target is looked at.
    whole_capabilities: bool,
    bytes_may_be_left: bool,
    /// What each sum of old rights becomes.
    rights: [u8; 32],
    kind: u8,
    closed_up: bool,
    empty_slots_keep_targets: bool,
}

const RIGHT: Rules = Rules {
    most_entities: 64,
    most_capabilities: 8,
    highest_rights: 31,
    above: 0,
    version_first: false,
    low_byte_first: false,
    whole_capabilities: false,
    bytes_may_be_left: false,
    rights: [
        0, 1, 2, 3, 8, 9, 10, 11, 0, 1, 2, 3, 8, 9, 10, 11, 3, 3, 3, 3, 11, 11, 11, 11, 3, 3, 3, 3,
        11, 11, 11, 11,
    ],
    kind: ACTIVE,
    closed_up: false,
    empty_slots_keep_targets: false,
};

/// Bytes and how many of them are read.
struct Cursor<'a> {
    bytes: &'a [u8],
    at: usize,
}

impl Cursor<'_> {
    fn next(&mut self) -> Option<u8> {
        let byte = self.bytes.get(self.at).copied();
        self.at += 1;
        byte
    }
}

impl Rules {
    /// The entities that bytes are.
    fn entities(&self, bytes: &[u8]) -> Result<Vec<Entity>, Cause> {
        if bytes.len() < 4 {
            return Err(Cause::Short);
        }
        if self.version_first && bytes[2] != 1 {
            return Err(Cause::Version);
        }
        let (mut high, mut low) = (usize::from(bytes[0]), usize::from(bytes[1]));
        if self.low_byte_first {
            (high, low) = (low, high);
        }
        if high * 256 + low != bytes.len() {
            return Err(Cause::LengthField);
        }
        if bytes[2] != 1 {
            return Err(Cause::Version);
        }
        if bytes[3] > self.most_entities {
            return Err(Cause::EntityCount);
        }
        let mut cursor = Cursor { bytes, at: 4 };
        let mut entities = Vec::new();
        while entities.len() < usize::from(bytes[3]) {
            entities.push(self.entity(&mut cursor, bytes[3])?);
        }
        if cursor.at < bytes.len() && !self.bytes_may_be_left {
            return Err(Cause::BytesLeft);
        }
        Ok(entities)
    }

    fn entity(&self, cursor: &mut Cursor, count: u8) -> Result<Entity, Cause> {
        let capabilities = cursor.next().ok_or(Cause::NoCapabilityCount)?;
        if capabilities > self.most_capabilities {
            return Err(Cause::CapabilityCount);
        }
        let mut entity = Entity::new();
        while entity.len() < usize::from(capabilities) {
            let target = cursor.next().ok_or(Cause::NoTarget)?;
            if self.whole_capabilities && cursor.at == cursor.bytes.len() {
                return Err(Cause::NoRights);
            }
            if u32::from(target) >= u32::from(count) + u32::from(self.above) {
                return Err(Cause::Target);
            }
            let rights = cursor.next().ok_or(Cause::NoRights)?;
            if rights > self.highest_rights {
                return Err(Cause::Rights);
            }
            entity.push((target, rights));
        }
        Ok(entity)
    }

    /// The slot that a capability becomes.
    fn slot(&self, (target, rights): (u8, u8)) -> Capability {
        match self.rights[usize::from(rights & 31)] {
            0 if self.empty_slots_keep_targets => Capability::new(target, 0),
            0 => Capability::EMPTY,
            rights => Capability::new(target, rights),
        }
    }

    /// The table that entities become.
    fn table(&self, entities: &[Entity]) -> Table {
        let mut table = Table::unborn();
        for (record, entity) in table.records.iter_mut().zip(entities) {
            (record.status, record.kind) = (ALIVE, self.kind);
            let slots = entity.iter().map(|&capability| self.slot(capability));
            let filled = slots.filter(|slot| !self.closed_up || !slot.is_empty());
            for (slot, content) in record.slots.iter_mut().zip(filled) {
                *slot = content;
            }
        }
        table
    }

    fn import(&self, bytes: &[u8]) -> (u8, Table) {
        match self.entities(bytes) {
            Ok(entities) => (0, self.table(&entities)),
            Err(cause) => (cause.number(), Table::unborn()),
        }
    }
}

/// Accepted bytes of a random table, and the entities that they are.
fn accepted(rng: &mut Rng) -> (Vec<u8>, Vec<Entity>) {
    let bytes = import_case(rng, 0);
    let entities = RIGHT.entities(&bytes).expect("entities");
    (bytes, entities)
}

// The model and the second way.

#[test]
fn both_ways_agree_on_random_bytes() {
    let mut rng = Rng::new(70);
    for _ in 0..60_000 {
        let bytes = import_bytes(&mut rng);
        assert_eq!(import(&bytes), RIGHT.import(&bytes), "{bytes:?}");
    }
}

/// Every other value of every byte of small tables, the length field included.
#[test]
fn both_ways_agree_wherever_a_byte_is_changed() {
    let mut rng = Rng::new(71);
    let mut tables = 0;
    while tables < 40 {
        let (mut bytes, _) = accepted(&mut rng);
        if bytes.len() > 40 {
            continue;
        }
        for at in 0..bytes.len() {
            let before = bytes[at];
            for value in 0..=255 {
                bytes[at] = value;
                assert_eq!(import(&bytes), RIGHT.import(&bytes), "{bytes:?}");
            }
            bytes[at] = before;
        }
        tables += 1;
    }
}

#[test]
fn both_ways_agree_on_any_bytes_after_a_right_head() {
    let mut rng = Rng::new(72);
    let mut numbers = BTreeSet::new();
    for _ in 0..60_000 {
        let (count, highest) = (rng.byte(0, 5), rng.byte(0, 40));
        let length = rng.between(4, 24) as u8;
        let mut bytes = vec![0, length, 1, count];
        bytes.resize_with(usize::from(length), || rng.byte(0, highest));
        let outcome = import(&bytes);
        assert_eq!(outcome, RIGHT.import(&bytes), "{bytes:?}");
        numbers.insert(outcome.0);
    }
    assert_eq!(numbers, BTreeSet::from([0, 20, 22]));
}

// The generator.

#[test]
fn every_number_and_every_cause_is_often_met() {
    let mut rng = Rng::new(73);
    let (mut numbers, mut causes) = (BTreeMap::new(), BTreeMap::new());
    for _ in 0..20_000 {
        let bytes = import_bytes(&mut rng);
        *numbers.entry(import(&bytes).0).or_insert(0) += 1;
        if let Err(cause) = RIGHT.entities(&bytes) {
            *causes.entry(cause).or_insert(0) += 1;
        }
    }
    println!("{numbers:?}\n{causes:?}");
    assert!(numbers.keys().eq(&IMPORT_NUMBERS));
    assert!(numbers.values().all(|&count| count > 1500));
    assert!(causes.keys().eq(&Cause::ALL));
    assert!(causes.values().all(|&count| count > 200));
}

#[test]
fn tables_of_every_size_are_met() {
    let mut rng = Rng::new(74);
    let (mut entities, mut capabilities, mut full) = (BTreeSet::new(), BTreeSet::new(), 0);
    for _ in 0..20_000 {
        if let Ok(read) = RIGHT.entities(&import_bytes(&mut rng)) {
            full += usize::from(read.len() == 64 && read.iter().all(|held| held.len() == 8));
            entities.insert(read.len());
            capabilities.extend(read.iter().map(Vec::len));
        }
    }
    assert_eq!(entities, (0..=64).collect());
    assert_eq!(capabilities, (0..=8).collect());
    assert!(full > 50, "{full}");
}

#[test]
fn imports_are_aimed_and_full_ones_are_full() {
    let mut rng = Rng::new(75);
    for aim in IMPORT_NUMBERS {
        for _ in 0..100 {
            assert_eq!(import(&import_case(&mut rng, aim)).0, aim);
        }
    }
    for _ in 0..100 {
        let bytes = full_import(&mut rng);
        let read = RIGHT.entities(&bytes).expect("entities");
        assert_eq!((bytes.len(), read.len()), (1092, 64));
        assert!(read.iter().all(|held| held.len() == 8));
    }
}

#[test]
fn the_shared_imports_are_read() {
    let shared = shared_imports();
    assert_eq!(shared.len(), 160);
    assert_eq!(
        shared[..4],
        [vec![], vec![0], vec![0, 3, 1], vec![0, 4, 1, 0]]
    );
    assert_eq!(shared[11], [0, 7, 1, 1, 1, 0, 0x1F]);
}

// The cases of the program `vectors`.

/// The rights where the bits of one old right become something else.
fn rights_with(old: usize, becomes: u8) -> [u8; 32] {
    let mut rights = [0; 32];
    for (sum, rights) in rights.iter_mut().enumerate() {
        for (k, right) in [1, 2, 8, 0, 3].into_iter().enumerate() {
            if sum >> k & 1 == 1 {
                *rights |= if 1 << k == old { becomes } else { right };
            }
        }
    }
    rights
}

type Change = fn(&mut Rules);

/// What makes a reading wrong, one thing at a time.
const WRONG: [(&str, Change); 22] = [
    ("Read as wk", |rules| rules.rights = rights_with(1, 4)),
    ("Write as rd", |rules| rules.rights = rights_with(2, 1)),
    ("Grant as wr", |rules| rules.rights = rights_with(4, 2)),
    ("Create as wr", |rules| rules.rights = rights_with(8, 2)),
    ("Store as rd", |rules| rules.rights = rights_with(16, 1)),
    ("Store as wr", |rules| rules.rights = rights_with(16, 2)),
    ("Store as all", |rules| rules.rights = rights_with(16, 15)),
    ("63 entities", |rules| rules.most_entities = 63),
    ("65 entities", |rules| rules.most_entities = 65),
    ("7 capabilities", |rules| rules.most_capabilities = 7),
    ("9 capabilities", |rules| rules.most_capabilities = 9),
    ("rights to 15", |rules| rules.highest_rights = 15),
    ("rights to 32", |rules| rules.highest_rights = 32),
    ("target equal to the count", |rules| rules.above = 1),
    ("any target", |rules| rules.above = 255),
    ("version first", |rules| rules.version_first = true),
    ("low byte first", |rules| rules.low_byte_first = true),
    ("whole capabilities", |rules| {
        rules.whole_capabilities = true
    }),
    ("bytes left", |rules| rules.bytes_may_be_left = true),
    ("passive", |rules| rules.kind = PASSIVE),
    ("closed up", |rules| rules.closed_up = true),
    ("empty slots with targets", |rules| {
        rules.empty_slots_keep_targets = true
    }),
];

#[test]
fn the_cases_of_vectors_tell_wrong_readings_apart() {
    assert_eq!(rights_with(0, 0), RIGHT.rights);
    let cases = import_cases();
    let not_shared = &cases[shared_imports().len()..];
    for (name, change) in WRONG {
        let mut wrong = RIGHT;
        change(&mut wrong);
        let differs = |bytes: &&Vec<u8>| wrong.import(bytes) != import(bytes);
        let all = cases.iter().filter(differs).count();
        let own = not_shared.iter().filter(differs).count();
        println!("{name}: {all}, {own} of them not shared");
        assert!(own > 1, "{name}");
    }
}

// What holds of all that is brought in.

#[test]
fn what_is_brought_in_is_sound_and_has_entities_alone() {
    let mut rng = Rng::new(76);
    for _ in 0..5_000 {
        let (bytes, entities) = accepted(&mut rng);
        let (number, table) = import(&bytes);
        assert_eq!(number, 0);
        assert!(table.is_sound());
        let (born, unborn) = table.records.split_at(entities.len());
        for record in born {
            assert_eq!((record.status, record.kind), (ALIVE, ACTIVE));
            assert_eq!((record.word, record.stock), (0, 0));
        }
        assert!(unborn.iter().all(|record| *record == Record::UNBORN));
    }
}

#[test]
fn every_capability_is_in_its_own_place() {
    let mut rng = Rng::new(77);
    let (mut filled, mut emptied) = (0, 0);
    for _ in 0..5_000 {
        let (bytes, entities) = accepted(&mut rng);
        let (_, table) = import(&bytes);
        for (record, entity) in table.records.iter().zip(&entities) {
            let (held, rest) = record.slots.split_at(entity.len());
            assert!(rest.iter().all(|slot| slot.is_empty()));
            for (slot, &(target, old)) in held.iter().zip(entity) {
                let rights = RIGHT.rights[usize::from(old)];
                let target = if rights == 0 { 0 } else { target };
                assert_eq!((slot.target, slot.rights), (target, rights));
                filled += u32::from(rights != 0);
                emptied += u32::from(rights == 0);
            }
        }
    }
    assert!(filled > 10_000 && emptied > 10_000, "{filled} {emptied}");
}

#[test]
fn refusals_bring_back_the_wholly_unborn_table() {
    let mut rng = Rng::new(78);
    for aim in [20, 21, 22] {
        for _ in 0..1_000 {
            let outcome = import(&import_case(&mut rng, aim));
            assert_eq!(outcome, (aim, Table::unborn()));
        }
    }
}

// Store links.

/// A relation between entities.
type Related = Vec<Vec<bool>>;

/// Document 001, store-connected-direct: ex holds a capability with Store to ey.
fn store_connected_direct(entities: &[Entity]) -> Related {
    let mut direct = vec![vec![false; entities.len()]; entities.len()];
    for (x, entity) in entities.iter().enumerate() {
        for &(target, rights) in entity {
            direct[x][usize::from(target)] |= rights & STORE != 0;
        }
    }
    direct
}

/// The reflexive transitive closure (Warshall's method).
fn closure(mut related: Related) -> Related {
    for (x, row) in related.iter_mut().enumerate() {
        row[x] = true;
    }
    for middle in 0..related.len() {
        let on = related[middle].clone();
        for row in related.iter_mut().filter(|row| row[middle]) {
            for (there, more) in row.iter_mut().zip(&on) {
                *there |= more;
            }
        }
    }
    related
}

/// Document 001, shares-caps: both are store-connected to one entity.
fn shares_caps(connected: &Related) -> Related {
    let share = |x: &Vec<bool>, y: &Vec<bool>| x.iter().zip(y).any(|(x, y)| *x && *y);
    let row = |x| connected.iter().map(|y| share(x, y)).collect();
    connected.iter().map(row).collect()
}

/// The smallest equivalence that contains every direct Store capability: each entity's class, by its
/// least number.
fn joined_classes(direct: &Related) -> Vec<usize> {
    let mut class: Vec<usize> = (0..direct.len()).collect();
    for (x, row) in direct.iter().enumerate() {
        for y in (0..row.len()).filter(|&y| row[y]) {
            let (low, high) = (class[x].min(class[y]), class[x].max(class[y]));
            for other in class.iter_mut().filter(|other| **other == high) {
                *other = low;
            }
        }
    }
    class
}

/// Pairs of entities, by what relates them.
#[derive(Debug, Default)]
struct Pairs {
    joined: u32,
    /// Joined, and neither is store-connected to the other.
    over_others: u32,
    /// Joined, and they share no capability.
    over_shared: u32,
    /// Not joined, and neither influences the other.
    apart: u32,
}

impl Pairs {
    /// Fails unless entities that are joined influence each other, in one step each way.
    fn expect(&mut self, entities: &[Entity], table: &Table) {
        let direct = store_connected_direct(entities);
        let (connected, class) = (closure(direct.clone()), joined_classes(&direct));
        let shared = shares_caps(&connected);
        let (number, access) = potential_access(table);
        assert_eq!(number, 0);
        for x in 0..entities.len() {
            for y in 0..entities.len() {
                let joined = class[x] == class[y];
                assert!(joined || !shared[x][y] && !connected[x][y]);
                assert!(!joined || access.influences(x, y) && access.influences(y, x));
                let apart = !access.influences(x, y) && !access.influences(y, x);
                self.joined += u32::from(joined && x != y);
                self.over_others += u32::from(joined && !connected[x][y] && !connected[y][x]);
                self.over_shared += u32::from(joined && !shared[x][y]);
                self.apart += u32::from(apart);
            }
        }
    }
}

#[test]
fn entities_joined_by_store_links_influence_each_other() {
    let mut rng = Rng::new(79);
    let mut pairs = Pairs::default();
    for _ in 0..1_500 {
        let (bytes, entities) = accepted(&mut rng);
        pairs.expect(&entities, &import(&bytes).1);
    }
    println!("{pairs:?}");
    assert!(pairs.joined > 10_000 && pairs.apart > 10_000);
    assert!(pairs.over_others > 1_000 && pairs.over_shared > 1_000);
}

/// Potential access is closed under its rules, so whom steps of influence reach one after the other is
/// influenced in one step: what is apart by one step is apart by many.
#[test]
fn one_step_of_influence_reaches_all_that_many_reach() {
    let mut rng = Rng::new(81);
    for _ in 0..1_500 {
        let (bytes, _) = accepted(&mut rng);
        let (_, access) = potential_access(&import(&bytes).1);
        for x in 0..64 {
            let influences = |y: &u8| access.influences(usize::from(x), usize::from(*y));
            let in_one_step = set::of((0..64).filter(influences));
            assert_eq!(in_one_step, access.influenced_set(x));
        }
    }
}

/// What shares-caps comes to when it is followed from entity to entity is the smallest equivalence that
/// contains the Store links.
#[test]
fn shares_caps_closed_is_the_smallest_equivalence() {
    let mut rng = Rng::new(80);
    for _ in 0..2_000 {
        let (_, entities) = accepted(&mut rng);
        let direct = store_connected_direct(&entities);
        let class = joined_classes(&direct);
        let closed = closure(shares_caps(&closure(direct)));
        for (x, row) in closed.iter().enumerate() {
            for (y, &related) in row.iter().enumerate() {
                assert_eq!(related, class[x] == class[y]);
            }
        }
    }
}

/// The small example of document 001, with the relation that it states.
#[test]
fn store_connected_is_as_document_001_has_it() {
    let entities = [vec![(1, STORE)], vec![(2, 4)], vec![]];
    let connected = closure(store_connected_direct(&entities));
    let expected = [
        [true, true, false],
        [false, true, false],
        [false, false, true],
    ];
    assert_eq!(connected, expected);
}
