//! The tables and tests that both ways of potential access and of the bound are measured on: one group of 64 objects,
//! 64 groups of one with wk between them, and random tables of each density between these.

use yavrinks_model::confinement::{Entry, MAX_ENTRIES};
use yavrinks_model::set;
use yavrinks_model::table::{Capability, Table, ALL_RIGHTS, RD, SLOTS, WK, WR};
use yavrinks_tools::generate::ConfinementCase;
use yavrinks_tools::rng::Rng;

use crate::samples::{busy_table, filled_table, first_in_all_slots};
use crate::samples::{material_test, own_test, places, rows};

/// A table to measure on.
#[derive(Clone, Debug)]
pub struct NamedTable {
    pub name: String,
    pub table: Table,
}

/// A test to measure.
#[derive(Clone, Debug)]
pub struct NamedTest {
    pub name: String,
    pub case: ConfinementCase,
}

/// How many slots of an object are filled in the random tables.
const DENSITIES: [usize; 6] = [0, 1, 2, 4, 6, 8];

/// Of 100 filled slots of a random table so many have wk alone, where that is said of most.
const MOST: u64 = 90;

/// The member of a test of 64 objects that nobody else names.
const MEMBER: u8 = 63;

/// The tables of potential access.
pub fn group_tables() -> Vec<NamedTable> {
    let mut tables = vec![
        named("no object", alive(0)),
        named("one object", alive(1)),
        named("table K", busy_table()),
        named("every slot filled", filled_table()),
    ];
    for row in rows() {
        tables.push(named(row.name, row.table));
    }
    tables.push(named("64 in a row by wk", weak_row(|n| n + 1)));
    tables.push(named(
        "64 in a row by wk, downwards",
        weak_row(|n| n.wrapping_sub(1)),
    ));
    tables.push(named("every slot a random wk", of_rights(8, |_| WK)));
    tables.push(named("every slot strong", of_rights(8, strong)));
    for filled in DENSITIES {
        let name = format!("{filled} slots an object");
        tables.push(named(
            &name,
            of_rights(filled, |rng| rng.byte(1, ALL_RIGHTS)),
        ));
    }
    for filled in &DENSITIES[1..] {
        let name = format!("{filled} slots an object, most wk");
        tables.push(named(&name, of_rights(*filled, mostly_weak)));
    }
    tables
}

fn named(name: &str, table: Table) -> NamedTable {
    NamedTable {
        name: name.to_string(),
        table,
    }
}

/// So many alive objects, with empty slots.
pub fn alive(count: usize) -> Table {
    let mut table = Table::unborn();
    for record in &mut table.records[..count] {
        record.status = 1;
        record.kind = 1;
    }
    table
}

/// 64 objects, each with wk over the next one, if that is a number.
fn weak_row(next: impl Fn(u8) -> u8) -> Table {
    let mut table = alive(64);
    for n in 0..64 {
        if next(n) < 64 {
            table.record_mut(n).slots[0] = Capability::new(next(n), WK);
        }
    }
    table
}

/// 64 objects with so many filled slots each, at any places, over any objects.
fn of_rights(filled: usize, mut rights: impl FnMut(&mut Rng) -> u8) -> Table {
    let (mut table, mut rng) = (alive(64), Rng::new(7));
    for record in &mut table.records {
        let mut slots: Vec<usize> = (0..SLOTS).collect();
        rng.shuffle(&mut slots);
        for &slot in &slots[..filled] {
            record.slots[slot] = Capability::new(rng.byte(0, 63), rights(&mut rng));
        }
    }
    table
}

/// Any rights with rd, wr or tx among them.
fn strong(rng: &mut Rng) -> u8 {
    loop {
        match rng.byte(1, ALL_RIGHTS) {
            WK => {}
            rights => return rights,
        }
    }
}

/// Most often wk alone, else any rights.
fn mostly_weak(rng: &mut Rng) -> u8 {
    if rng.percent(MOST) {
        WK
    } else {
        rng.byte(1, ALL_RIGHTS)
    }
}

/// The tests: one on each of the tables that is accepted and reaches much, others that are accepted without a round,
/// and others that are refused.
pub fn group_tests() -> Vec<NamedTest> {
    let mut tests = Vec::new();
    let mut add = |name: &str, case: ConfinementCase| {
        tests.push(NamedTest {
            name: name.to_string(),
            case,
        });
    };
    for place in places().iter().chain(&rows()) {
        add(place.name, own_test(place));
    }
    add(
        "64 in a row by wk",
        test_of(weak_row(|n| n + 1), 0, &[(63, WR)]),
    );
    add(
        "64 in a row by wk, downwards",
        test_of(weak_row(|n| n.wrapping_sub(1)), 63, &[(0, WR)]),
    );
    let random = group_tables().into_iter();
    for NamedTable { name, table } in random.filter(|one| one.name.contains("slot")) {
        if name != "every slot filled" {
            add(&name, reaching_test(table));
        }
    }
    add("64 wk unlisted, no round", material_test());
    let [_, filled] = places();
    let mut unlisted = own_test(&filled);
    unlisted.list.clear();
    let mut idle = unlisted.clone();
    idle.table.record_mut(filled.member).slots = [Capability::EMPTY; SLOTS];
    add("every slot filled, no round", idle);
    add("every slot filled, 12", unlisted);
    let mut held = own_test(&filled);
    held.table.record_mut(0).slots[7] = Capability::new(filled.member, RD);
    add("every slot filled, 13", held);
    tests
}

fn test_of(table: Table, member: u8, list: &[Entry]) -> ConfinementCase {
    ConfinementCase {
        table,
        members: set::single(member),
        list: list.to_vec(),
    }
}

/// The test of the last object, which nobody else names, with eight entries: those that what it holds needs, and all
/// rights over the first objects.
fn reaching_test(mut table: Table) -> ConfinementCase {
    for record in &mut table.records[..usize::from(MEMBER)] {
        for slot in &mut record.slots {
            slot.target %= MEMBER;
        }
    }
    let held = table.record(MEMBER).capabilities();
    let needing = held.filter(|held| held.target != MEMBER && held.rights != WK);
    let mut list: Vec<Entry> = needing.map(|held| (held.target, held.rights)).collect();
    list.extend((0..MAX_ENTRIES as u8).map(|n| (n, ALL_RIGHTS)));
    list.truncate(MAX_ENTRIES);
    test_of(table, MEMBER, &list)
}

/// Tables on which a walk from group to group along wk is long.
pub fn walk_tables() -> Vec<NamedTable> {
    vec![
        named("a row by wk, leaves lead back", leaves_to_root()),
        named("cycles of wk, one in the other", nested_cycles()),
        named("wk over the eight next", wk_over(|n, j| n + 1 + j)),
        named(
            "wk over the eight before",
            wk_over(|n, j| n.wrapping_sub(1 + j)),
        ),
        named("two layers of wk", two_layers()),
        named("a row by wk in any order", row_in_any_order(WK)),
        named("a row in any order", row_in_any_order(RD)),
        named("32 pairs in a row by wk", pairs_in_a_row()),
        named(
            "a row by wk, slots filled",
            first_in_all_slots(&weak_row(|n| n + 1)),
        ),
        named("pairs in any order, the rest wk", shuffled_pairs()),
    ]
}

/// A row of 32 objects by wk, each of which has wk over another object too, and all of those over the first one.
fn leaves_to_root() -> Table {
    let mut table = alive(64);
    for n in 0..32 {
        if n < 31 {
            table.record_mut(n).slots[0] = Capability::new(n + 1, WK);
        }
        table.record_mut(n).slots[1] = Capability::new(n + 32, WK);
        table.record_mut(n + 32).slots[0] = Capability::new(0, WK);
    }
    table
}

/// A row by wk, of whose second half each object leads back to one of the first: the innermost cycle has two objects,
/// the outermost all 64.
fn nested_cycles() -> Table {
    let mut table = weak_row(|n| n + 1);
    for n in 32..64 {
        table.record_mut(n).slots[1] = Capability::new(63 - n, WK);
    }
    table
}

/// 64 objects with wk over others in all slots, as far as these are numbers.
fn wk_over(target: impl Fn(u8, u8) -> u8) -> Table {
    let mut table = alive(64);
    for n in 0..64 {
        for j in 0..SLOTS as u8 {
            if target(n, j) < 64 {
                table.record_mut(n).slots[usize::from(j)] = Capability::new(target(n, j), WK);
            }
        }
    }
    table
}

/// Each of 32 objects has wk over eight of the others, which hold nothing.
fn two_layers() -> Table {
    let mut table = wk_over(|n, j| 32 + (5 * n + 3 * j) % 32);
    for record in &mut table.records[32..] {
        record.slots = [Capability::EMPTY; SLOTS];
    }
    table
}

/// 64 objects in a row, whose numbers are in any order.
fn row_in_any_order(rights: u8) -> Table {
    let (mut table, order) = (alive(64), any_order());
    for two in order.windows(2) {
        table.record_mut(two[0]).slots[0] = Capability::new(two[1], rights);
    }
    table
}

/// 32 groups of two, each with wk over the next one; its two objects are 32 numbers apart.
fn pairs_in_a_row() -> Table {
    let mut table = weak_row(|n| if n % 32 < 31 { n + 1 } else { 64 });
    for n in 0..32 {
        table.record_mut(n + 32).slots[1] = Capability::new(n, WR);
    }
    table
}

/// 32 groups of two whose numbers are in any order; all other slots have wk over any object.
fn shuffled_pairs() -> Table {
    let (mut table, order) = (of_rights(8, |_| WK), any_order());
    for two in order.chunks(2) {
        table.record_mut(two[0]).slots[7] = Capability::new(two[1], WR);
    }
    table
}

/// All numbers, in an order that is the same every time.
fn any_order() -> Vec<u8> {
    let mut order: Vec<u8> = (0..64).collect();
    Rng::new(9).shuffle(&mut order);
    order
}
