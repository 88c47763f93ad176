//! Sentences of document 01 that its examples leave out, in its order, each on a small table. Those on empty
//! copies are as 2.4 of document 02 amends them, those on images as 2.7 does, those on clean objects as 2.8 does.

use yavrinks_model::confinement::{confinement_test, Tested};
use yavrinks_model::image::{encode, read, write, Version};
use yavrinks_model::links::Links;
use yavrinks_model::runs::{clean_at_start, clean_part, run};
use yavrinks_model::set;
use yavrinks_model::step::{step, Pair, Request};
use yavrinks_model::table::{Capability, Record, Table};
use yavrinks_model::table::{ACTIVE, ALL_RIGHTS, DEAD, RD, TX, WK, WR};

// Objects, slots, rights.

#[test]
fn the_wholly_unborn_table_is_sound() {
    assert!(Table::unborn().is_sound());
}

#[test]
fn slots_with_target_or_rights_alone_are_filled() {
    let mut table = Table::k();
    table.records[3].slots[2] = Capability::new(1, 0);
    assert!(!table.is_sound());
    table.records[3].slots[2] = Capability::new(0, 1);
    assert!(table.is_sound());
}

#[test]
fn an_unborn_number_may_be_in_no_stock_but_not_in_two() {
    let mut table = Table::k();
    table.records[5].stock = 0;
    assert!(table.is_sound());
    table.records[6].stock = set::of([12]);
    assert!(!table.is_sound());
}

// The eight requests.

/// Table K where 0 may send to itself through slot 0 and holds (2, rd) in slot 1.
fn self_sender() -> Table {
    let mut table = Table::k();
    table.records[0].slots[0] = Capability::new(0, TX);
    table.records[0].slots[1] = Capability::new(2, RD);
    table
}

fn send(list: &[Pair], reply: u8) -> Request {
    Request::Send {
        actor: 0,
        t: 0,
        word: 9,
        list: list.to_vec(),
        reply,
    }
}

#[test]
fn a_send_to_oneself_copies_the_slots_from_before() {
    // Slot 1 is overwritten by the first pair; the second still copies its old content.
    let (reply, after) = step(&self_sender(), &send(&[(0, 1), (1, 2), (1, 0)], 8));
    assert_eq!(reply, 0);
    assert_eq!(after.records[0].word, 9);
    assert_eq!(after.records[0].slots[0], Capability::new(2, RD));
    assert_eq!(after.records[0].slots[1], Capability::new(0, TX));
    assert_eq!(after.records[0].slots[2], Capability::new(2, RD));
}

#[test]
fn later_pairs_win_unless_empty_and_the_reply_comes_last() {
    let before = self_sender();
    let (_, after) = step(&before, &send(&[(0, 3), (1, 3)], 8));
    assert_eq!(after.records[0].slots[3], Capability::new(2, RD));
    // Slot 5 is empty: slot 3 keeps what the pair before brought, slot 0 what it held.
    let (_, after) = step(&before, &send(&[(1, 3), (5, 3), (5, 0)], 8));
    assert_eq!(after.records[0].slots[3], Capability::new(2, RD));
    assert_eq!(after.records[0].slots[0], Capability::new(0, TX));
    let (_, after) = step(&before, &send(&[(1, 3)], 3));
    assert_eq!(after.records[0].slots[3], Capability::new(0, TX));
}

#[test]
fn an_allocate_copies_the_slot_that_it_overwrites() {
    let request = Request::Allocate {
        actor: 5,
        n: 10,
        kind: 0,
        part: 0,
        i: 0,
        list: vec![(0, 4)],
    };
    let (reply, after) = step(&Table::k(), &request);
    assert_eq!(reply, 0);
    assert_eq!(after.records[10].slots[4], Capability::new(1, WR));
    assert_eq!(after.records[5].slots[0], Capability::new(10, ALL_RIGHTS));
    assert_eq!(after.records[5].stock, set::of([11]));
}

#[test]
fn a_destroy_keeps_the_kind_and_hands_over_the_stock() {
    let mut before = Table::k();
    before.records[5].slots[1] = Capability::new(4, WR);
    before.records[4].word = 3;
    let request = Request::Destroy { actor: 5, t: 1 };
    let (reply, after) = step(&before, &request);
    assert_eq!(reply, 0);
    let dead = Record {
        status: DEAD,
        kind: ACTIVE,
        ..Record::UNBORN
    };
    assert_eq!(after.records[4], dead);
    assert_eq!(after.records[5].stock, set::of([10, 11, 12]));
    assert_eq!(step(&after, &request), (5, after));
}

// The confinement test.

#[test]
fn listed_rights_are_the_union_over_entries() {
    let mut table = Table::k();
    table.records[5].slots[0] = Capability::new(1, RD | WR);
    let members = set::of([5]);
    let one_missing = confinement_test(&table, members, &[(1, WR)]);
    assert_eq!(one_missing, Tested::empty(12));
    let both = confinement_test(&table, members, &[(1, WR), (1, RD)]);
    assert!(both.is_accepted());
}

#[test]
fn dead_non_members_may_be_listed_and_unborn_ones_not() {
    let mut table = Table::k();
    table.records[6].status = DEAD;
    let members = set::of([5]);
    assert_eq!(
        confinement_test(&table, members, &[(1, WR), (6, ALL_RIGHTS)]),
        Tested::accepted(set::of([0, 1, 2, 6]), 2)
    );
    let unborn = confinement_test(&table, members, &[(1, WR), (7, ALL_RIGHTS)]);
    assert_eq!(unborn, Tested::empty(11));
}

/// Example 1 by links: the bound is what the member reaches, since it holds what the list says.
#[test]
fn links_lead_to_the_bound() {
    let table = Table::k();
    let tested = confinement_test(&table, set::of([5]), &[(1, WR)]);
    let links = Links::of_table(&table);
    assert_eq!(links.reached(5), tested.bound | set::single(5));
    assert_eq!(links.rounds(5), tested.rounds);
    assert_eq!((links.reached(64), links.rounds(64)), (0, 0));
}

// Two runs.

/// On table K with the member 5 the objects 3, 4 and 6 are clean. The member makes 10, and 4 makes 12,
/// which asks before and after; 4 asks for 11 in vain, and destroys 3, which asks when it is dead.
#[test]
fn clean_objects_are_told_by_who_asks_and_when() {
    let table = Table::k();
    let bound = confinement_test(&table, set::of([5]), &[(1, WR)]).bound;
    let clean = clean_at_start(&table, set::of([5]), bound);
    assert_eq!(clean, set::of([3, 4, 6]));
    let making = |actor, n| Request::Allocate {
        actor,
        n,
        kind: ACTIVE,
        part: 0,
        i: 1,
        list: vec![],
    };
    let read = |actor| Request::Read { actor, t: 0 };
    let requests = [
        read(12),
        making(5, 10),
        making(4, 11),
        making(4, 12),
        read(12),
        read(10),
        Request::Destroy { actor: 4, t: 0 },
        read(3),
        read(4 + 64),
        Request::Unknown { code: 10, actor: 6 },
        read(20),
    ];
    let part = clean_part(&table, clean, &requests);
    assert_eq!(part.clean, set::of([3, 4, 6, 12]));
    let kept = [2, 3, 4, 6, 7, 9].map(|k| requests[k].clone());
    assert_eq!(part.requests, kept);
    assert_eq!(part.replies, [9, 0, 4, 0, 3, 2]);
    let (replies, _) = run(&table, &requests);
    assert_eq!(replies, [3, 0, 9, 0, 4, 4, 0, 3, 2, 2, 3]);
}

#[test]
fn the_empty_run_gives_the_start_table() {
    assert_eq!(run(&Table::k(), &[]), (vec![], Table::k()));
}

// The stored image.

#[test]
fn short_buffers_are_refused_and_left() {
    for version in Version::ALL {
        for length in [0, 1, version.image_length() - 1] {
            let mut buffer = vec![0x5A; length];
            assert_eq!(write(version, &Table::k(), &mut buffer), 16);
            assert!(buffer.iter().all(|&byte| byte == 0x5A));
        }
    }
}

#[test]
fn single_bytes_of_an_image_matter() {
    for version in Version::ALL {
        let image = encode(version, &Table::k());
        for place in 0..image.len() {
            let mut other = image.clone();
            other[place] ^= 0x80;
            let (number, table) = read(&other);
            match (place, number) {
                (0 | 1, _) => assert_eq!(number, 14),
                (2, _) => assert_eq!(number, 15),
                (_, 0) => assert_eq!(encode(version, &table), other),
                _ => assert_eq!(number, 1),
            }
        }
    }
}

// Where earlier tables went astray. Sending to oneself is above, under the requests.

/// As example 1 with rd in place of wr. Taken as one-way, rd would leave the bound empty.
#[test]
fn rd_is_not_one_way() {
    let mut table = Table::k();
    table.records[5].slots[0] = Capability::new(1, RD);
    let found = confinement_test(&table, set::of([5]), &[(1, RD)]);
    assert_eq!(found, Tested::accepted(set::of([0, 1, 2]), 2));
}

#[test]
fn a_weak_fetch_weakens_every_time() {
    let mut before = Table::k();
    before.records[1].slots[0] = Capability::new(6, ALL_RIGHTS);
    before.records[6].slots[0] = Capability::new(3, RD);
    let fetch = |t, j| Request::Fetch {
        actor: 2,
        t,
        i: 0,
        j,
    };
    let (_, once) = step(&before, &fetch(0, 5));
    assert_eq!(once.records[2].slots[5], Capability::new(6, WK));
    let (_, twice) = step(&once, &fetch(5, 6));
    assert_eq!(twice.records[2].slots[6], Capability::new(3, WK));
}

#[test]
fn the_bound_goes_by_the_list_and_not_by_slots() {
    let mut table = Table::k();
    table.records[5].slots[0] = Capability::EMPTY;
    let found = confinement_test(&table, set::of([5]), &[(1, WR)]);
    assert_eq!(found, Tested::accepted(set::of([0, 1, 2]), 2));
}

#[test]
fn passive_holders_count_at_13() {
    let mut table = Table::k();
    table.records[6].slots[7] = Capability::new(5, RD);
    let found = confinement_test(&table, set::of([5]), &[(1, WR)]);
    assert_eq!(found, Tested::empty(13));
}
