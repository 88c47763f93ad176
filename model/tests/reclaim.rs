//! Document 02, 2.8, sentence by sentence, each on a small table, and that no wrong reading gives the same answers.

mod done;
mod held;
mod misread_reclaim;

use done::done;
use held::table_with;
use misread_reclaim::{Misread, MisreadClean};
use yavrinks_model::confinement::{confinement_test, Tested};
use yavrinks_model::runs::{claimed_record, clean_after, clean_at_start, clean_part};
use yavrinks_model::runs::{compared_at_start, run};
use yavrinks_model::set;
use yavrinks_model::step::{step, Code, Request};
use yavrinks_model::table::{Capability, Record, Table};
use yavrinks_model::table::{
    ACTIVE, ALIVE, ALL_RIGHTS, DEAD, NO_MAKER, PASSIVE, RD, TX, UNBORN, WK, WR,
};

/// The number that is reclaimed in most tests.
const GONE: u8 = 7;

/// The reclaim of that number by 4, through slot 1.
const RECLAIM: Request = Request::Reclaim { actor: 4, t: 1 };

fn allocate(actor: u8, n: u8, kind: u8) -> Request {
    Request::Allocate {
        actor,
        n,
        kind,
        part: 0,
        i: 7,
        list: vec![],
    }
}

/// Table K with an object 7, active, that is dead. 4 has wr over it in slot 1; nobody else names it.
fn with_dead() -> Table {
    let mut table = Table::k();
    table.records[7].status = DEAD;
    table.records[7].kind = ACTIVE;
    table.records[4].slots[1] = Capability::new(GONE, WR);
    table
}

/// The same table where others name the number: 0, which is active, in slots 1 and 6; 1 and 3, which are passive,
/// in slots 0 and 7; 4 once more in slot 5; and as a maker 2, 4, the dead 8, which is new, and itself.
fn with_holders() -> Table {
    let mut table = with_dead();
    let over = |rights| Capability::new(GONE, rights);
    table.records[0].slots[1] = over(RD);
    table.records[0].slots[6] = over(WK);
    table.records[1].slots[0] = over(ALL_RIGHTS);
    table.records[3].slots[7] = over(TX);
    table.records[4].slots[5] = over(WK);
    table.records[8].status = DEAD;
    for n in [2, 4, 7, 8] {
        table.records[n].maker = GONE;
    }
    assert!(table.is_sound());
    table
}

// A ninth request, reclaim (actor, t), needs wr over a dead target.

#[test]
fn the_ninth_request_needs_wr() {
    assert_eq!(Code::of(9), Some(Code::Reclaim));
    assert_eq!(Code::Reclaim.needs(), Some(WR));
    for rights in 1..=ALL_RIGHTS {
        let mut table = with_dead();
        table.records[4].slots[1].rights = rights;
        let expected = if rights & WR != 0 { 0 } else { 6 };
        assert_eq!(step(&table, &RECLAIM).0, expected, "{rights}");
    }
}

#[test]
fn the_dead_of_both_kinds_are_reclaimed() {
    for kind in [PASSIVE, ACTIVE] {
        for maker in [NO_MAKER, 0, 4, GONE] {
            let mut table = with_dead();
            table.records[7].kind = kind;
            table.records[7].maker = maker;
            let after = done(&table, &RECLAIM);
            assert_eq!(after.records[7], Record::UNBORN);
        }
    }
}

// The number becomes unborn and joins the actor's stock, every capability naming it anywhere becomes an empty slot,
// and every maker byte naming it becomes 64.

#[test]
fn the_whole_table_after_a_reclaim() {
    let mut expected = Table::k();
    expected.records[4].stock = set::of([7, 12]);
    assert_eq!(done(&with_dead(), &RECLAIM), expected);
    expected.records[8].status = DEAD;
    assert_eq!(done(&with_holders(), &RECLAIM), expected);
}

#[test]
fn slots_and_makers_that_name_others_stay() {
    let mut table = with_holders();
    table.records[0].maker = 4;
    table.records[3].slots[2] = Capability::new(8, WR);
    let after = done(&table, &RECLAIM);
    assert_eq!(after.records[0].maker, 4);
    assert_eq!(after.records[3].slots[2], Capability::new(8, WR));
    assert_eq!(after.records[0].slots[0], Capability::new(1, RD));
    assert!(after.is_sound());
}

/// An empty slot has target 0, and so has a slot that names 0. Number 63 is the last.
#[test]
fn the_first_and_the_last_number_are_reclaimed() {
    for (actor, n, other) in [(1, 0, 2), (62, 63, 0)] {
        let held = [(actor, n, WR), (other, n, RD), (other, actor, TX)];
        let mut table = table_with(&[], &held);
        table.record_mut(actor).kind = ACTIVE;
        table.record_mut(n).status = DEAD;
        table.record_mut(actor).maker = n;
        let after = done(&table, &Request::Reclaim { actor, t: 0 });
        let mut expected = table_with(&[actor], &[]);
        expected.record_mut(actor).kind = ACTIVE;
        expected.record_mut(actor).stock = set::single(n);
        expected.record_mut(other).status = ALIVE;
        expected.record_mut(other).slots[1] = Capability::new(actor, TX);
        assert_eq!(after, expected);
    }
}

#[test]
fn the_number_can_be_made_again() {
    let free = done(&with_holders(), &RECLAIM);
    assert_eq!(step(&free, &RECLAIM), (4, free.clone()));
    let made = done(&free, &allocate(4, GONE, PASSIVE));
    assert_eq!(made.records[7].status, ALIVE);
    assert_eq!((made.records[7].kind, made.records[7].maker), (PASSIVE, 4));
    // Nobody but its new maker reaches it.
    let naming = made.records.iter().filter(|record| {
        let mut held = record.capabilities();
        held.any(|held| held.target == GONE)
    });
    assert_eq!(naming.count(), 1);
    assert_eq!(made.records[4].slots[7], Capability::new(GONE, ALL_RIGHTS));
    assert_eq!(made.records[4].stock, set::of([12]));
}

/// An object is made, destroyed, reclaimed and made once more, by its maker and then by another.
#[test]
fn a_number_goes_round() {
    let mut table = Table::k();
    for _ in 0..3 {
        for request in [
            allocate(4, 12, ACTIVE),
            Request::Destroy { actor: 4, t: 7 },
            Request::Reclaim { actor: 4, t: 7 },
        ] {
            table = done(&table, &request);
        }
        assert_eq!(table, Table::k());
    }
}

// It must not depend on who else holds such a capability.

#[test]
fn the_reply_does_not_tell_who_else_holds_one() {
    for holder in 0..=6 {
        for rights in 1..=ALL_RIGHTS {
            let mut table = with_dead();
            table.records[holder].slots[3] = Capability::new(GONE, rights);
            let bare = done(&with_dead(), &RECLAIM);
            assert_eq!(done(&table, &RECLAIM), bare, "{holder} {rights}");
        }
    }
}

#[test]
fn the_reply_does_not_tell_what_it_made() {
    for made in (0..=7).chain([63]) {
        let mut table = with_dead();
        table.records[made].status = table.records[made].status.max(ALIVE);
        let mut bare = done(&with_dead(), &RECLAIM);
        if made == 63 {
            bare.records[made].status = ALIVE;
        }
        table.records[made].maker = GONE;
        assert_eq!(done(&table, &RECLAIM), bare, "{made}");
    }
}

// Reclaim thus joins revoke in emptying slots.

#[test]
fn no_other_request_empties_a_slot_of_an_alive_object() {
    let table = with_holders();
    let after = done(&table, &RECLAIM);
    for (n, k) in [(0, 1), (0, 6), (1, 0), (3, 7), (4, 1), (4, 5)] {
        assert!(!table.records[n].slots[k].is_empty() && after.records[n].slots[k].is_empty());
    }
    // Destroy empties no slot that names what it destroyed.
    let mut alive = table;
    alive.records[7].status = ALIVE;
    let after = done(&alive, &Request::Destroy { actor: 4, t: 1 });
    for n in 0..=4 {
        assert_eq!(after.records[n].slots, alive.records[n].slots);
    }
}

// Clean now goes by the object's latest making.

/// On table K with the member 5 the objects 3, 4 and 6 are clean; 0, 1 and 2 are the bound.
fn clean_of(table: &Table) -> u64 {
    let tested = confinement_test(table, set::of([5]), &[(1, WR)]);
    assert!(tested.is_accepted());
    clean_at_start(table, set::of([5]), tested.bound)
}

/// The clean objects along a run.
fn clean_along(start: &Table, clean: u64, requests: &[Request]) -> Vec<u64> {
    let mut table = start.clone();
    let mut clean = clean;
    let mut along = Vec::new();
    for request in requests {
        let (reply, after) = step(&table, request);
        assert_eq!(reply, 0, "{request:?}");
        clean = clean_after(&table, clean, request, reply);
        along.push(clean);
        table = after;
    }
    along
}

/// The clean 4 makes 12, destroys it, reclaims it and makes it anew. A dead one stays clean, a reclaimed number is
/// nobody.
#[test]
fn a_clean_number_goes_round() {
    let table = Table::k();
    assert_eq!(clean_of(&table), set::of([3, 4, 6]));
    let requests = [
        allocate(4, 12, ACTIVE),
        Request::Destroy { actor: 4, t: 7 },
        Request::Reclaim { actor: 4, t: 7 },
        allocate(4, 12, PASSIVE),
    ];
    let (with, without) = (set::of([3, 4, 6, 12]), set::of([3, 4, 6]));
    let along = clean_along(&table, clean_of(&table), &requests);
    assert_eq!(along, [with, with, without, with]);
}

/// A request from a reclaimed number comes from nobody, until a clean object has made it anew.
#[test]
fn a_reclaimed_number_asks_as_nobody() {
    let table = Table::k();
    let ask = Request::Read { actor: 3, t: 0 };
    let requests = [
        ask.clone(),
        Request::Destroy { actor: 4, t: 0 },
        ask.clone(),
        Request::Reclaim { actor: 4, t: 0 },
        ask.clone(),
        allocate(4, 3, ACTIVE),
        ask,
    ];
    let part = clean_part(&table, clean_of(&table), &requests);
    assert_eq!(part.clean, set::of([3, 4, 6]));
    assert_eq!(part.replies, [3, 0, 3, 0, 0, 4]);
    let (replies, _) = run(&table, &requests);
    assert_eq!(replies, [3, 0, 3, 0, 3, 0, 4]);
}

/// The step from one set to the next, for every actor and whatever the number was before: what a clean actor makes is
/// clean, what another makes is not.
#[test]
fn the_latest_making_decides() {
    let table = Table::k();
    for before in [set::of([3, 4]), set::of([3, 4, 10, 12])] {
        let made = clean_after(&table, before, &allocate(4, 12, ACTIVE), 0);
        assert_eq!(made, before | set::of([12]));
        let made = clean_after(&table, before, &allocate(5, 10, ACTIVE), 0);
        assert_eq!(made, before & !set::of([10]));
    }
    let clean = set::of([3, 4, GONE]);
    let reclaimed = clean_after(&with_dead(), clean, &RECLAIM, 0);
    assert_eq!(reclaimed, set::of([3, 4]));
}

#[test]
fn what_is_refused_makes_nothing_clean_or_otherwise() {
    let clean = set::of([3, 4, GONE, 10]);
    let table = with_dead();
    for (request, reply) in [
        (RECLAIM, 6),
        (allocate(5, 10, 0), 9),
        (allocate(4, 12, 0), 9),
    ] {
        assert_eq!(clean_after(&table, clean, &request, reply), clean);
    }
}

// The equal-records claim leaves out the maker byte of an object born at the start, unless its maker was clean at the
// start.

#[test]
fn makers_that_were_clean_are_compared() {
    let mut table = with_dead();
    table.records[3].maker = 4;
    table.records[4].maker = 5;
    table.records[6].maker = 6;
    table.records[7].maker = 0;
    let clean = clean_of(&table);
    assert_eq!(clean, set::of([3, 4, 6, 7]));
    assert_eq!(compared_at_start(&table, clean), set::of([3, 6]));
    table.records[4].maker = NO_MAKER;
    assert_eq!(compared_at_start(&table, clean), set::of([3, 4, 6]));
}

/// What was born at the start with a maker that was not clean is compared once a clean object has made it anew; what a
/// clean object made is compared until it is reclaimed.
#[test]
fn what_a_clean_object_makes_is_compared() {
    let mut table = with_dead();
    table.records[7].maker = 5;
    let clean = clean_of(&table);
    let compared = |requests: &[Request]| clean_part(&table, clean, requests).compared;
    let start = set::of([3, 4, 6]);
    assert_eq!(compared(&[]), start);
    assert_eq!(compared(&[RECLAIM]), start);
    let anew = [
        RECLAIM,
        allocate(4, GONE, PASSIVE),
        allocate(5, 10, PASSIVE),
    ];
    assert_eq!(compared(&anew[..2]), start | set::of([GONE]));
    assert_eq!(compared(&anew), start | set::of([GONE]));
}

/// Whose maker is left out has the rest of its record compared all the same.
#[test]
fn all_but_the_maker_is_compared() {
    let mut table = Table::k();
    table.records[3].maker = 5;
    table.records[3].word = 9;
    let claimed = claimed_record(&table, set::of([4]), 3);
    let expected = Record {
        maker: NO_MAKER,
        ..table.records[3]
    };
    assert_eq!(claimed, expected);
    assert_eq!(claimed_record(&table, set::of([3]), 3), table.records[3]);
}

/// The smallest pair of runs that needs the exception. 0 is the member and reaches 1, which is dead; 1 made 2, which
/// is clean. Both tables are the same. In the second run the member reclaims 1, so that nothing says any more who made
/// 2; in the first nobody asks.
#[test]
fn without_the_exception_the_claim_would_not_hold() {
    let mut table = table_with(&[2], &[(0, 1, WR)]);
    table.records[0].kind = ACTIVE;
    table.records[1].status = DEAD;
    table.records[2].maker = 1;
    let (members, list) = (set::of([0]), [(1, WR)]);
    let tested = confinement_test(&table, members, &list);
    let expected = Tested {
        bound: set::of([1]),
        rounds: 1,
        ..tested
    };
    assert_eq!((tested.number, tested), (0, expected));
    let clean = clean_at_start(&table, members, tested.bound);
    assert_eq!(clean, set::of([2]));
    let lists = [vec![], vec![Request::Reclaim { actor: 0, t: 0 }]];
    let parts = lists.each_ref().map(|one| clean_part(&table, clean, one));
    assert_eq!(parts[0], parts[1]);
    assert_eq!(parts[0].compared, 0);
    let ends = lists.each_ref().map(|one| run(&table, one).1);
    assert_eq!(ends.each_ref().map(|end| end.records[2].maker), [1, 64]);
    let claimed = ends.map(|end| claimed_record(&end, parts[0].compared, 2));
    assert_eq!(claimed[0], claimed[1]);
}

// Codes run to 9 at refusal 2, and refusal 5 does not apply to reclaim.

#[test]
fn codes_run_to_nine() {
    let table = with_dead();
    for code in 0..=255 {
        assert_eq!(Code::of(code).is_some(), (1..=9).contains(&code));
        let unknown = Request::Unknown { code, actor: 4 };
        assert_eq!(step(&table, &unknown), (2, table.clone()));
    }
}

/// All others through the slot are refused by 5 as before, whatever its rights.
#[test]
fn five_is_for_the_others() {
    let mut table = with_dead();
    let (actor, t, i, j) = (4, 1, 0, 0);
    let others = [
        Request::Read { actor, t },
        Request::Write { actor, t, word: 1 },
        Request::Fetch { actor, t, i, j },
        Request::Store { actor, t, i, j },
        Request::Revoke { actor, t, j },
        Request::Send {
            actor,
            t,
            word: 1,
            list: vec![],
            reply: 8,
        },
        Request::Destroy { actor, t },
    ];
    for rights in 1..=ALL_RIGHTS {
        table.records[4].slots[1].rights = rights;
        for other in &others {
            assert_eq!(step(&table, other), (5, table.clone()));
        }
        assert_ne!(step(&table, &RECLAIM).0, 5);
    }
}

// Turned away: 24, between 4 and 6, if the target is alive.

#[test]
fn an_alive_target_is_24_whatever_the_rights() {
    for target in 0..=6 {
        for rights in 1..=ALL_RIGHTS {
            let mut table = with_holders();
            table.records[4].slots[1] = Capability::new(target, rights);
            assert_eq!(step(&table, &RECLAIM), (24, table.clone()));
        }
    }
}

/// Each refusal with all later ones behind it: a table that is not sound, a slot above 7, a passive actor, an empty
/// slot, an alive target, no wr.
#[test]
fn refusals_come_in_order() {
    let mut table = with_dead();
    table.records[4].kind = PASSIVE;
    table.records[4].slots[1] = Capability::EMPTY;
    table.records[3].status = 3;
    let asked = |table: &Table, t| {
        let (reply, after) = step(table, &Request::Reclaim { actor: 4, t });
        assert_eq!(&after, table);
        reply
    };
    assert_eq!(asked(&table, 8), 1);
    table.records[3].status = ALIVE;
    assert_eq!(asked(&table, 8), 2);
    assert_eq!(asked(&table, 1), 3);
    table.records[4].kind = ACTIVE;
    assert_eq!(asked(&table, 1), 4);
    table.records[4].slots[1] = Capability::new(3, RD);
    assert_eq!(asked(&table, 1), 24);
    table.records[4].slots[1] = Capability::new(GONE, RD);
    assert_eq!(asked(&table, 1), 6);
    for (actor, t) in [(64, 1), (255, 1), (4 + 64, 1), (4, 255), (4, 1 + 8)] {
        let out = Request::Reclaim { actor, t };
        assert_eq!(step(&table, &out), (2, table.clone()));
    }
    for actor in [1, 7, 20] {
        let unfit = Request::Reclaim { actor, t: 0 };
        assert_eq!(step(&table, &unfit), (3, table.clone()));
    }
    assert_eq!(table.records[20].status, UNBORN);
}

// Wrong readings.

/// Tables that between them tell every wrong reading apart, each with a reclaim by 4 through slot 1.
fn telling() -> Vec<Table> {
    let with = |target, rights| {
        let mut table = with_holders();
        table.records[4].slots[1] = Capability::new(target, rights);
        table
    };
    vec![
        with_holders(),
        with(3, WR),
        with(3, RD),
        with(GONE, WK),
        with(GONE, RD),
        with(GONE, TX),
    ]
}

#[test]
fn every_wrong_reading_is_told_apart() {
    for misread in Misread::ALL {
        let told = telling().into_iter().filter(|table| {
            let wrong = misread.step(table, &RECLAIM);
            wrong != step(table, &RECLAIM)
        });
        assert!(told.count() > 0, "{misread:?}");
    }
}

/// A run in which 12 is made by the clean 4, dies and is reclaimed.
#[test]
fn every_wrong_reading_of_clean_is_told_apart() {
    let requests = [
        allocate(4, 12, ACTIVE),
        Request::Destroy { actor: 4, t: 7 },
        Request::Reclaim { actor: 4, t: 7 },
    ];
    for misread in MisreadClean::ALL {
        let mut table = Table::k();
        let (mut clean, mut wrong) = (set::of([3, 4, 6]), set::of([3, 4, 6]));
        let mut differs = false;
        for request in &requests {
            let (reply, after) = step(&table, request);
            clean = clean_after(&table, clean, request, reply);
            wrong = misread.after(&table, wrong, request, reply);
            differs |= clean != wrong;
            table = after;
        }
        assert!(differs, "{misread:?}");
    }
}

/// A number that was clean and that another makes anew is clean no more. The claim's own runs have no such making,
/// since what clean objects reclaim stays with them; the rule is asked by itself.
#[test]
fn what_another_makes_anew_is_not_clean() {
    let table = Table::k();
    let making = allocate(5, 10, ACTIVE);
    let before = set::of([4, 10]);
    assert_eq!(clean_after(&table, before, &making, 0), set::of([4]));
    let wrong = MisreadClean::ByFirstMaking.after(&table, before, &making, 0);
    assert_eq!(wrong, before);
}
