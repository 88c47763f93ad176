//! Every rights value used by a fetch with every one found, and every list of pairs from empty and from filled
//! slots to a filled and to an empty one: the archive's steps are the model's in both forms, and the slots are as
//! document 02, 2.4, has it.

use yavrinks_model::step::{Pair, Request, MAX_PAIRS, NO_REPLY};
use yavrinks_model::table::{Capability, Slots, Table, ACTIVE, ALIVE, RD, TX, WR};
use yavrinks_model::wire::encode;
use yavrinks_peer::archive::Archive;
use yavrinks_peer::convert::to_model;
use yavrinks_peer::differential::{compare_step, Ask, Twin};
use yavrinks_tools::shared::{shared_steps, SharedStep};

/// Who asks, whom it asks, what others are about, and a number of the actor's stock.
const ACTOR: u8 = 40;
const TARGET: u8 = 3;
const OTHER: u8 = 50;
const NEW: u8 = 61;

/// The slots that are used, and those that are copied: two filled ones and an empty one. Copies go to the first
/// and to the last of these three, which in the target are filled and empty too.
const USED: u8 = 7;
const SOURCES: [u8; 3] = [2, 3, 4];
const DESTINATIONS: [u8; 2] = [2, 4];

/// A table with these objects. In the used slot the actor has these rights over the target.
fn table(target: u8, rights: u8) -> Table {
    let mut table = Table::unborn();
    for n in [ACTOR, TARGET, OTHER] {
        table.record_mut(n).status = ALIVE;
        table.record_mut(n).kind = ACTIVE;
    }
    let actor = table.record_mut(ACTOR);
    actor.stock = 1 << NEW;
    actor.slots[7] = Capability::new(target, rights);
    actor.slots[2] = Capability::new(OTHER, RD);
    actor.slots[3] = Capability::new(OTHER, WR);
    table.record_mut(TARGET).slots[2] = Capability::new(OTHER, TX);
    table
}

/// The number of a request, the same on both sides and in both forms. It changes the table.
fn compared(twin: &mut Twin, request: &Request) -> u8 {
    let ask = Ask {
        bytes: encode(request).into_boxed_slice(),
        request: Some(request.clone()),
    };
    match compare_step(&Archive, twin, &ask) {
        Ok(number) => number,
        Err(difference) => panic!("{difference}"),
    }
}

/// The table after a request that is done.
fn after(table: &Table, request: &Request) -> Table {
    let mut twin = Twin::new(table.clone());
    assert_eq!(compared(&mut twin, request), 0, "{request:?}");
    to_model(&twin.lent)
}

/// What a fetch brings by the rights that it uses and those that it finds: 0 for nothing.
fn brought(used: u8, found: u8) -> u8 {
    match (used & 1, found & 5) {
        (1, _) => found,
        (_, 0) => 0,
        _ => 4,
    }
}

#[test]
fn every_rights_value_used_and_found() {
    let mut kept = 0;
    for used in (1..=15).filter(|used| used & 5 != 0) {
        for found in 0..=15 {
            for j in [2, 4, USED] {
                let (actor, t, i) = (ACTOR, USED, 6);
                let mut before = table(TARGET, used);
                if found != 0 {
                    before.record_mut(TARGET).slots[6] = Capability::new(OTHER, found);
                }
                let mut expected = before.clone();
                match brought(used, found) {
                    0 => kept += 1,
                    rights => {
                        let brought = Capability::new(OTHER, rights);
                        expected.record_mut(ACTOR).slots[usize::from(j)] = brought;
                    }
                }
                let told = after(&before, &Request::Fetch { actor, t, i, j });
                assert_eq!(told, expected, "used {used}, found {found}, slot {j}");
            }
        }
    }
    // Eight values have rd, and with them an empty slot alone brings nothing; four have wk and no rd, and with
    // them 2, 8 and 10 bring nothing either.
    assert_eq!(kept, 3 * (8 + 4 * 4));
}

/// Every list of up to four pairs from the sources to the destinations.
fn lists() -> Vec<Vec<Pair>> {
    let pairs = SOURCES.map(|i| DESTINATIONS.map(|j| (i, j))).concat();
    let mut lists: Vec<Vec<Pair>> = vec![Vec::new()];
    let mut shorter = 0;
    for _ in 0..MAX_PAIRS {
        let longest = lists[shorter..].to_vec();
        shorter = lists.len();
        for list in longest {
            lists.extend(pairs.iter().map(|&pair| [&list[..], &[pair]].concat()));
        }
    }
    assert_eq!(lists.len(), 1 + 6 + 36 + 216 + 1296);
    lists
}

/// What slots are after the pairs: for each that has a filled one, the last of these. Source 4 is the empty one.
fn with_pairs(held: &Slots, own: &Slots, list: &[Pair]) -> Slots {
    let mut slots = *held;
    for j in DESTINATIONS {
        let mut backwards = list.iter().rev();
        if let Some(last) = backwards.find(|pair| pair.1 == j && pair.0 != 4) {
            slots[usize::from(j)] = own[usize::from(last.0)];
        }
    }
    slots
}

#[test]
fn every_list_of_a_send_to_another_and_to_oneself() {
    for target in [TARGET, ACTOR] {
        let before = table(target, TX);
        for list in lists() {
            for reply in [NO_REPLY, 2, 4] {
                let mut expected = before.clone();
                let own = before.record(ACTOR).slots;
                let changed = expected.record_mut(target);
                changed.word = 9;
                changed.slots = with_pairs(&changed.slots, &own, &list);
                if reply != NO_REPLY {
                    changed.slots[usize::from(reply)] = Capability::new(ACTOR, TX);
                }
                let request = Request::Send {
                    actor: ACTOR,
                    t: USED,
                    word: 9,
                    list: list.clone(),
                    reply,
                };
                assert_eq!(after(&before, &request), expected, "{request:?}");
            }
        }
    }
}

#[test]
fn every_list_of_an_allocate() {
    let before = table(TARGET, TX);
    for list in lists() {
        for i in [2, 4, 0] {
            let mut expected = before.clone();
            let own = before.record(ACTOR).slots;
            let made = expected.record_mut(NEW);
            made.status = ALIVE;
            made.maker = ACTOR;
            made.slots = with_pairs(&made.slots, &own, &list);
            let maker = expected.record_mut(ACTOR);
            maker.stock = 0;
            maker.slots[usize::from(i)] = Capability::new(NEW, 15);
            let request = Request::Allocate {
                actor: ACTOR,
                n: NEW,
                kind: 0,
                part: 0,
                i,
                list: list.clone(),
            };
            assert_eq!(after(&before, &request), expected, "{request:?}");
        }
    }
}

#[test]
fn stores_and_revokes() {
    for target in [TARGET, ACTOR] {
        let before = table(target, WR);
        let (actor, t) = (ACTOR, USED);
        for j in 0..8 {
            for i in 0..8 {
                let mut expected = before.clone();
                let copied = before.record(ACTOR).slots[usize::from(i)];
                if [2, 3, USED].contains(&i) {
                    expected.record_mut(target).slots[usize::from(j)] = copied;
                }
                let request = Request::Store { actor, t, i, j };
                assert_eq!(after(&before, &request), expected, "{request:?}");
            }
            let mut expected = before.clone();
            expected.record_mut(target).slots[usize::from(j)] = Capability::EMPTY;
            let request = Request::Revoke { actor, t, j };
            assert_eq!(after(&before, &request), expected, "{request:?}");
        }
    }
}

/// Each step of the shared test vectors of 2.4 gets the reply and leaves the table that they say.
#[test]
fn the_shared_test_vectors() {
    let shared = shared_steps();
    assert_eq!(shared.len(), 160);
    for SharedStep { step, answer } in shared {
        let mut twin = Twin::new(step.table);
        let reply = compared(&mut twin, &step.request);
        let told = (reply, to_model(&twin.lent));
        assert_eq!(told, answer, "{:?}", step.request);
    }
}
