//! All calls but the step, on the table as it is and on tables, images and imports that are aimed at each number, and on
//! tables of several groups; and steps of each kind of empty copies, by and on objects with makers, and reclaims of each
//! kind.

use yavrinks_model::confinement::{Entry, MAX_ENTRIES};
use yavrinks_model::image::{encode, Version, VERSION_AT};
use yavrinks_model::step::{Code, Fields, Request};
use yavrinks_model::table::{Table, ACTIVE, ALL_RIGHTS, WR};
use yavrinks_tools::empty_kinds::EmptyKind;
use yavrinks_tools::generate::{allocate_by_made, destroy_of_made, without_makers, write_case};
use yavrinks_tools::generate::{born_non_members, confinement_case, damaged_table};
use yavrinks_tools::generate::{can_meet, reclaim_case, reclaim_through, step_case};
use yavrinks_tools::generate::{empty_copy_case, image_of, import_case, layered_test, shown_case};
use yavrinks_tools::generate::{ConfinementCase, Damage, ReclaimKind, StepCase};
use yavrinks_tools::generate::{CONFINEMENT_NUMBERS, IMAGE_NUMBERS, IMPORT_NUMBERS};
use yavrinks_tools::generate::{SHOWN_NUMBERS, STEP_REPLIES, WRITE_NUMBERS};
use yavrinks_tools::rng::Rng;

use super::counts::{Counts, Line};
use super::course::put_anything;
use super::draw::{any_bytes, ask};
use super::facts::Compared;
use super::grouped::{grouped_table, Way, SPANS};
use super::one_step;
use super::steps::Twin;
use super::unlisted::{count_test, Test};
use super::weak::{weak_case, Beside};
use super::wholes::{compare_access, compare_chain, compare_import, compare_read, compare_sound};
use super::wholes::{compare_test, compare_unborn, compare_write};
use crate::archive::Calls;
use crate::groups::{groups_among, groups_of};
use crate::samples::list_bytes;

/// The calls on a whole table: the one given, and others that are aimed at each number. Then the steps.
pub fn sweep(
    calls: &impl Calls,
    rng: &mut Rng,
    table: &Table,
    counts: &mut Counts,
) -> Compared<()> {
    let kind = rng.pick(&Damage::ALL).unwrap_or(Damage::StatusValue);
    let mut touched = table.clone();
    put_anything(rng, &mut touched);
    for table in [table, &touched, &damaged_table(rng, kind)] {
        one_sound(calls, table, counts)?;
        one_access(calls, table, counts)?;
    }
    compare_unborn(calls)?;
    compare_tests(calls, rng, table, counts)?;
    compare_chains(calls, rng, table, counts)?;
    // Generators of their own, since nothing else hangs on what follows.
    let bits = rng.bits();
    compare_makers(calls, &mut Rng::new(bits.rotate_left(16)), counts)?;
    compare_reclaims(calls, &mut Rng::new(bits.rotate_left(40)), counts)?;
    compare_writes(calls, &mut Rng::new(bits.rotate_left(8)), table, counts)?;
    compare_reads(calls, &mut Rng::new(bits.rotate_left(24)), table, counts)?;
    compare_imports(calls, &mut Rng::new(bits), counts)?;
    compare_weak(calls, &mut Rng::new(!bits), table, counts)?;
    compare_layered(calls, &mut Rng::new(!bits.rotate_left(32)), counts)?;
    compare_grouped(calls, &mut Rng::new(bits.rotate_left(48)), counts)?;
    compare_empty(calls, &mut Rng::new(bits.rotate_left(32)), counts)
}

/// Writing in both versions: of the table as it is, of the same without its makers, and aimed at each number.
fn compare_writes(
    calls: &impl Calls,
    rng: &mut Rng,
    table: &Table,
    counts: &mut Counts,
) -> Compared<()> {
    for version in Version::ALL {
        for table in [table, &without_makers(table)] {
            let length = room(rng, version.image_length() as u64);
            one_write(calls, rng, version, table, length, counts)?;
        }
    }
    for (version, aim) in WRITE_NUMBERS {
        let case = write_case(rng, version, aim);
        one_write(calls, rng, version, &case.table, case.room, counts)?;
    }
    Ok(())
}

fn one_write(
    calls: &impl Calls,
    rng: &mut Rng,
    version: Version,
    table: &Table,
    length: usize,
    counts: &mut Counts,
) -> Compared<()> {
    let buffer = any_bytes(rng, length);
    let number = compare_write(calls, version, table, &buffer)?;
    counts.add(Line::Write(version), number);
    Ok(())
}

/// Reading in both versions: the table as it is, the same under the other version's byte, and aimed at each number.
fn compare_reads(
    calls: &impl Calls,
    rng: &mut Rng,
    table: &Table,
    counts: &mut Counts,
) -> Compared<()> {
    for version in Version::ALL {
        let image = encode(version, table);
        let mut other = image.clone();
        other[VERSION_AT] ^= 3;
        let aimed = IMAGE_NUMBERS.map(|aim| image_of(rng, version, aim));
        for image in [image, other].into_iter().chain(aimed) {
            counts.add(Line::of_image(&image), compare_read(calls, &image)?);
        }
    }
    Ok(())
}

/// The length of a buffer for an image of a length: below it, the same, or above it.
fn room(rng: &mut Rng, length: u64) -> usize {
    let room = match rng.between(0, 9) {
        0 => rng.between(0, length - 1),
        1 => length - 1,
        2..=5 => length,
        6 => length + 1,
        _ => rng.between(length, 2500),
    };
    room as usize
}

fn one_sound(calls: &impl Calls, table: &Table, counts: &mut Counts) -> Compared<()> {
    counts.add(Line::Sound, compare_sound(calls, table)?);
    counts.add_makers(table);
    Ok(())
}

/// Potential access of a table, both ways.
fn one_access(calls: &impl Calls, table: &Table, counts: &mut Counts) -> Compared<()> {
    let number = compare_access(calls, table)?;
    counts.add(Line::Access, number);
    counts.add(Line::AccessByGroups, number);
    if number == 0 {
        counts.add_groups(Way::Access, table, &groups_of(table));
    }
    Ok(())
}

/// A table of few groups, of some and of many, and a test on each of them.
fn compare_grouped(calls: &impl Calls, rng: &mut Rng, counts: &mut Counts) -> Compared<()> {
    for span in SPANS {
        let groups = rng.between(*span.start(), *span.end());
        let table = grouped_table(rng, groups);
        one_access(calls, &table, counts)?;
        if let Some(mut case) = weak_case(rng, &table, Beside::Nothing) {
            list_more(rng, &mut case);
            let list = list_bytes(&case.list);
            one_test(calls, (&case.table, case.members, &list), counts)?;
        }
    }
    Ok(())
}

/// Lists a few entries more than an accepted test needs, as far as there is room.
fn list_more(rng: &mut Rng, case: &mut ConfinementCase) {
    let outside = born_non_members(&case.table, case.members);
    for _ in 0..rng.between(0, 3) {
        let target = rng.pick(&outside).filter(|_| case.list.len() < MAX_ENTRIES);
        let entry = target.map(|target| (target, rng.byte(1, ALL_RIGHTS)));
        case.list.extend(entry);
    }
}

/// Tables that makers alone make unsound, an allocate by an object that was made, and a destroy of one.
fn compare_makers(calls: &impl Calls, rng: &mut Rng, counts: &mut Counts) -> Compared<()> {
    for kind in Damage::ALL {
        if !kind.shows_in(Version::One) {
            one_sound(calls, &damaged_table(rng, kind), counts)?;
        }
    }
    for case in [allocate_by_made(rng), destroy_of_made(rng)] {
        one_case(calls, case, counts)?;
    }
    Ok(())
}

/// A reclaim of each kind that is done, with an allocate of the number after it; one for each reply; and, of those that
/// are alive and of those that are dead, one through a slot of any rights and of any rights without wr.
fn compare_reclaims(calls: &impl Calls, rng: &mut Rng, counts: &mut Counts) -> Compared<()> {
    for kind in ReclaimKind::ALL {
        let case = reclaim_case(rng, kind);
        let again = made_again(rng, &case);
        let mut twin = Twin::new(case.table);
        for request in [Some(case.request), again].into_iter().flatten() {
            one_step(calls, &mut twin, &ask(request), counts)?;
        }
    }
    let code = Code::Reclaim.number();
    for reply in STEP_REPLIES.into_iter().filter(|&aim| can_meet(code, aim)) {
        one_case(calls, step_case(rng, code, reply), counts)?;
    }
    let any = rng.byte(1, ALL_RIGHTS);
    one_case(calls, reclaim_through(rng, 24, any), counts)?;
    let without: Vec<u8> = (1..=ALL_RIGHTS).filter(|rights| rights & WR == 0).collect();
    for aim in [24, 6] {
        let rights = rng.pick(&without).unwrap_or(1);
        one_case(calls, reclaim_through(rng, aim, rights), counts)?;
    }
    Ok(())
}

/// The allocate of the number by the object that reclaims it.
fn made_again(rng: &mut Rng, case: &StepCase) -> Option<Request> {
    let Request::Reclaim { actor, t } = case.request else {
        return None;
    };
    let used = case.table.record(actor).slots[usize::from(t)];
    Some(Code::Allocate.request(Fields {
        actor,
        n: used.target,
        kind: rng.byte(0, ACTIVE),
        i: rng.byte(0, 7),
        ..Fields::default()
    }))
}

/// A step on a table of its own.
fn one_case(calls: &impl Calls, case: StepCase, counts: &mut Counts) -> Compared<()> {
    let mut twin = Twin::new(case.table);
    one_step(calls, &mut twin, &ask(case.request), counts)
}

/// A test in layers, which takes as many rounds as it has layers.
fn compare_layered(calls: &impl Calls, rng: &mut Rng, counts: &mut Counts) -> Compared<()> {
    let case = layered_test(rng);
    let list = list_bytes(&case.list);
    one_test(calls, (&case.table, case.members, &list), counts)
}

/// A request of each kind of empty copies, on a table of its own.
fn compare_empty(calls: &impl Calls, rng: &mut Rng, counts: &mut Counts) -> Compared<()> {
    for kind in EmptyKind::ALL {
        one_case(calls, empty_copy_case(rng, kind), counts)?;
    }
    Ok(())
}

/// An import for each number.
fn compare_imports(calls: &impl Calls, rng: &mut Rng, counts: &mut Counts) -> Compared<()> {
    for aim in IMPORT_NUMBERS {
        let bytes = import_case(rng, aim);
        counts.add(Line::Import, compare_import(calls, &bytes)?);
    }
    Ok(())
}

/// The confinement test twice: on the table as it is, and on a case aimed at a number.
fn compare_tests(
    calls: &impl Calls,
    rng: &mut Rng,
    table: &Table,
    counts: &mut Counts,
) -> Compared<()> {
    let (members, list) = loose_test(rng, table);
    one_test(calls, (table, members, &list), counts)?;
    let (case, list) = aimed_test(rng);
    one_test(calls, (&case.table, case.members, &list), counts)
}

/// A test both ways, and potential access of its table.
fn one_test(calls: &impl Calls, test: Test, counts: &mut Counts) -> Compared<()> {
    let (table, members, list) = test;
    one_access(calls, table, counts)?;
    let tested = compare_test(calls, table, members, list)?;
    count_test(counts, Line::Test, tested.number, test);
    counts.add(Line::TestByGroups, tested.number);
    if tested.is_accepted() {
        counts.add_rounds(tested.rounds);
        let groups = groups_among(table, table.born() & !members);
        counts.add_groups(Way::Test, table, &groups);
    }
    Ok(())
}

fn one_chain(calls: &impl Calls, test: Test, object: u8, counts: &mut Counts) -> Compared<()> {
    let (table, members, list) = test;
    let number = compare_chain(calls, table, members, list, object)?;
    count_test(counts, Line::Chain, number, test);
    Ok(())
}

/// Some or all alive objects, and the bytes of a list: none, or any.
fn loose_test(rng: &mut Rng, table: &Table) -> (u64, Vec<u8>) {
    let numbers = (0..64).filter(|&n| table.record(n).is_alive());
    let alive = numbers.fold(0, |set, n| set | 1 << n);
    let members = match rng.between(0, 3) {
        0 => alive,
        1 => alive & rng.bits() & rng.bits() & rng.bits(),
        _ => alive & (rng.bits() | rng.bits()),
    };
    let length = if rng.percent(60) {
        0
    } else {
        rng.between(0, 20) as usize
    };
    (members, any_bytes(rng, length))
}

/// A case for one of the numbers, with the bytes of its list.
fn aimed_test(rng: &mut Rng) -> (ConfinementCase, Vec<u8>) {
    let aim = rng.pick(&CONFINEMENT_NUMBERS).unwrap_or(0);
    let case = confinement_case(rng, aim);
    let list = loose_bytes(rng, &case.list);
    (case, list)
}

/// The bytes of a list. One in ten has an odd byte at the end or is much too long.
fn loose_bytes(rng: &mut Rng, entries: &[Entry]) -> Vec<u8> {
    let mut list = list_bytes(entries);
    if rng.percent(10) {
        let more = rng.pick(&[1, 1, 2, 17, 300]).unwrap_or(1);
        list.extend(any_bytes(rng, more));
    }
    list
}

/// The chain three times: on the table as it is, on a case that has one, and on a case aimed at a number.
fn compare_chains(
    calls: &impl Calls,
    rng: &mut Rng,
    table: &Table,
    counts: &mut Counts,
) -> Compared<()> {
    let (members, list) = loose_test(rng, table);
    let object = rng.byte(0, 80);
    one_chain(calls, (table, members, &list), object, counts)?;
    for aim in [0, rng.pick(&SHOWN_NUMBERS).unwrap_or(0)] {
        let case = shown_case(rng, aim);
        let (test, list) = (&case.test, loose_bytes(rng, &case.test.list));
        let asked = (&test.table, test.members, list.as_slice());
        one_chain(calls, asked, case.object, counts)?;
    }
    Ok(())
}

/// On the table as it is, tests in which members hold wk alone, and of each the chain to a listed object or to
/// any other.
fn compare_weak(
    calls: &impl Calls,
    rng: &mut Rng,
    table: &Table,
    counts: &mut Counts,
) -> Compared<()> {
    for beside in Beside::ALL {
        let Some(case) = weak_case(rng, table, beside) else {
            continue;
        };
        let list = list_bytes(&case.list);
        let asked = (&case.table, case.members, list.as_slice());
        one_test(calls, asked, counts)?;
        let listed = rng.pick(&case.list).map(|entry| entry.0);
        let outside = born_non_members(&case.table, case.members);
        let object = listed.filter(|_| rng.percent(50)).or(rng.pick(&outside));
        one_chain(calls, asked, object.unwrap_or(0), counts)?;
    }
    Ok(())
}
