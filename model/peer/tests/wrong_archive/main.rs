//! An archive with one thing wrong is found out by the comparison, and the linked one is not.

mod done;
mod empty;
mod groups;
mod makers;
mod reclaim;
mod rights;
mod rounds;
mod weak;

use captable::raw;
use yavrinks_model::image::Version;
use yavrinks_model::step::Code;
use yavrinks_peer::archive::{Archive, Calls};
use yavrinks_peer::differential::{compare_inputs, compare_requests, Counts, Difference, Line};
use yavrinks_peer::samples::mended;
use yavrinks_tools::empty_kinds::EmptyKind;
use yavrinks_tools::generate::{
    CONFINEMENT_NUMBERS, CONFINE_NUMBERS, IMPORT_NUMBERS, SHOWN_NUMBERS,
};

/// Enough to meet every call and every number.
const REQUESTS: u64 = 20_000;
const INPUTS: u64 = 500;

/// The first difference of an archive, if there is one.
fn first_difference(calls: &impl Calls) -> Option<Box<Difference>> {
    let mut counts = Counts::default();
    let compared = compare_requests(calls, 1, REQUESTS, &mut counts)
        .and_then(|()| compare_inputs(calls, 1, INPUTS, &mut counts));
    compared.err().map(|found| found.difference)
}

/// What is told of the first difference, which there must be.
#[track_caller]
fn told_of(calls: &impl Calls) -> String {
    let difference = first_difference(calls).expect("the wrong archive is found out");
    difference.to_string()
}

/// Is the difference found in this call, and in this part of its answer alone?
fn is_found(calls: &impl Calls, call: &str, part: &str) {
    let told = told_of(calls);
    let first = told.lines().next();
    let expected = format!("{call} differs from the model in: {part}");
    assert_eq!(first, Some(expected.as_str()), "{told}");
}

/// Is the difference in this call, and first of all in this part of its answer?
#[track_caller]
fn is_found_in(calls: &impl Calls, call: &str, part: &str) {
    let told = told_of(calls);
    let expected = format!("{call} differs from the model in: {part}");
    assert!(told.starts_with(&expected), "{told}");
}

#[test]
fn the_linked_archive_has_no_difference() {
    assert!(first_difference(&Archive).is_none());
}

/// Every call is compared on every number that it gives, on most of them several times.
#[test]
fn every_number_of_every_call_is_met() {
    let mut counts = Counts::default();
    compare_requests(&Archive, 1, REQUESTS, &mut counts).expect("no difference");
    compare_inputs(&Archive, 1, INPUTS, &mut counts).expect("no difference");
    let lines: [(Line, &[u8], u64); 12] = [
        (Line::Code(Code::Reclaim), &[0, 1, 2, 3, 4, 6, 24], 60),
        (Line::Sound, &[0, 1], 30),
        (Line::Access, &[0], 30),
        (Line::Test, &CONFINEMENT_NUMBERS, 3),
        (Line::Chain, &SHOWN_NUMBERS, 2),
        (Line::Write(Version::One), &[0, 1, 16, 23], 39),
        (Line::Write(Version::Two), &[0, 1, 16], 39),
        (Line::Read(Version::One), &[0, 1, 14], 30),
        (Line::Read(Version::Two), &[0, 1, 14], 30),
        (Line::ReadOther, &[14, 15], 10),
        (Line::Import, &IMPORT_NUMBERS, 60),
        (Line::Confine, &CONFINE_NUMBERS, 5),
    ];
    for (line, numbers, least) in lines {
        for &number in numbers {
            let met = counts.of(line, number);
            assert!(met >= least, "{line:?}, {number}: {met}\n{counts}");
        }
    }
    assert!(counts.of(Line::Chain, 0) >= 30, "{counts}");
}

/// Tests where a member holds wk alone that the list lacks are among them: accepted ones, ones with another
/// capability that is refused beside it, and ones that go on to 13.
#[test]
fn unlisted_wk_is_met_with_every_number_from_12_on() {
    let mut counts = Counts::default();
    compare_requests(&Archive, 1, REQUESTS, &mut counts).expect("no difference");
    compare_inputs(&Archive, 1, INPUTS, &mut counts).expect("no difference");
    let lines: [(Line, &[u8], u64); 3] = [
        (Line::Test, &[0, 12, 13], 10),
        (Line::Chain, &[0, 12, 13, 19], 5),
        (Line::Confine, &[0, 12, 13], 2),
    ];
    for (line, numbers, least) in lines {
        for &number in numbers {
            let met = counts.of_unlisted(line, number);
            assert!(met >= least, "{line:?}, {number}: {met}\n{counts}");
            assert!(met <= counts.of(line, number), "{line:?}, {number}");
        }
    }
}

/// Requests with empty copies are among them, of every kind: 40 of each are made after 512 requests at a time, and
/// others come in the run.
#[test]
fn every_kind_of_empty_copies_is_met() {
    let mut counts = Counts::default();
    compare_requests(&Archive, 1, REQUESTS, &mut counts).expect("no difference");
    for kind in EmptyKind::ALL {
        let met = counts.of_empty(kind);
        assert!(met >= 45, "{kind:?}: {met}\n{counts}");
    }
}

/// Answers 7 for 8.
struct WrongNumber;

impl Calls for WrongNumber {
    fn step(&self, table: &mut raw::Table, request: &mut [u8]) -> u8 {
        match Archive.step(table, request) {
            8 => 7,
            number => number,
        }
    }
}

#[test]
fn a_wrong_number_is_found() {
    is_found(&WrongNumber, "captable_step", "number");
}

/// Changes the word of the last record when it refuses by 9.
struct TouchedTable;

impl Calls for TouchedTable {
    fn stepped(&self, table: &mut raw::Table, request: &mut [u8]) -> raw::Outcome {
        let mut outcome = Archive.stepped(table, request);
        if outcome.number == 9 {
            outcome.table.records[63].word ^= 0x5A5A;
        }
        outcome
    }
}

#[test]
fn a_table_changed_on_a_refusal_is_found() {
    is_found(&TouchedTable, "captable_step_by_value", "table given back");
}

/// Writes one byte after the image.
struct TouchedBuffer;

impl Calls for TouchedBuffer {
    fn write(&self, table: &mut raw::Table, buffer: &mut [u8]) -> u8 {
        let number = Archive.write(table, buffer);
        if let Some(after) = buffer.get_mut(1987) {
            *after ^= 1;
        }
        number
    }
}

#[test]
fn a_byte_after_the_image_that_changes_is_found() {
    is_found(&TouchedBuffer, "captable_write", "buffer");
}

/// Writes into the request that it may only read.
struct TouchedRequest;

impl Calls for TouchedRequest {
    fn step(&self, table: &mut raw::Table, request: &mut [u8]) -> u8 {
        let number = Archive.step(table, request);
        if let (4, Some(last)) = (number, request.last_mut()) {
            *last ^= 128;
        }
        number
    }
}

#[test]
fn a_request_that_changes_is_found() {
    is_found(&TouchedRequest, "captable_step", "request");
}

/// Leaves a byte of the buffer after the text changed.
struct LongText;

impl Calls for LongText {
    fn confine(&self, input: &mut [u8], out: &mut [u8; 256]) -> usize {
        let count = Archive.confine(input, out);
        out[count] = out[count].wrapping_add(1);
        count
    }
}

#[test]
fn a_byte_after_the_text_that_changes_is_found() {
    is_found(&LongText, "captable_confine", "buffer");
}

/// Calls a slot with a target and no rights empty.
struct LaxScan;

impl Calls for LaxScan {
    fn scan(&self, table: &raw::Table) -> u8 {
        let mut lax = *table;
        for slot in &mut lax.slots {
            if slot.rights == 0 {
                slot.target = 0;
            }
        }
        Archive.scan(&lax)
    }
}

#[test]
fn a_scan_that_overlooks_a_clause_is_found() {
    is_found(&LaxScan, "the scan in C", "number");
}

/// Answers 19 for 18.
struct WrongObject;

impl Calls for WrongObject {
    fn chain(
        &self,
        table: &mut raw::Table,
        members: u64,
        list: &mut [u8],
        object: u8,
    ) -> raw::Shown {
        let mut shown = Archive.chain(table, members, list, object);
        if shown.number == 18 {
            shown.number = 19;
        }
        shown
    }
}

#[test]
fn a_wrong_number_of_a_chain_is_found() {
    is_found(&WrongObject, "captable_chain", "number");
}

/// Gives the chain from the object's end on.
struct TurnedChain;

impl Calls for TurnedChain {
    fn chain(
        &self,
        table: &mut raw::Table,
        members: u64,
        list: &mut [u8],
        object: u8,
    ) -> raw::Shown {
        let mut shown = Archive.chain(table, members, list, object);
        shown.numbers[..usize::from(shown.count)].reverse();
        shown
    }
}

#[test]
fn a_chain_that_is_turned_about_is_found() {
    is_found(&TurnedChain, "captable_chain", "numbers");
}

/// Leaves a number after the chain.
struct LongChain;

impl Calls for LongChain {
    fn chain(
        &self,
        table: &mut raw::Table,
        members: u64,
        list: &mut [u8],
        object: u8,
    ) -> raw::Shown {
        let mut shown = Archive.chain(table, members, list, object);
        if let Some(after) = shown.numbers.get_mut(usize::from(shown.count)) {
            *after = object;
        }
        shown
    }
}

#[test]
fn a_number_after_the_chain_is_found() {
    is_found(&LongChain, "captable_chain", "numbers");
}

/// An archive whose imports are what a function makes of the right answer; the function may change the bytes.
struct Imports(fn(&mut raw::Outcome, &mut [u8]));

impl Calls for Imports {
    fn import(&self, bytes: &mut [u8]) -> raw::Outcome {
        let mut outcome = Archive.import(bytes);
        (self.0)(&mut outcome, bytes);
        outcome
    }
}

/// Is an archive with such imports found out?
fn import_is_found(part: &str, wrong: fn(&mut raw::Outcome, &mut [u8])) {
    is_found(&Imports(wrong), "captable_import", part);
}

#[test]
fn a_wrong_number_of_an_import_is_found() {
    import_is_found("number", |outcome, _| {
        if outcome.number == 22 {
            outcome.number = 20;
        }
    });
}

/// A target above the last entity, with no rights after it, is 22; where it is judged after its rights, 20.
#[test]
fn a_target_that_is_judged_too_late_is_found() {
    import_is_found("number", |outcome, bytes| {
        let before = bytes.len().saturating_sub(1);
        let mut cut = mended(bytes[..before].to_vec());
        let by_the_last = Archive.import(&mut cut).number == 20;
        if outcome.number == 22 && by_the_last && before > 4 {
            outcome.number = 20;
        }
    });
}

#[test]
fn store_that_becomes_rd_alone_is_found() {
    import_is_found("table", |outcome, _| {
        for slot in &mut outcome.table.slots {
            if slot.rights == 3 {
                slot.rights = 1;
            }
        }
    });
}

/// A capability with no right gives an empty slot in its place, and no place is closed up.
#[test]
fn slots_that_are_closed_up_are_found() {
    import_is_found("table", |outcome, _| {
        for slots in outcome.table.slots.chunks_mut(8) {
            slots.sort_by_key(|slot| slot.rights == 0);
        }
    });
}

#[test]
fn a_passive_entity_is_found() {
    import_is_found("table", |outcome, _| outcome.table.records[2].kind = 0);
}

/// What was brought in before the offence stays.
#[test]
fn a_refused_import_with_an_object_is_found() {
    import_is_found("table", |outcome, _| {
        if outcome.number == 22 {
            outcome.table.records[0].status = 1;
        }
    });
}

#[test]
fn an_import_that_changes_its_bytes_is_found() {
    import_is_found("import", |outcome, bytes| {
        if let (0, Some(last)) = (outcome.number, bytes.last_mut()) {
            *last ^= 128;
        }
    });
}
