//! The archive and the model on the same requests, images, imports and inputs. All of them follow from
//! the seed, so that the same command does the same on every machine.

mod aim;
mod counts;
mod course;
mod draw;
mod facts;
mod grouped;
mod inputs;
mod makers;
mod reclaims;
mod rounds;
mod steps;
mod sweep;
mod unlisted;
mod weak;
mod wholes;

pub use counts::{Counts, Line};
pub use facts::{Compared, Difference};
pub use grouped::{grouped_table, Way, SPANS};
pub use makers::MakerKind;
pub use reclaims::{Again, Tally};
pub use steps::{compare_step, Ask, Twin};
pub use wholes::{
    compare_access, compare_chain, compare_confine, compare_import, compare_read, compare_sound,
    compare_test, compare_unborn, compare_write,
};

use std::process::ExitCode;

use yavrinks_model::step::{Code, Request};
use yavrinks_tools::empty_kinds::EmptyKind;
use yavrinks_tools::generate::ReclaimKind;
use yavrinks_tools::progress::Progress;
use yavrinks_tools::rng::Rng;

use crate::archive::{Archive, Calls};
use course::Course;
use draw::any_bytes;
use inputs::Source;
use sweep::sweep;
use unlisted::count_input;

/// After so many requests the other calls are compared on the table as it is.
const BETWEEN_SWEEPS: u64 = 512;

/// What the parts of the counts are that are not calls by number.
const NOTE: &str = "\
empty copies: of the requests that were done those in which a copy came out empty, and revokes; each is
counted once in every line that it belongs to
unlisted wk: a member holds wk alone over a non-member, and the list has no wk for it. Under 0 such
tests were accepted and such chains shown, under 12 another capability was refused beside it
makers: of requests that were done; of the tables whose soundness was compared, each born record of a
sound one, and each record that offends where nothing but makers does
reclaims: of those that were done; each is counted once in every line of its kind, and in those of slots and
makers as often as it emptied or reset one. Made again are numbers that were reclaimed in the same table
rounds: of the confinement tests that were accepted, how many rounds added an object; most is the most of any
both ways: each table and each test goes to the call by the rules, to the one by groups and to the version that is
written for speed. Counted are the groups of sound tables, of accepted tests those that non-members make, and the
tables where one has wk over an object of another group";

/// A difference, and the place in the run where it was met.
#[derive(Debug)]
pub struct Found {
    pub place: String,
    pub difference: Box<Difference>,
}

/// Compares the linked archive with the model, and prints what was compared or the first difference.
pub fn command(seed: u64, requests: u64, inputs: u64) -> ExitCode {
    eprintln!("differential: {requests} requests are compared with the model, then {inputs} images, imports and inputs of confine");
    let mut counts = Counts::default();
    let compared = compare_requests(&Archive, seed, requests, &mut counts)
        .and_then(|()| compare_inputs(&Archive, seed, inputs, &mut counts));
    match compared {
        Ok(()) => {
            println!(
                "seed {seed}: {requests} requests, each lent and by value; {inputs} images read;"
            );
            println!(
                "{inputs} imports; {inputs} inputs of confine; after each {BETWEEN_SWEEPS} requests the other calls,"
            );
            println!(
                "a request of each of the {} kinds of empty copies and a reclaim of each of {} kinds and for each reply,",
                EmptyKind::ALL.len(),
                ReclaimKind::ALL.len()
            );
            println!("with an allocate of the number after those that are done; all of them are counted too");
            println!("{NOTE}\n\n{counts}\nno difference");
            ExitCode::SUCCESS
        }
        Err(found) => {
            println!("seed {seed}, {}: {}", found.place, found.difference);
            ExitCode::FAILURE
        }
    }
}

/// Requests on tables that they change, in both forms, and the other calls at times.
pub fn compare_requests(
    calls: &impl Calls,
    seed: u64,
    requests: u64,
    counts: &mut Counts,
) -> Result<(), Found> {
    let mut rng = Rng::new(seed);
    let mut course = Course::new(&mut rng);
    let mut progress = Progress::new("differential: requests", requests);
    for k in 0..requests {
        let found = |difference| Found {
            place: format!("request {k}"),
            difference,
        };
        course.advance(&mut rng);
        let ask = draw::draw(&mut rng, &course.twin.model);
        one_step(calls, &mut course.twin, &ask, counts).map_err(found)?;
        if k % BETWEEN_SWEEPS == 0 {
            progress.at(k);
            sweep(calls, &mut rng, &course.twin.model, counts).map_err(found)?;
        }
    }
    Ok(())
}

/// Compares and counts one step.
fn one_step(calls: &impl Calls, twin: &mut Twin, ask: &Ask, counts: &mut Counts) -> Compared<()> {
    let before = twin.model.clone();
    let number = compare_step(calls, twin, ask)?;
    counts.add(line_of(ask), number);
    if let (0, Some(request)) = (number, &ask.request) {
        counts.add_done(&before, request);
        if let Some(again) = twin.reclaimed.note(&before, request) {
            counts.add_again(again);
        }
    }
    Ok(())
}

/// The line of the summary that bytes belong to.
fn line_of(ask: &Ask) -> Line {
    let asked = ask.request.as_ref().map(Request::code);
    match (asked.and_then(Code::of), ask.bytes.first()) {
        (Some(code), _) => Line::Code(code),
        (_, Some(1..=9) | None) => Line::NoRequest,
        _ => Line::OtherCode,
    }
}

/// Images that are read, as many imports, and as many inputs of `confine`.
pub fn compare_inputs(
    calls: &impl Calls,
    seed: u64,
    inputs: u64,
    counts: &mut Counts,
) -> Result<(), Found> {
    // Another seed than that of the requests, which does not depend on how many they are; and for imports one
    // more, since nothing else hangs on them.
    let (mut rng, mut apart) = (Rng::new(!seed), Rng::new(seed.rotate_left(32)));
    let (mut images, mut imports) = (Source::images(), Source::imports());
    let mut sources = Source::confine_inputs();
    let mut progress = Progress::new("differential: images, imports, inputs of confine", inputs);
    for k in 0..inputs {
        progress.at(k);
        let found = |what: &'static str| {
            move |difference| Found {
                place: format!("{what} {k}"),
                difference,
            }
        };
        let image = images.next(&mut rng);
        counts.add(
            Line::of_image(&image),
            compare_read(calls, &image).map_err(found("image"))?,
        );
        let import = imports.next(&mut apart);
        counts.add(
            Line::Import,
            compare_import(calls, &import).map_err(found("import"))?,
        );
        let input = sources.next(&mut rng);
        let mut buffer = [0; 256];
        buffer.copy_from_slice(&any_bytes(&mut rng, 256));
        let number = compare_confine(calls, &input, &buffer).map_err(found("input of confine"))?;
        count_input(counts, number, &input);
    }
    Ok(())
}
