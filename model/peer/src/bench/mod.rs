//! The time of each call against the model's on the same input, in turns, of the chain against the test
//! that it begins with, and of the step on a lent table against one soundness scan in C. Both sides check
//! soundness at each step, as document 01 asks.

mod groups;
mod measure;
mod steps;
mod wholes;

pub use groups::command as groups_command;

use std::process::ExitCode;

use yavrinks_tools::progress::Progress;

use crate::samples::{imports, keeping, made_table, material_test};
use crate::samples::{places, reclaims, requests, rows, NamedStep, Place};
use measure::{Figures, ROUNDS};

/// The most that a lent step should take, in scans.
const GOAL: f64 = 2.0;

/// How the figures are to be read.
const NOTE: &str = "\
Nanoseconds a call are the least of the rounds. Below 1.00 the proved call is faster. Middle, low and
high are of the ratios of the single rounds. By value both sides copy the table. Lent, an allocate, a
destroy and a reclaim are undone after each call, on both sides alike. The time of the scan in C stands under
proved. Requests whose copies come out empty, and a fetch that is weakened to what is there, leave filled
slots as they were. A reclaim is on table K, where one other object holds the number, and where all 504 slots
of 63 alive objects are filled: either all of them name the number, and it made all these objects, or the
used slot alone does.
A chain is that to the object farthest off. With 64 wk unlisted, eight members hold wk alone in all their
slots and the list is empty. With 64 objects in a row the test takes 63 rounds. A full import has 64 entities
of eight capabilities, a small one three. An image is of version 2, an older image of version 1; with every
object made, each record of the filled table has a maker.
";

/// How many calls are timed.
fn calls(places: &[Place]) -> usize {
    let each: usize = places
        .iter()
        .map(|place| requests(&place.table).len())
        .sum();
    // On rows the test and the chain; the chain against the test on all of them.
    let on_rows = 2 * rows().len();
    let against_test = places.len() + rows().len();
    let wholes = places.len() * wholes::ALL.len() + wholes::WITH_MAKERS.len();
    let wholes = wholes + 1 + on_rows + imports().len();
    3 * (each + named_steps().len()) + wholes + against_test
}

/// Times everything and prints a line a call.
pub fn command() -> ExitCode {
    let places = places();
    let all = calls(&places);
    eprintln!("bench: {all} calls to be timed, about a tenth of a second each");
    let mut timing = Timing::new(all as u64);

    println!("{ROUNDS} rounds of each side, taken in turn.\n{NOTE}");
    head("call", "proved ns", "model ns");
    for place in &places {
        for (name, request) in requests(&place.table) {
            timing.on(place, &format!("{name} by value"), || {
                steps::by_value(&place.table, &request)
            });
            timing.on(place, &format!("{name} lent"), || {
                steps::lent(&place.table, &request)
            });
        }
        for (name, figures) in wholes::ALL {
            timing.on(place, name, || figures(place));
        }
    }
    let made = made_table();
    for (name, figures) in wholes::WITH_MAKERS {
        let name = format!("{name}, every object made");
        timing.line(&name, || figures(&made));
    }
    time_named_steps(&mut timing);
    timing.line("confinement test, 64 wk unlisted", || {
        wholes::test_of(&material_test())
    });
    for row in rows() {
        timing.on(&row, "confinement test", || wholes::test(&row));
        timing.on(&row, "chain", || wholes::chain(&row));
    }
    for import in imports() {
        let name = format!("import {}", import.name);
        timing.line(&name, || wholes::import(&import.bytes));
    }
    archive_alone(&places, &mut timing);
    ExitCode::SUCCESS
}

/// The requests that leave every slot, and the reclaims.
fn named_steps() -> Vec<NamedStep> {
    keeping().into_iter().chain(reclaims()).collect()
}

/// These in both forms of the step.
fn time_named_steps(timing: &mut Timing) {
    for case in named_steps() {
        timing.line(&format!("{} by value", case.name), || {
            steps::by_value(&case.table, &case.request)
        });
        timing.line(&format!("{} lent", case.name), || {
            steps::lent(&case.table, &case.request)
        });
    }
}

/// The archive's calls against one another and against the scan in C.
fn archive_alone(places: &[Place], timing: &mut Timing) {
    println!("\nThe chain against the test that it begins with.\n");
    head("call", "chain ns", "test ns");
    for place in places.iter().chain(&rows()) {
        timing.on(place, "chain", || wholes::chain_against_test(place));
    }
    println!("\nThe lent step against one soundness scan in C -O3. Goal: at most {GOAL:.2}.\n");
    head("call", "step ns", "scan ns");
    for place in places {
        for (name, request) in requests(&place.table) {
            timing.on(place, &format!("{name} lent"), || {
                steps::lent_against_scan(&place.table, &request)
            });
        }
    }
    for case in named_steps() {
        timing.line(&format!("{} lent", case.name), || {
            steps::lent_against_scan(&case.table, &case.request)
        });
    }
}

/// Takes the figures one after the other, and says how far it is.
struct Timing {
    progress: Progress,
    done: u64,
}

impl Timing {
    fn new(all: u64) -> Timing {
        Timing {
            progress: Progress::new("bench: calls timed", all),
            done: 0,
        }
    }

    fn line(&mut self, name: &str, figures: impl FnOnce() -> Figures) {
        self.progress.at(self.done);
        self.done += 1;
        line(name, &figures());
    }

    /// The line of a call on a place.
    fn on(&mut self, place: &Place, name: &str, figures: impl FnOnce() -> Figures) {
        self.line(&format!("{name}, {}", place.name), figures);
    }
}

fn head(call: &str, first: &str, second: &str) {
    println!(
        "{call:44}{first:>11}{second:>11}{:>8}{:>8}{:>8}{:>8}",
        "ratio", "middle", "low", "high"
    );
}

fn line(name: &str, figures: &Figures) {
    println!(
        "{name:44}{:>11.1}{:>11.1}{:>8.2}{:>8.2}{:>8.2}{:>8.2}",
        figures.first,
        figures.second,
        figures.first / figures.second,
        figures.middle,
        figures.low,
        figures.high
    );
}
