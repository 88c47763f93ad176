//! Makers in the cases of `vectors`: every step that has to do with them comes, and each wrong reading of 2.7 is told
//! apart.

use yavrinks_model::image::Version;
use yavrinks_model::step::{step, step_in_place, Request};
use yavrinks_model::table::{Table, NO_MAKER};
use yavrinks_tools::definitions::cases::{Case, Question};
use yavrinks_tools::definitions::misread_makers::{Misreading, MISREADINGS};
use yavrinks_tools::vectors::{
    chain, edges, image_cases, shared_step_cases, step_cases, write_cases,
};

/// Allocates that are done by an object that was made, and destroys that are done of one that was made, and of one
/// that made another.
#[derive(Debug, Default, PartialEq, Eq)]
struct Counts {
    by_made: u32,
    of_made: u32,
    of_maker: u32,
}

impl Counts {
    /// Counts a request that is done on this table.
    fn count(&mut self, before: &Table, request: &Request) {
        let made = |n| before.record(n).maker != NO_MAKER;
        match request {
            Request::Allocate { actor, .. } => self.by_made += u32::from(made(*actor)),
            Request::Destroy { actor, t } => {
                let target = before.record(*actor).slots[usize::from(*t)].target;
                self.of_made += u32::from(made(target));
                let made_one = before.records.iter().any(|one| one.maker == target);
                self.of_maker += u32::from(made_one);
            }
            _ => {}
        }
    }
}

#[test]
fn steps_make_and_destroy_what_was_made() {
    let mut counts = Counts::default();
    for case in step_cases() {
        if step(&case.table, &case.request).0 == 0 {
            counts.count(&case.table, &case.request);
        }
    }
    println!("{counts:?}");
    assert!(counts.by_made >= 10 && counts.of_made >= 4 && counts.of_maker >= 4);
    for chain in [chain(), edges()] {
        let mut counts = Counts::default();
        let mut table = chain.start.clone();
        for request in &chain.requests {
            let before = table.clone();
            if step_in_place(&mut table, request) == 0 {
                counts.count(&before, request);
            }
        }
        println!("{counts:?}");
        assert!(counts.by_made >= 2 && counts.of_made >= 1);
    }
}

/// All cases of the program as questions with the model's answers, the shared steps left out.
fn questions() -> Vec<Case> {
    let shared = shared_step_cases().len();
    let steps = step_cases()
        .into_iter()
        .skip(shared)
        .map(|case| Question::Step {
            table: case.table,
            request: case.request,
        });
    let images = image_cases()
        .into_iter()
        .map(|case| Question::Read { image: case.image });
    let written = write_cases().into_iter().flat_map(|case| {
        Version::ALL.map(|version| Question::Write {
            version,
            table: case.table.clone(),
            buffer: vec![0xA5; case.room],
        })
    });
    let questions = steps.chain(images).chain(written);
    questions.map(Case::new).collect()
}

/// Each by three cases at least. What `confine` would say is for the command `program`.
#[test]
fn the_cases_of_vectors_tell_wrong_readings_apart() {
    let cases = questions();
    let of_vectors = |reading: &&Misreading| !reading.name.starts_with("confine");
    for reading in MISREADINGS.iter().filter(of_vectors) {
        let told = |case: &&Case| reading.wrong_answer(case).is_some();
        let count = cases.iter().filter(told).count();
        println!("{}: {count}", reading.name);
        assert!(count >= 3, "{}: {count}", reading.name);
    }
}
