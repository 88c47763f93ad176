//! The shared test vectors, as far as cases are made of them.

// The reader is the one that the model's own tests have.
#[path = "../../tests/lines/mod.rs"]
mod lines;

use crate::generate::{ConfinementCase, StepCase};
pub use lines::ImageLine;
use lines::{byte, field, hexadecimal, index, table, values, Json, StepLine, TestLine};
use yavrinks_model::access::Access;
use yavrinks_model::step::Request;
use yavrinks_model::table::Table;

/// The bytes of every import in `vectors/2.2`, in the order of the file.
pub fn shared_imports() -> Vec<Vec<u8>> {
    let lines = values(include_str!("../../vectors/2.2/imports.jsonl"));
    let bytes = lines.iter().map(|line| field(line, "bytes"));
    bytes.map(hexadecimal).collect()
}

/// Every table in `vectors/access.jsonl`, in the order of the file, with number and potential access that it says.
pub fn shared_access() -> Vec<(Table, (u8, Access))> {
    let lines = values(include_str!("../../vectors/access.jsonl"));
    let answer = |line: &Json| (byte(field(line, "number")), rights_in(field(line, "rows")));
    let tables = lines.iter().map(|line| table(field(line, "table")));
    tables.zip(lines.iter().map(answer)).collect()
}

fn rights_in(rows: &Json) -> Access {
    let mut access = Access::none();
    for (holder, row) in rows.as_object().expect("rows") {
        for (target, rights) in row.as_object().expect("row") {
            access.rights[index(holder)][index(target)] = byte(rights);
        }
    }
    access
}

/// A test with the number and the bound that the vectors say; from 2.6 on they say the number of rounds too.
pub struct SharedTest {
    pub test: ConfinementCase,
    pub answer: (u8, u64),
    pub rounds: Option<u8>,
}

/// Every test in `vectors/tests.jsonl`, in the order of the file. Seven of them are amended by 2.3.
pub fn shared_base_tests() -> Vec<SharedTest> {
    tests_in(include_str!("../../vectors/tests.jsonl"))
}

/// Every test in `vectors/2.3`, in the order of the file.
pub fn shared_tests() -> Vec<SharedTest> {
    tests_in(include_str!("../../vectors/2.3/tests.jsonl"))
}

/// Every test in `vectors/2.6`, in the order of the file.
pub fn shared_rounds() -> Vec<SharedTest> {
    tests_in(include_str!("../../vectors/2.6/rounds.jsonl"))
}

/// Every test in `vectors/2.7`, in the order of the file.
pub fn shared_tests_with_makers() -> Vec<SharedTest> {
    tests_in(include_str!("../../vectors/2.7/tests.jsonl"))
}

fn tests_in(text: &str) -> Vec<SharedTest> {
    let lines = values(text);
    lines.iter().map(TestLine::of).map(shared_test).collect()
}

fn shared_test(line: TestLine) -> SharedTest {
    SharedTest {
        test: ConfinementCase {
            table: line.table,
            members: line.members,
            list: line.list,
        },
        answer: line.answer,
        rounds: line.rounds,
    }
}

/// A step with the reply and the table after it that the vectors say.
pub struct SharedStep {
    pub step: StepCase,
    pub answer: (u8, Table),
}

/// Every step in `vectors/2.4`, in the order of the file. An allocate that is done is answered as 2.7 amends it.
pub fn shared_steps() -> Vec<SharedStep> {
    let mut steps = steps_in(include_str!("../../vectors/2.4/steps.jsonl"));
    for SharedStep { step, answer } in &mut steps {
        if let (Request::Allocate { actor, n, .. }, 0) = (&step.request, answer.0) {
            answer.1.record_mut(*n).maker = *actor;
        }
    }
    steps
}

/// Every step in `vectors/2.7`, in the order of the file.
pub fn shared_steps_with_makers() -> Vec<SharedStep> {
    steps_in(include_str!("../../vectors/2.7/steps.jsonl"))
}

/// Every step in `vectors/2.8`, in the order of the file.
pub fn shared_steps_with_reclaims() -> Vec<SharedStep> {
    steps_in(include_str!("../../vectors/2.8/steps.jsonl"))
}

/// Every test in `vectors/2.8`, in the order of the file: the same as those of 2.7.
pub fn shared_tests_with_reclaims() -> Vec<SharedTest> {
    tests_in(include_str!("../../vectors/2.8/tests.jsonl"))
}

/// Every image in `vectors/2.7`, read or written, in the order of the file.
pub fn shared_images() -> Vec<ImageLine> {
    let lines = values(include_str!("../../vectors/2.7/images.jsonl"));
    lines.iter().map(ImageLine::of).collect()
}

fn steps_in(text: &str) -> Vec<SharedStep> {
    let lines = values(text);
    lines.iter().map(StepLine::of).map(shared_step).collect()
}

fn shared_step(line: StepLine) -> SharedStep {
    SharedStep {
        step: StepCase {
            table: line.table,
            request: line.request,
        },
        answer: line.answer,
    }
}
