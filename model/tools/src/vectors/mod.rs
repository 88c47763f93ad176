//! The cases of the proved program `vectors`, and the output that is expected of it.
//! Every case follows from a fixed seed, and every expected line from the model alone.

mod chain;
mod digest;
mod edges;
mod empty_copies;
mod images;
mod imports;
mod layout;
mod links;
mod relations;
mod rounds;
mod shown;
mod steps;
mod verdicts;

use std::fs;
use std::io;
use std::path::Path;

use crate::progress::Progress;
pub use chain::{chain, Chain};
pub use edges::edges;
pub use empty_copies::{counts_text, in_chain, in_steps};
pub use images::{image_cases, write_cases, ImageCase};
pub use imports::import_cases;
pub use links::{test_reach, test_rounds};
pub use relations::access_cases;
pub use rounds::rounds_cases;
pub use shown::shown_cases;
pub use steps::{shared_step_cases, step_cases};
pub use verdicts::test_cases;

/// One file of cases, with the lines that the program is to print for them.
pub struct Part {
    /// The name of the file in `data`.
    pub file: &'static str,
    /// The line before the cases.
    pub heading: &'static str,
    /// The bytes of the file.
    pub data: Vec<u8>,
    /// What is printed after the number of each case.
    pub answers: Vec<String>,
}

impl Part {
    /// A part without cases.
    fn new(file: &'static str, heading: &'static str) -> Part {
        Part {
            file,
            heading,
            data: Vec::new(),
            answers: Vec::new(),
        }
    }

    /// Adds a case: its bytes and its answer.
    fn add(&mut self, bytes: &[u8], answer: String) {
        self.data.extend(bytes);
        self.answers.push(answer);
    }

    /// The printed text: the heading, a line for each case, the count and an empty line.
    fn text(&self) -> String {
        let mut text = format!("{}\n", self.heading);
        for (number, answer) in self.answers.iter().enumerate() {
            text.push_str(&format!("{number} {answer}\n"));
        }
        text.push_str(&format!("{} cases\n\n", self.answers.len()));
        text
    }
}

/// What makes each part, in the order in which the program runs them.
const MAKERS: [fn() -> Part; 13] = [
    images::part,
    images::writes_part,
    steps::part,
    chain::part,
    chain::lent_part,
    edges::part,
    verdicts::part,
    verdicts::by_groups_part,
    relations::part,
    relations::by_groups_part,
    links::part,
    shown::part,
    imports::part,
];

/// All parts, in that order.
pub fn parts() -> Vec<Part> {
    let mut progress = Progress::new("vectors: parts made", MAKERS.len() as u64);
    let mut made = Vec::new();
    for maker in MAKERS {
        made.push(maker());
        progress.at(made.len() as u64);
    }
    made
}

/// The whole output of the program.
pub fn output(parts: &[Part]) -> String {
    parts.iter().map(Part::text).collect()
}

/// Writes `data` and `stdout` into the folder of the program's crate.
pub fn write(crate_folder: &Path) -> io::Result<()> {
    let parts = parts();
    let data = crate_folder.join("data");
    fs::create_dir_all(&data)?;
    for part in &parts {
        let file = data.join(part.file);
        eprintln!("vectors: {}, {} cases", file.display(), part.answers.len());
        fs::write(file, &part.data)?;
    }
    fs::write(crate_folder.join("stdout"), output(&parts))
}
