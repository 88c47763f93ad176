//! Reads what the toolchain said of the crates of cases: which statements it refused, and which it
//! could not check.

use super::crates::CaseCrate;
use std::collections::BTreeMap;

/// What the checker said of a case that it did not accept.
#[derive(Clone, Debug, PartialEq, Eq)]
pub enum Verdict {
    /// The definition gives something else than the model.
    Refused(String),
    /// There is no verdict, for the reason given.
    Undecided(String),
}

/// An error in a file of cases.
#[derive(Clone, Debug, PartialEq, Eq)]
pub struct Complaint {
    pub crate_name: String,
    /// The case whose declaration has the error; none if the whole file has it.
    pub case: Option<usize>,
    pub message: String,
}

/// The cases that were not accepted, of the crates of cases that were checked.
pub fn verdicts(said: &str, crates: &[CaseCrate]) -> BTreeMap<usize, Verdict> {
    let complaints = complaints(said);
    let mut verdicts = BTreeMap::new();
    for one in crates {
        let mut own = BTreeMap::new();
        for complaint in complaints.iter().filter(|c| c.crate_name == one.name) {
            match complaint.case {
                Some(case) => record(&mut own, case, complaint),
                None => one
                    .cases
                    .iter()
                    .for_each(|case| record(&mut own, *case, complaint)),
            }
        }
        // Silence on a case is acceptance only where the checker got through the whole crate.
        let outcome = outcome(said, &one.name);
        if outcome != Outcome::Proved && (own.is_empty() || outcome != Outcome::Through) {
            let reason = Verdict::Undecided(reason_for(said, &one.name).into());
            for case in &one.cases {
                own.entry(*case).or_insert(reason.clone());
            }
        }
        verdicts.extend(own);
    }
    verdicts
}

/// A refusal counts more than a missing verdict, and the first of each kind is kept.
fn record(verdicts: &mut BTreeMap<usize, Verdict>, case: usize, complaint: &Complaint) {
    let message = complaint.message.clone();
    let refused = complaint.case.is_some() && is_mismatch(&message);
    match verdicts.get(&case) {
        Some(Verdict::Refused(_)) => {}
        Some(Verdict::Undecided(_)) if !refused => {}
        _ if refused => {
            verdicts.insert(case, Verdict::Refused(message));
        }
        _ => {
            verdicts.insert(case, Verdict::Undecided(message));
        }
    }
}

/// Whether the checker found that two things differ. All else, as a name that it does not know or
/// too many steps, says nothing of the definitions. That what differs is too long to be printed is no such stop.
fn is_mismatch(message: &str) -> bool {
    message.contains("but this has type") && !message.contains("step limit")
}

/// The errors in what the toolchain said. Indented lines go on with the error above them.
pub fn complaints(said: &str) -> Vec<Complaint> {
    let mut complaints: Vec<Complaint> = Vec::new();
    let (mut open, mut crate_name) = (false, "");
    for line in said.lines() {
        if let Some(name) = heading(line) {
            (open, crate_name) = (false, name);
        } else if let Some(complaint) = complaint(line, crate_name) {
            complaints.push(complaint);
            open = true;
        } else if let Some(last) = complaints.last_mut().filter(|_| line.starts_with("  ")) {
            if open {
                last.message += "\n";
                last.message += line.trim_end();
            }
        } else {
            open = false;
        }
    }
    complaints
}

/// The name in a heading, `== NAME`: what the toolchain said of a crate follows it.
pub fn heading(line: &str) -> Option<&str> {
    line.strip_prefix("== ").map(str::trim)
}

/// An error line: `./proofs/Cases.antt:LINE:COLUMN: error: `DECLARATION`: MESSAGE`.
fn complaint(line: &str, crate_name: &str) -> Option<Complaint> {
    let (place, message) = line.split_once(": error: ")?;
    place.strip_prefix("./proofs/")?.split_once(".antt:")?;
    let case = message
        .strip_prefix('`')
        .and_then(|rest| rest.split_once('`'))
        .and_then(|(declaration, _)| case_number(declaration));
    Some(Complaint {
        crate_name: crate_name.into(),
        case,
        message: message.into(),
    })
}

/// The number in the name of a declaration, as 42 in `table-0042`.
fn case_number(declaration: &str) -> Option<usize> {
    declaration.split('-').nth(1)?.parse().ok()
}

/// How the check of a crate ended.
#[derive(Clone, Copy, Debug, PartialEq, Eq)]
enum Outcome {
    Proved,
    /// Not proved, and the checker got to the end: it refused something, or could not tell.
    Through,
    /// Not proved for any other reason.
    Broken,
}

fn outcome(said: &str, name: &str) -> Outcome {
    let line = line_on(said, name).unwrap_or("");
    match line.split_once(": ").map_or("", |(_, words)| words) {
        "ok" => Outcome::Proved,
        "failed (1)" | "failed (3)" => Outcome::Through,
        _ => Outcome::Broken,
    }
}

/// The toolchain's own line on a crate, `NAME: ok` or why not, below the heading `summary`.
fn line_on<'a>(said: &'a str, name: &str) -> Option<&'a str> {
    let start = format!("{name}: ");
    let summary = said
        .lines()
        .skip_while(|line| heading(line) != Some("summary"));
    summary.filter(|line| line.starts_with(&start)).last()
}

/// Why there is no verdict on a crate: the line on it, or else the last thing said.
fn reason_for<'a>(said: &'a str, name: &str) -> &'a str {
    line_on(said, name)
        .or(said.lines().last())
        .unwrap_or("the toolchain said nothing")
}
