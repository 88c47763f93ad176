//! The printed summary: how many cases of each kind there are, by the number answered, and what
//! the checker said of those that did not go as they should.

use super::cases::{subjects, Case};
use super::crates::CaseCrate;
use super::verdicts::Verdict;
use std::collections::BTreeMap;
use std::path::Path;

/// The highest number that is answered.
const HIGHEST: u8 = 24;
/// How much of a checker's message is shown.
const SHOWN: usize = 200;

/// A table of the cases: a row for each subject, a column for each number answered.
pub fn counts(cases: &BTreeMap<usize, Case>) -> String {
    let mut text = format!("{:<20}", "cases, by answer");
    for number in 0..=HIGHEST {
        text += &format!("{number:>4}");
    }
    text += " all\n";
    for subject in subjects() {
        let numbers: Vec<u8> = cases
            .values()
            .filter(|case| case.question.subject() == subject)
            .map(|case| case.answer.number())
            .collect();
        text += &format!("{subject:<20}");
        for number in 0..=HIGHEST {
            text += &cell(numbers.iter().filter(|&&n| n == number).count());
        }
        text += &format!("{:>4}\n", numbers.len());
    }
    text
}

fn cell(count: usize) -> String {
    match count {
        0 => "   .".into(),
        _ => format!("{count:>4}"),
    }
}

/// The cases that the checker did not accept, and a line on all.
pub fn not_accepted(
    cases: &BTreeMap<usize, Case>,
    crates: &[CaseCrate],
    verdicts: &BTreeMap<usize, Verdict>,
    folder: &Path,
) -> String {
    let mut text = String::new();
    let mut refused = 0;
    for (number, verdict) in verdicts {
        if let Verdict::Refused(message) = verdict {
            refused += 1;
            text += &format!("REFUSED {}", entry(cases, crates, *number, folder));
            text += &format!("  {}\n", start_of(message));
        }
    }
    text += &undecided(verdicts, folder);
    text + &format!(
        "{} cases: {} accepted, {refused} refused, {} not checked\n",
        cases.len(),
        cases.len() - verdicts.len(),
        verdicts.len() - refused
    )
}

/// The wrong answers that the checker did not refuse, and a line on all.
pub fn not_refused(
    cases: &BTreeMap<usize, Case>,
    crates: &[CaseCrate],
    verdicts: &BTreeMap<usize, Verdict>,
    folder: &Path,
) -> String {
    let mut text = String::new();
    let mut accepted = 0;
    for number in cases.keys() {
        if !verdicts.contains_key(number) {
            accepted += 1;
            text += &format!("WRONG, ACCEPTED {}", entry(cases, crates, *number, folder));
        }
    }
    text += &undecided(verdicts, folder);
    let refused = verdicts.values().filter(|v| is_refusal(v)).count();
    text + &format!(
        "{} wrong on purpose: {refused} refused, {accepted} accepted, {} not checked\n",
        cases.len(),
        cases.len() - refused - accepted
    )
}

fn is_refusal(verdict: &Verdict) -> bool {
    matches!(verdict, Verdict::Refused(_))
}

/// A case and the file that states it.
fn entry(
    cases: &BTreeMap<usize, Case>,
    crates: &[CaseCrate],
    number: usize,
    folder: &Path,
) -> String {
    let mut text = format!("case {number}");
    if let Some(case) = cases.get(&number) {
        let (subject, answer) = (case.question.subject(), case.answer.number());
        text += &format!(": {subject}, answer {answer}");
    }
    for one in crates.iter().filter(|one| one.cases.contains(&number)) {
        text += &format!("\n  {}", folder.join(one.file()).display());
    }
    text + "\n"
}

/// The cases without a verdict, those with the same reason together.
fn undecided(verdicts: &BTreeMap<usize, Verdict>, folder: &Path) -> String {
    let mut reasons: BTreeMap<&str, Vec<usize>> = BTreeMap::new();
    for (number, verdict) in verdicts {
        if let Verdict::Undecided(message) = verdict {
            reasons.entry(start_of(message)).or_default().push(*number);
        }
    }
    let mut text = String::new();
    for (reason, numbers) in &reasons {
        let shown: Vec<String> = numbers.iter().take(5).map(usize::to_string).collect();
        let more = match numbers.len().saturating_sub(5) {
            0 => String::new(),
            more => format!(" and {more} more"),
        };
        text += &format!("NOT CHECKED case {}{more}\n  {reason}\n", shown.join(", "));
    }
    if !reasons.is_empty() {
        let logs = folder.join("said");
        text += &format!("  all that was said: {}\n", logs.display());
    }
    text
}

/// The first line of a message, as far as it is shown.
fn start_of(message: &str) -> &str {
    let line = message.lines().next().unwrap_or("");
    match line.char_indices().nth(SHOWN) {
        Some((end, _)) => &line[..end],
        None => line,
    }
}
