//! The commands: `differential`, `bench`, `stack`, `instructions`.

use std::process::ExitCode;

use yavrinks_peer::{bench, differential, instructions, stack, usage::USAGE};

fn main() -> ExitCode {
    let arguments: Vec<String> = std::env::args().skip(1).collect();
    let words: Vec<&str> = arguments.iter().map(String::as_str).collect();
    match words.as_slice() {
        ["differential", numbers @ ..] => match counts(numbers) {
            Some([seed, requests, inputs]) => differential::command(seed, requests, inputs),
            None => not_understood(),
        },
        ["bench"] => bench::command(),
        ["bench", "groups"] => bench::groups_command(),
        ["stack"] => stack::command(),
        ["instructions"] => instructions::command(),
        // Not in the text for the technician: `instructions` runs it to count one call.
        ["one", call, input] => instructions::one(call, input).unwrap_or_else(not_understood),
        ["help" | "--help" | "-h"] => {
            print!("{USAGE}");
            ExitCode::SUCCESS
        }
        _ => not_understood(),
    }
}

fn not_understood() -> ExitCode {
    eprint!("{USAGE}");
    ExitCode::from(2)
}

/// Seed, requests and inputs; those that are not given have their usual value.
fn counts(words: &[&str]) -> Option<[u64; 3]> {
    let mut counts = [1, 10_000_000, 1_000_000];
    if words.len() > counts.len() {
        return None;
    }
    for (count, word) in counts.iter_mut().zip(words) {
        *count = word.parse().ok()?;
    }
    Some(counts)
}
