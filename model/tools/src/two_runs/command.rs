//! The command `two-runs`: its options, and what it does with them.

use std::io::{self, Write};
use std::process::ExitCode;

use super::describe::case_text;
use super::report::trial_text;
use super::rules::{broken_model, Broken, Rules, BROKEN};
use super::shrink::shrink;
use super::trial::try_pairs;

/// Pairs of runs under the rules of document 01.
const PAIRS: u64 = 50_000;
/// Pairs of runs within which a broken model must be caught.
const LIMIT: u64 = 20_000;

/// What the command was asked for.
struct Options {
    seed: u64,
    pairs: Option<u64>,
    broken: Option<&'static Broken>,
}

/// Runs the command. The exit status is 0 if the model keeps the claim and the broken models
/// are caught, 1 if not, 2 if the options are wrong.
pub fn command(words: &[&str]) -> ExitCode {
    let options = match read_options(words) {
        Ok(options) => options,
        Err(message) => {
            eprintln!("yavrinks-tools two-runs: {message}");
            return ExitCode::from(2);
        }
    };
    let mut output = io::stdout();
    let outcome = match options.broken {
        Some(broken) => try_broken(&options, broken, &mut output),
        None => try_all(&options, &mut output),
    };
    match outcome {
        Ok(true) => ExitCode::SUCCESS,
        Ok(false) => ExitCode::FAILURE,
        Err(error) => {
            eprintln!("yavrinks-tools: {error}");
            ExitCode::FAILURE
        }
    }
}

fn read_options(words: &[&str]) -> Result<Options, String> {
    let mut options = Options {
        seed: 1,
        pairs: None,
        broken: None,
    };
    for option in words.chunks(2) {
        match option {
            ["--seed", value] => options.seed = read_number(value)?,
            ["--pairs", value] => options.pairs = Some(read_number(value)?),
            ["--broken", name] => options.broken = Some(read_broken(name)?),
            _ => return Err(format!("what is `{}`?", option.join(" "))),
        }
    }
    Ok(options)
}

fn read_number(text: &str) -> Result<u64, String> {
    text.parse().map_err(|_| format!("`{text}` is no number"))
}

fn read_broken(name: &str) -> Result<&'static Broken, String> {
    broken_model(name).ok_or_else(|| {
        let names: Vec<&str> = BROKEN.iter().map(|broken| broken.name).collect();
        format!("no broken model `{name}`; there are {}", names.join(", "))
    })
}

/// The claim for the model, then every broken model. Tells whether all is as it should be.
fn try_all(options: &Options, output: &mut impl Write) -> io::Result<bool> {
    let pairs = options.pairs.unwrap_or(PAIRS);
    writeln!(output, "two runs, seed {}\n", options.seed)?;
    let trial = try_pairs("document 01", &Rules::DOCUMENT, options.seed, pairs);
    write!(output, "{}", trial_text(&trial))?;
    let mut as_it_should_be = true;
    if let Some(case) = &trial.found {
        as_it_should_be = false;
        let smallest = shrink(&Rules::DOCUMENT, case);
        writeln!(output, "at pair {}; made small:", trial.pairs)?;
        write!(output, "{}", case_text(&Rules::DOCUMENT, &smallest))?;
    }
    writeln!(output, "\nbroken models, at most {LIMIT} pairs each")?;
    for broken in &BROKEN {
        let trial = try_pairs(broken.name, &broken.rules, options.seed, LIMIT);
        let caught = match trial.found {
            Some(_) => format!("caught at pair {}", trial.pairs),
            None => "NOT CAUGHT".to_string(),
        };
        as_it_should_be &= trial.found.is_some();
        writeln!(output, "  {:<29}{caught:<22}{}", broken.name, broken.says)?;
    }
    Ok(as_it_should_be)
}

/// One broken model, with the smallest case that shows it.
fn try_broken(options: &Options, broken: &Broken, output: &mut impl Write) -> io::Result<bool> {
    let pairs = options.pairs.unwrap_or(LIMIT);
    writeln!(output, "{}: {}", broken.name, broken.says)?;
    let trial = try_pairs(broken.name, &broken.rules, options.seed, pairs);
    match &trial.found {
        Some(case) => {
            writeln!(output, "caught at pair {}; made small:", trial.pairs)?;
            let smallest = shrink(&broken.rules, case);
            write!(output, "{}", case_text(&broken.rules, &smallest))?;
        }
        None => writeln!(output, "NOT CAUGHT in {} pairs", trial.pairs)?,
    }
    Ok(trial.found.is_some())
}
