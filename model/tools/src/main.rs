//! The command `yavrinks-tools`: a first argument says what to do.
//! Without an argument it prints its help.

use std::io::{self, Read, Write};
use std::process::ExitCode;

use yavrinks_model::confine::confine;
use yavrinks_tools::definitions::{self, Options};
use yavrinks_tools::vectors;

const HELP: &str = "\
yavrinks-tools: what uses the reference model of a capability table

Usage: yavrinks-tools COMMAND

Commands:
  confine   read an image of version 1, members and a list from standard input,
            and print `accepted` and the bound, one number a line, or `refused N`
  definitions [--seed N] [--runs N] [--rounds N] [--imports N] [--tests N]
            [--steps N] [--images N] [--keep DIR] [--root DIR]
            check the definitions of the repository against the model, with the
            toolchain's command `rt`; exit status 1 if an answer differs or
            could not be checked
  program PATH [VERB]
            run the built program `confine` at PATH on the test vectors, on random
            inputs, on inputs of odd lengths and on those of other versions, and
            compare what it prints; with VERB run `PATH VERB`, whose status must be
            0 for accepted, 1 for refused and 2 where standard input is closed
  two-runs  try demand 3 on random pairs of runs, then on models with a broken
            rule: [--seed N] [--pairs N] [--broken NAME]
  vectors DIR
            write the cases and the expected output of the program `vectors`
            into DIR, the folder of its crate, and print how many of the steps
            have empty copies of each kind
  help      print this text
";

fn main() -> ExitCode {
    let arguments: Vec<String> = std::env::args().skip(1).collect();
    let words: Vec<&str> = arguments.iter().map(String::as_str).collect();
    let outcome = match words.as_slice() {
        [] | ["help" | "--help" | "-h"] => print(HELP),
        ["confine"] => run_confine(),
        ["definitions", rest @ ..] => return run_definitions(rest),
        ["program", path] => return yavrinks_tools::built_program::command(path, None),
        ["program", path, verb] => return yavrinks_tools::built_program::command(path, Some(verb)),
        ["two-runs", options @ ..] => return yavrinks_tools::two_runs::command(options),
        ["vectors", folder] => run_vectors(folder),
        _ => {
            eprint!("unknown command: {}\n\n{HELP}", words.join(" "));
            return ExitCode::from(2);
        }
    };
    match outcome {
        Ok(()) => ExitCode::SUCCESS,
        Err(error) => {
            eprintln!("yavrinks-tools: {error}");
            ExitCode::FAILURE
        }
    }
}

fn run_confine() -> io::Result<()> {
    let mut input = Vec::new();
    io::stdin().read_to_end(&mut input)?;
    print(&confine(&input))
}

fn run_vectors(folder: &str) -> io::Result<()> {
    vectors::write(folder.as_ref())?;
    print(&vectors::counts_text())
}

fn run_definitions(words: &[&str]) -> ExitCode {
    let options = match Options::parse(words) {
        Ok(options) => options,
        Err(fault) => {
            eprint!("yavrinks-tools: {fault}\n\n{HELP}");
            return ExitCode::from(2);
        }
    };
    let outcome = definitions::run(&options).and_then(|outcome| {
        print(&outcome.text)?;
        Ok(outcome.agreed)
    });
    match outcome {
        Ok(true) => ExitCode::SUCCESS,
        Ok(false) => ExitCode::FAILURE,
        Err(error) => {
            eprintln!("yavrinks-tools: {error}");
            ExitCode::FAILURE
        }
    }
}

/// Unlike `print!`, gives a closed output back as an error instead of a panic.
fn print(text: &str) -> io::Result<()> {
    let mut output = io::stdout();
    output.write_all(text.as_bytes())?;
    output.flush()
}
