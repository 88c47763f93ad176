//! The instructions of each call, counted by callgrind: the program runs itself under it with one call
//! and one input at a time, and only what happens inside the call is counted.

use std::io;
use std::path::Path;
use std::process::{Command, ExitCode};

use yavrinks_tools::progress::Progress;

use crate::calls::{answer, Call};
use crate::cases::samples;

/// Counts every call on every input, and prints the least and the most.
pub fn command() -> ExitCode {
    match count_all() {
        Ok(()) => ExitCode::SUCCESS,
        Err(reason) => {
            eprintln!("{reason}");
            ExitCode::FAILURE
        }
    }
}

/// Makes one call on one input, both by name. None if there is no such call or input.
pub fn one(call: &str, input: &str) -> Option<ExitCode> {
    let call = Call::ALL.into_iter().find(|known| known.name() == call)?;
    let sample = samples(call).into_iter().nth(input.parse().ok()?)?;
    Some(if answer(call, &sample) == sample.number {
        ExitCode::SUCCESS
    } else {
        ExitCode::FAILURE
    })
}

fn count_all() -> Result<(), String> {
    valgrind().arg("--version").output().map_err(missing)?;
    eprintln!(
        "instructions: each call is run once under callgrind on every input, some minutes in all"
    );
    let program = std::env::current_exe()
        .map_err(|error| format!("the program does not know where it is: {error}"))?;
    println!(
        "Instructions inside a call, least and most of several inputs. A table by value is copied"
    );
    println!("by the caller, which is not counted.\n");
    println!("{:27}{:>9}  {:42}{:>9}  on", "call", "least", "on", "most");
    let all = Call::ALL.iter().map(|&call| samples(call).len() as u64);
    let mut progress = Progress::new("instructions: inputs counted", all.sum());
    let mut done = 0;
    for call in Call::ALL {
        let mut counted = Vec::new();
        for (k, sample) in samples(call).iter().enumerate() {
            progress.at(done);
            done += 1;
            let count = count(&program, call, k)?;
            counted.push((count, format!("{} ({})", sample.name, sample.number)));
        }
        counted.sort();
        if let (Some((least, best)), Some((most, worst))) = (counted.first(), counted.last()) {
            println!("{:27}{least:>9}  {best:42}{most:>9}  {worst}", call.name());
        }
    }
    println!("\nAfter the name of an input: the number that was answered, 0 for done.");
    Ok(())
}

fn valgrind() -> Command {
    Command::new("valgrind")
}

fn missing(error: io::Error) -> String {
    format!("this command needs the program valgrind, which could not be run: {error}")
}

/// Counts the instructions of one call on one input.
fn count(program: &Path, call: Call, input: usize) -> Result<u64, String> {
    let output = valgrind()
        .arg("--tool=callgrind")
        .arg(format!("--toggle-collect={}", call.name()))
        .arg("--callgrind-out-file=/dev/null")
        .arg(program)
        .args(["one", call.name(), &input.to_string()])
        .output()
        .map_err(missing)?;
    let told = String::from_utf8_lossy(&output.stderr);
    if !output.status.success() {
        return Err(format!(
            "{} on input {input} did not answer as the model does:\n{told}",
            call.name()
        ));
    }
    collected(&told).ok_or_else(|| format!("valgrind gave no count:\n{told}"))
}

/// The number in the line `==1== Collected : N`.
fn collected(told: &str) -> Option<u64> {
    let line = told.lines().find(|line| line.contains("Collected"))?;
    line.rsplit(':').next()?.trim().parse().ok()
}
