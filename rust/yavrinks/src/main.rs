//! The command `yavrinks`: the first word is a verb, and each verb is a module. The proved library decides;
//! what is here reads its input, prints its answer and gives a script a status to go by.

#![deny(unsafe_code)]

mod confine;
mod fault;
mod standard;

use std::env;
use std::ffi::OsString;
use std::process::ExitCode;

use fault::Fault;

const HELP: &str = "\
yavrinks: the capability table of a sealed controller, asked by a technician

Usage: yavrinks VERB

Verbs:
  confine [FILE]   which objects can a subsystem ever influence?

`yavrinks VERB --help` says more of a verb, `yavrinks --version` which version
this is. The exit status is 0 for yes, 1 for no, and 2 where there is no answer:
it could not be read or written, or the words are not understood.
";

/// What a verb found.
enum Answer {
    /// Status 0.
    Yes,
    /// Status 1.
    No,
}

fn main() -> ExitCode {
    let words: Vec<OsString> = env::args_os().skip(1).collect();
    match run(&words) {
        Ok(Answer::Yes) => ExitCode::SUCCESS,
        Ok(Answer::No) => ExitCode::from(1),
        Err(fault) => {
            standard::complain(&fault.to_string());
            ExitCode::from(2)
        }
    }
}

fn run(words: &[OsString]) -> Result<Answer, Fault> {
    let Some((verb, rest)) = words.split_first() else {
        return Err(Fault::usage("there is no verb", HELP));
    };
    match (verb.to_str(), rest) {
        (Some("confine"), rest) => confine::run(rest),
        (Some("help" | "--help" | "-h"), []) => say(HELP),
        (Some("--version" | "-V"), []) => say(&version()),
        _ => {
            let given = words.join(" ".as_ref());
            let what = format!("what is `{}`?", given.to_string_lossy());
            Err(Fault::usage(&what, HELP))
        }
    }
}

/// A text that was asked for.
fn say(text: &str) -> Result<Answer, Fault> {
    standard::print(text.as_bytes())?;
    Ok(Answer::Yes)
}

/// The command's version, and that of the library inside it.
fn version() -> String {
    let [_, first, second, third] = captable::version().to_be_bytes();
    format!(
        "yavrinks {}, libcaptable {first}.{second}.{third}\n",
        env!("CARGO_PKG_VERSION")
    )
}
