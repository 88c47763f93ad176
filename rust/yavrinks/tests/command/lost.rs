//! Where there is no answer: what cannot be read, and an answer that nobody gets. The status is 2, with a
//! message on standard error; neither 0, by which a script would load, nor 1, which is the proved test's.

use crate::run::{assert_no_answer, example_1, feed, image_k, input, shell, yavrinks};
use std::fs::{self, File};
use std::io::Write;
use std::path::PathBuf;
use std::process::Stdio;

/// A file with the accepted input of example 1, or with a refused one.
fn file(name: &str, bytes: &[u8]) -> PathBuf {
    let path = PathBuf::from(env!("CARGO_TARGET_TMPDIR")).join(name);
    fs::write(&path, bytes).expect("a file");
    path
}

const CANNOT_WRITE: &str = "yavrinks: cannot write to standard output: ";
const CANNOT_READ: &str = "yavrinks: cannot read standard input: ";

#[test]
fn a_full_output_is_no_answer() {
    for bytes in [example_1(), input(&image_k(), &[], &[])] {
        let full = File::options().write(true).open("/dev/full");
        let output = yavrinks(&["confine"])
            .arg(file("for a full output", &bytes))
            .stdout(full.expect("the device"))
            .output()
            .expect("the command runs");
        assert_no_answer(&output, CANNOT_WRITE);
    }
}

#[test]
fn a_closed_output_is_no_answer() {
    // Closed, and open for reading alone.
    for closing in [">&-", "1</dev/null"] {
        for bytes in [example_1(), Vec::new()] {
            let script = format!("exec \"$0\" confine {closing}");
            let output = feed(&mut shell(&script), &bytes);
            assert_no_answer(&output, CANNOT_WRITE);
        }
    }
}

#[test]
fn a_pipe_that_nobody_reads_is_no_answer() {
    for bytes in [example_1(), Vec::new()] {
        let mut child = yavrinks(&["confine"])
            .stdin(Stdio::piped())
            .stdout(Stdio::piped())
            .stderr(Stdio::piped())
            .spawn()
            .expect("the command starts");
        // The command has its whole input only after the reader of its output is gone.
        drop(child.stdout.take());
        let mut pipe = child.stdin.take().expect("a pipe");
        pipe.write_all(&bytes).expect("the command reads");
        drop(pipe);
        let output = child.wait_with_output().expect("the command ends");
        assert_no_answer(&output, CANNOT_WRITE);
    }
}

#[test]
fn an_output_that_is_thrown_away_on_purpose_is_not_lost() {
    for device in [">/dev/null", "1<>/dev/null"] {
        let script = format!("exec \"$0\" confine {device}");
        let output = feed(&mut shell(&script), &example_1());
        assert_eq!(output.status.code(), Some(0));
        let output = feed(&mut shell(&script), b"no input");
        assert_eq!(output.status.code(), Some(1));
    }
}

#[test]
fn a_closed_or_unreadable_input_is_no_answer() {
    // Closed, open for writing alone, and a folder.
    for closing in ["<&-", "0>/dev/null", "</"] {
        let script = format!("exec \"$0\" confine {closing}");
        let output = shell(&script).output().expect("the shell runs");
        assert_no_answer(&output, CANNOT_READ);
    }
}

#[test]
fn a_file_that_cannot_be_read_is_no_answer() {
    for name in ["/", "/nowhere/input", ""] {
        let output = yavrinks(&["confine", name])
            .output()
            .expect("the command runs");
        assert_no_answer(&output, &format!("yavrinks: cannot read {name}: "));
    }
}

#[test]
fn with_standard_error_closed_the_status_is_left() {
    for script in [
        "exec \"$0\" confine /nowhere 2>&-",
        "exec \"$0\" confine /nowhere 2>/dev/full",
        "exec \"$0\" confine >&- 2>&-",
        "exec \"$0\" confine <&- >&- 2>&-",
    ] {
        let output = shell(script).output().expect("the shell runs");
        assert_eq!(output.status.code(), Some(2), "{script}");
    }
}

#[test]
fn a_script_loads_what_is_accepted_and_nothing_else() {
    let accepted = file("accepted by a script", &example_1());
    let refused = file("refused by a script", &input(&image_k(), &[5], &[]));
    for (words, loaded) in [
        (format!("confine '{}'", accepted.display()), true),
        (format!("confine '{}'", refused.display()), false),
        (
            format!("confine '{}' >/dev/full", accepted.display()),
            false,
        ),
        (format!("confine '{}' >&-", accepted.display()), false),
        ("confine /nowhere".to_string(), false),
    ] {
        let script = format!("\"$0\" {words} && echo loaded");
        let output = shell(&script).output().expect("the shell runs");
        let printed = String::from_utf8_lossy(&output.stdout);
        assert_eq!(printed.ends_with("loaded\n"), loaded, "{words}");
    }
}
