//! The commands, run as a process: `confine`, the help text, and words that are not understood.

use std::fs;
use std::io::Write;
use std::path::PathBuf;
use std::process::{Command, Output, Stdio};

fn run(arguments: &[&str], input: &[u8]) -> Output {
    let mut child = Command::new(env!("CARGO_BIN_EXE_yavrinks-tools"))
        .args(arguments)
        .stdin(Stdio::piped())
        .stdout(Stdio::piped())
        .stderr(Stdio::piped())
        .spawn()
        .expect("start");
    // A program that does not read its input may close it early.
    let _ = child.stdin.take().expect("input").write_all(input);
    child.wait_with_output().expect("output")
}

/// One of the vectors: the library's tests have them all.
#[test]
fn confine_reads_its_input_and_prints() {
    let folder = PathBuf::from(env!("CARGO_MANIFEST_DIR")).join("../vectors/confine");
    let input = fs::read(folder.join("case0010.in")).expect("input");
    let output = run(&["confine"], &input);
    assert!(output.status.success());
    let expected = fs::read(folder.join("case0010.out")).expect("output");
    assert_eq!(output.stdout, expected);
}

#[test]
fn help_is_printed_without_a_command() {
    let output = run(&[], &[]);
    assert!(output.status.success());
    let text = String::from_utf8(output.stdout).expect("text");
    assert!(text.contains("Usage: yavrinks-tools COMMAND"));
}

#[test]
fn unknown_commands_fail() {
    for arguments in [&["confin"][..], &["confine", "extra"][..]] {
        let output = run(arguments, &[]);
        assert_eq!(output.status.code(), Some(2));
        assert!(output.stdout.is_empty());
    }
}

#[test]
fn wrong_options_fail() {
    for option in [&["--runs"][..], &["--runs", "many"], &["--colour", "1"]] {
        let arguments = [&["definitions"], option].concat();
        let output = run(&arguments, &[]);
        assert_eq!(output.status.code(), Some(2));
        assert!(output.stdout.is_empty());
    }
    let output = run(&["definitions", "--root", "/nowhere"], &[]);
    assert_eq!(output.status.code(), Some(1));
    let text = String::from_utf8(output.stderr).expect("text");
    assert!(text.contains("no repository: /nowhere/crates.txt"));
}

/// The model's own `confine` ends with 0 on a refusal, as the proved program does: fit without a verb
/// only. With its verb left out it is no `confine` at all, but prints a help.
#[test]
fn a_program_that_ends_with_0_on_a_refusal_is_found() {
    let own = env!("CARGO_BIN_EXE_yavrinks-tools");
    let output = run(&["program", own, "confine"], &[]);
    assert_eq!(output.status.code(), Some(1));
    let text = String::from_utf8(output.stdout).expect("text");
    assert!(text.contains(
        "expected \"refused 12\\n\" and status 1, printed \"refused 12\\n\", exit status: 0"
    ));
    assert!(!text.contains("expected \"accepted"), "{text}");
    let output = run(&["program", own], &[]);
    assert_eq!(output.status.code(), Some(1));
}

/// Another version byte is refused by 15, whatever the length field says, and an input of another length by 17.
#[test]
fn the_program_is_asked_about_other_versions() {
    let text = String::from_utf8(run(&["program", "true"], &[]).stdout).expect("text");
    for line in [
        "version byte 1, length field [07, 83]: expected \"accepted\\n",
        "version byte 1, length field [07, c3]: expected \"refused 14\\n\"",
        "version byte 2, length field [07, c3]: expected \"refused 15\\n\"",
        "version byte 255, length field [00, 00]: expected \"refused 15\\n\"",
        "version byte 2, length field [07, c3], a byte too many: expected \"refused 17\\n\"",
        "image 0 of version 2, for 15: expected \"refused 15\\n\"",
        "image 7 of version 2, for 17: expected \"refused 17\\n\"",
    ] {
        assert!(text.contains(line), "{line}: {text}");
    }
}

/// The same with the status that goes with each answer, by a script.
#[test]
fn a_program_whose_status_tells_the_answer_passes() {
    let script = PathBuf::from(env!("CARGO_TARGET_TMPDIR")).join("with statuses");
    let text = format!(
        "true 3<&0 || exit 2\nprinted=$('{}' confine)\necho \"$printed\"\ncase $printed in accepted*) ;; *) exit 1 ;; esac\n",
        env!("CARGO_BIN_EXE_yavrinks-tools")
    );
    fs::write(&script, text).expect("a script");
    let script = script.to_str().expect("text");
    let output = run(&["program", "sh", script], &[]);
    let text = String::from_utf8(output.stdout).expect("text");
    assert!(text.ends_with("\n0 differences\n"), "{text}");
    assert!(output.status.success());
}
