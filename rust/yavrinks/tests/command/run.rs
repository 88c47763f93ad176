//! The built command as a process of its own, and inputs of document 01's examples, byte by byte.

use std::io::Write;
use std::process::{Command, Output, Stdio};

/// The command, with nothing on its standard input.
pub fn yavrinks(words: &[&str]) -> Command {
    let mut command = Command::new(env!("CARGO_BIN_EXE_yavrinks"));
    command.args(words).stdin(Stdio::null());
    command
}

/// A shell that runs a script with the command as `$0`.
pub fn shell(script: &str) -> Command {
    let mut command = Command::new("sh");
    command
        .args(["-c", script, env!("CARGO_BIN_EXE_yavrinks")])
        .stdin(Stdio::null());
    command
}

/// Runs it to its end with these bytes on standard input.
pub fn feed(command: &mut Command, input: &[u8]) -> Output {
    let mut child = command
        .stdin(Stdio::piped())
        .stdout(Stdio::piped())
        .stderr(Stdio::piped())
        .spawn()
        .expect("the command starts");
    let mut pipe = child.stdin.take().expect("a pipe");
    std::thread::scope(|scope| {
        // The command stops reading once an input is too long, so a failed write is no fault.
        scope.spawn(move || pipe.write_all(input));
        child.wait_with_output().expect("the command ends")
    })
}

/// Checks that there is no answer: status 2, nothing printed, and one line on standard error.
#[track_caller]
pub fn assert_no_answer(output: &Output, complaint: &str) {
    let said = String::from_utf8_lossy(&output.stderr);
    assert_eq!(output.status.code(), Some(2), "{said}");
    assert_eq!(output.stdout, b"");
    assert!(said.starts_with(complaint), "{said}");
    assert_eq!(said.lines().count(), 1, "{said}");
}

/// Record n of an image has 30 bytes from 3 + 30 n on: status, kind, word (4), stock (8), slots of two.
fn record(image: &mut [u8], n: usize) -> &mut [u8] {
    &mut image[3 + 30 * n..][..30]
}

/// Puts a capability into slot j of object n.
pub fn put_slot(image: &mut [u8], n: usize, j: usize, target: u8, rights: u8) {
    record(image, n)[14 + 2 * j..][..2].copy_from_slice(&[target, rights]);
}

/// "K: alive 0 to 6; active 0, 2, 4, 5. Slot 0 of 0 is (1, rd), of 2 (1, wk), of 4 (3, wr), of 5 (1, wr);
/// slot 1 of 2 is (6, wk). Stocks: 5 has {10, 11}, 4 has {12}."
pub fn image_k() -> Vec<u8> {
    let mut image = vec![0; 1923];
    image[..3].copy_from_slice(&[0x07, 0x83, 0x01]);
    for n in 0..=6 {
        record(&mut image, n)[0] = 1;
    }
    for n in [0, 2, 4, 5] {
        record(&mut image, n)[1] = 1;
    }
    put_slot(&mut image, 0, 0, 1, 1);
    put_slot(&mut image, 2, 0, 1, 4);
    put_slot(&mut image, 4, 0, 3, 2);
    put_slot(&mut image, 5, 0, 1, 2);
    put_slot(&mut image, 2, 1, 6, 4);
    record(&mut image, 5)[6..14].copy_from_slice(&(1_u64 << 10 | 1 << 11).to_be_bytes());
    record(&mut image, 4)[6..14].copy_from_slice(&(1_u64 << 12).to_be_bytes());
    image
}

/// An input of `confine`: the image, the members, a count byte and the entries.
pub fn input(image: &[u8], members: &[u8], list: &[(u8, u8)]) -> Vec<u8> {
    let members = members.iter().fold(0_u64, |bits, n| bits | 1 << n);
    let mut input = image.to_vec();
    input.extend(members.to_be_bytes());
    input.push(list.len() as u8);
    for (target, rights) in list {
        input.extend([target, rights]);
    }
    input
}

/// "Members {5}, list (1, wr)".
pub fn example_1() -> Vec<u8> {
    input(&image_k(), &[5], &[(1, 2)])
}
