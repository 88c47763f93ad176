//! Compiles the soundness scan in C that the benchmark and the comparison use.

use std::env;
use std::path::PathBuf;
use std::process::{exit, Command};

fn main() {
    println!("cargo:rerun-if-changed=scan.c");
    println!("cargo:rerun-if-changed=../../include/captable.h");
    let out = PathBuf::from(env::var("OUT_DIR").expect("cargo sets the folder for what is built"));
    let object = out.join("scan.o");
    let archive = out.join("libpeerscan.a");
    // An archive of an earlier build would keep its old object beside the new one.
    let _ = std::fs::remove_file(&archive);
    run(Command::new("gcc")
        .args(["-O3", "-Wall", "-Wextra", "-c", "scan.c", "-o"])
        .arg(&object));
    run(Command::new("ar").arg("crs").arg(&archive).arg(&object));
    println!("cargo:rustc-link-search=native={}", out.display());
    println!("cargo:rustc-link-lib=static=peerscan");
}

/// Runs a command, or ends the build with the reason why it could not.
fn run(command: &mut Command) {
    match command.status() {
        Ok(status) if status.success() => {}
        Ok(status) => fail(command, &status.to_string()),
        Err(error) => fail(command, &error.to_string()),
    }
}

fn fail(command: &Command, reason: &str) {
    eprintln!("{command:?}: {reason}");
    exit(1);
}
