//! What the tests of the header read: its macros, and the archive's machine code.
#![allow(dead_code)] // each test is a program of its own and uses some of this

use std::collections::BTreeMap;
use std::fs;
use std::process::Command;

const HEADER: &str = concat!(env!("CARGO_MANIFEST_DIR"), "/../../include/captable.h");
const ARCHIVE: &str = concat!(
    env!("CARGO_MANIFEST_DIR"),
    "/../../target/staticlib/libcaptable.a"
);

/// The macros of the header that are numbers.
pub fn header_numbers() -> BTreeMap<String, u32> {
    let text = fs::read_to_string(HEADER).expect("the header is there");
    let defined = text
        .lines()
        .filter_map(|line| line.strip_prefix("#define "));
    defined
        .filter_map(|rest| {
            let mut words = rest.split_whitespace();
            let (name, number) = (words.next()?, words.next()?.parse().ok()?);
            Some((name.to_string(), number))
        })
        .collect()
}

/// A function of the archive.
#[derive(Clone, Debug, Default)]
pub struct Function {
    /// Mnemonic and operands of each instruction.
    pub instructions: Vec<(String, String)>,
    /// The functions that it calls or jumps to.
    pub calls: Vec<String>,
}

/// The functions of the archive by name, as objdump (which comes with gcc) writes them.
pub fn functions() -> BTreeMap<String, Function> {
    let output = Command::new("objdump")
        .args(["-dr", "--no-show-raw-insn", ARCHIVE])
        .output()
        .expect("objdump runs");
    assert!(output.status.success(), "objdump reads the archive");
    let text = String::from_utf8_lossy(&output.stdout);
    let mut functions = BTreeMap::new();
    let mut name = String::new();
    for line in text.lines() {
        if let Some(found) = line.strip_suffix(">:").and_then(|l| l.split_once(" <")) {
            name = found.1.to_string();
            functions.insert(name.clone(), Function::default());
        } else if let Some(function) = functions.get_mut(&name) {
            add_line(function, line);
        }
    }
    functions
}

/// A line inside a function: an instruction, or the symbol that one before it names.
fn add_line(function: &mut Function, line: &str) {
    let Some((_, rest)) = line.split_once(":\t").or_else(|| line.split_once(": ")) else {
        return;
    };
    let (first, others) = rest.split_once(char::is_whitespace).unwrap_or((rest, ""));
    if first == "R_X86_64_PLT32" {
        let symbol = others.trim();
        let symbol = symbol.split_once("-0x").map_or(symbol, |parts| parts.0);
        let symbol = symbol.strip_prefix(".text.").unwrap_or(symbol);
        function.calls.push(symbol.to_string());
    } else if !first.starts_with("R_X86_64") {
        let instruction = (first.to_string(), others.trim().to_string());
        function.instructions.push(instruction);
    }
}
