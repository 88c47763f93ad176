//! The bytes of stack that each call takes: the call is made on a stack of its own that was filled with
//! a pattern, and the deepest byte that changed tells.

use std::process::ExitCode;

use crate::calls::Call;

#[cfg(all(target_arch = "x86_64", unix))]
mod own;

/// The most that a call should take.
const GOAL: usize = 16_384;

/// What a call takes: the most of its inputs, and the first of those that take it.
#[derive(Clone, Debug)]
pub struct Need {
    pub bytes: usize,
    pub input: String,
}

/// Measures every call on every input, and prints the most.
pub fn command() -> ExitCode {
    eprintln!("stack: each call is made on a stack of its own, on every input");
    println!("Bytes of stack that a call takes, the most of several inputs, from the return address down.");
    println!("Where a table goes by value, the 2,048 bytes that the caller pushes are counted too; the place");
    println!("of what is given back is the caller's and is not. Goal: at most {GOAL}.\n");
    println!("{:27}{:>7}{:>8}  on the input", "call", "bytes", "goal");
    for call in Call::ALL {
        match need(call) {
            Ok(Need { bytes, input }) => {
                let verdict = if bytes <= GOAL { "met" } else { "missed" };
                println!("{:27}{bytes:>7}{verdict:>8}  {input}", call.name());
            }
            Err(reason) => {
                eprintln!("{reason}");
                return ExitCode::FAILURE;
            }
        }
    }
    ExitCode::SUCCESS
}

/// Measures one call on every input, or says why it cannot be measured.
#[cfg(all(target_arch = "x86_64", unix))]
pub fn need(call: Call) -> Result<Need, String> {
    let mut most = Need {
        bytes: 0,
        input: String::new(),
    };
    for sample in crate::cases::samples(call) {
        let Some(bytes) = own::measure(call, &sample) else {
            let (call, input) = (call.name(), sample.name);
            return Err(format!(
                "{call} on {input} did not answer as the model does"
            ));
        };
        if bytes > most.bytes {
            most = Need {
                bytes,
                input: sample.name,
            };
        }
    }
    Ok(most)
}

/// Where the calls are made otherwise, nothing can be measured.
#[cfg(not(all(target_arch = "x86_64", unix)))]
pub fn need(_: Call) -> Result<Need, String> {
    Err(String::from(
        "stack is measured on x86-64 with the calling convention of Linux alone",
    ))
}
