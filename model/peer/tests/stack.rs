//! The stack that the header states for each call is what the call takes: as it is measured, and as the
//! archive's machine code has it on the deepest path of calls, whatever the input.

mod common;

use std::collections::BTreeMap;

use common::{functions, header_numbers, Function};
use yavrinks_peer::calls::Call;
use yavrinks_peer::stack::need;

/// A table by value, pushed by the caller.
const TABLE: usize = 2048;

/// The header's macros of stack, by the name of the call.
fn stated() -> BTreeMap<String, usize> {
    let macros = header_numbers().into_iter();
    macros
        .filter_map(|(name, bytes)| {
            let call = name.strip_prefix("CAPTABLE_STACK_")?.to_lowercase();
            Some((format!("captable_{call}"), bytes as usize))
        })
        .collect()
}

#[test]
fn every_call_takes_what_the_header_states() {
    let stated = stated();
    for call in Call::ALL {
        let (bytes, measured) = (stated[call.name()], need(call).expect("measured").bytes);
        assert!(measured > 0, "{}", call.name());
        assert!(
            (measured..=measured + measured / 8).contains(&bytes),
            "{}: the header states {bytes} bytes, measured are {measured}",
            call.name()
        );
    }
}

#[test]
fn no_path_of_calls_is_deeper_than_the_header_states() {
    let (stated, functions) = (stated(), functions());
    for call in Call::ALL {
        let pushed = if call.takes_table() { TABLE } else { 0 };
        let (bytes, deepest) = (
            stated[call.name()],
            pushed + deepest(&functions, call.name()),
        );
        assert!(
            deepest <= bytes,
            "{}: the header states {bytes} bytes, the code can take {deepest}",
            call.name()
        );
    }
}

/// The bytes from the return address of a function down, on its deepest path. No function calls itself.
fn deepest(functions: &BTreeMap<String, Function>, name: &str) -> usize {
    const RETURN_ADDRESS: usize = 8;
    if let "memcpy" | "memset" = name {
        return RETURN_ADDRESS;
    }
    let function = functions.get(name).expect("every callee is in the archive");
    let below = function
        .calls
        .iter()
        .map(|callee| deepest(functions, callee))
        .max();
    RETURN_ADDRESS + frame(function) + below.unwrap_or(0)
}

/// The most that the stack pointer moves down in a function. After a return the frame is whole again: what
/// follows is reached by a jump from the body.
fn frame(function: &Function) -> usize {
    let (mut most, mut now) = (0, 0);
    for (mnemonic, operands) in &function.instructions {
        let moved = operands
            .strip_suffix(",%rsp")
            .filter(|_| mnemonic != "cmp" && mnemonic != "test");
        match (mnemonic.as_str(), moved) {
            ("push", _) => now += 8,
            ("pop", _) => now -= 8,
            ("sub", Some(by)) => now += immediate(by),
            ("add", Some(by)) => now -= immediate(by),
            ("ret", _) => {
                assert_eq!(now, 0, "a frame is left as it was found");
                now = most;
            }
            // A call in the place of a return: what is left is the caller's frame.
            ("jmp", _) if now == 0 => now = most,
            (_, None) => {}
            (other, Some(by)) => {
                panic!("{other} {by} moves the stack pointer in a way not known here")
            }
        }
        most = most.max(now);
    }
    usize::try_from(most).expect("the stack grows down")
}

/// The number `$0x..`.
fn immediate(operand: &str) -> i64 {
    let digits = operand.strip_prefix("$0x").expect("an immediate");
    i64::from_str_radix(digits, 16).expect("hexadecimal")
}

#[test]
fn the_header_states_the_stack_of_every_exported_call_and_the_most() {
    let mut stated = stated();
    let most = stated.remove("captable_most");
    assert_eq!(most, stated.values().max().copied());
    let mut calls: Vec<&str> = Call::ALL.iter().map(|call| call.name()).collect();
    calls.sort_unstable();
    assert_eq!(stated.keys().collect::<Vec<_>>(), calls);
    let functions = functions();
    let exported = functions.keys().filter(|name| !name.contains("::"));
    assert_eq!(exported.collect::<Vec<_>>(), calls);
}
