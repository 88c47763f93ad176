//! What the header says of the archive's machine code, for those who write interrupt handlers: which
//! registers it uses and for what, and that it keeps nothing below the stack pointer. `examples/redzone.c`
//! tries the last at every instruction; here it is read off.

mod common;

use std::collections::BTreeSet;

use common::functions;

/// Every instruction of the archive, with the function that it is in.
fn instructions() -> Vec<(String, String, String)> {
    let all: Vec<_> = functions()
        .into_iter()
        .flat_map(|(name, function)| {
            let of = move |(mnemonic, operands)| (name.clone(), mnemonic, operands);
            function.instructions.into_iter().map(of)
        })
        .collect();
    assert!(all.len() > 1000, "the archive was read");
    all
}

/// The vector registers in the operands, as `xmm0`.
fn vectors(operands: &str) -> Vec<&str> {
    let words = operands.split(|c: char| !c.is_ascii_alphanumeric());
    words.filter(|word| word.contains("mm")).collect()
}

#[test]
fn the_registers_are_xmm0_to_xmm4_and_of_a_chain_to_xmm9() {
    let (mut used, mut by_chain) = (BTreeSet::new(), BTreeSet::new());
    for (name, _, operands) in instructions() {
        let registers = vectors(&operands).into_iter().map(String::from);
        if name == "captable_chain" {
            by_chain.extend(registers);
        } else {
            used.extend(registers);
        }
    }
    let first = |count: u8| (0..count).map(|k| format!("xmm{k}")).collect();
    assert_eq!(used, first(5));
    assert_eq!(by_chain, first(10));
}

#[test]
fn vectors_are_moved_and_whole_numbers_alone() {
    // Moves, shuffles and bit operations; all that begins with p is on whole numbers.
    const OTHERS: [&str; 12] = [
        "movaps", "movups", "movapd", "movsd", "movdqa", "movdqu", "movd", "movq", "xorps",
        "andpd", "orpd", "shufps",
    ];
    for (name, mnemonic, operands) in instructions() {
        let known = mnemonic.starts_with('p') || OTHERS.contains(&mnemonic.as_str());
        assert!(
            vectors(&operands).is_empty() || known,
            "{name}: {mnemonic} {operands}"
        );
        // An x87 instruction begins with f, and none else here does.
        assert!(!mnemonic.starts_with('f'), "{name}: {mnemonic} {operands}");
    }
}

#[test]
fn nothing_is_kept_below_the_stack_pointer() {
    for (name, mnemonic, operands) in instructions() {
        // With an index, as -0x30(%rsp,%rax,1), the place may be above; examples/redzone.c runs those.
        let below = operands.split('(').zip(operands.split('(').skip(1));
        for (before, after) in below {
            let displacement = before.rsplit(',').next().unwrap_or_default();
            let plain = after.starts_with("%rsp)");
            assert!(
                !(plain && displacement.starts_with('-')),
                "{name}: {mnemonic} {operands}"
            );
        }
    }
}
