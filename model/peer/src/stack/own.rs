//! One call on a stack of its own, by the calling convention of Linux for x86-64: integers go in rdi, rsi,
//! rdx, rcx and r8, a table by value is pushed, and what is too large for registers goes where rdi points.

use std::arch::asm;
use std::mem::{size_of, size_of_val};

use captable::raw;
use yavrinks_tools::generate::printed_number;

use crate::calls::{unborn_number, version_number, Call, Sample};
use crate::convert::to_raw;

/// The length of the stack: far more than any call should take.
const LENGTH: usize = 1 << 20;

/// A place for what a call gives back: the number of an outcome or a relation is after 2,048 bytes, that
/// of a chain after 64.
const RESULT: usize = 4096;
const NUMBER_AT: usize = 2048;
const CHAIN_NUMBER_AT: usize = 64;

/// Where the number of a test is in its second register: after the byte of the rounds.
const TEST_NUMBER_BIT: u32 = 8;

/// The bytes of stack that a call takes on the input, or none if it does not answer as the model does.
/// Two patterns, since a call may write the very bytes of one.
pub fn measure(call: Call, sample: &Sample) -> Option<usize> {
    let once = taken(call, sample, 0xA5)?;
    let again = taken(call, sample, 0x5A)?;
    Some(once.max(again))
}

fn taken(call: Call, sample: &Sample, pattern: u8) -> Option<usize> {
    let (mut table, mut bytes) = (to_raw(&sample.table), sample.bytes.clone());
    let mut result = vec![0_u64; RESULT / 8];
    let places = Places {
        table: &raw mut table as u64,
        start: bytes.as_mut_ptr() as u64,
        length: bytes.len() as u64,
        result: result.as_mut_ptr() as u64,
    };
    let arguments = arguments(call, sample, &places);
    let pushed = call.takes_table().then_some(&table);
    let mut stack = vec![u128::from_ne_bytes([pattern; 16]); LENGTH / 16];
    // SAFETY: the arguments are those of the call, and what they point to lives until after it.
    let registers = unsafe { call_on(&mut stack, function(call), arguments, pushed) };
    (number(call, registers, &result) == sample.number).then(|| depth(&stack, pattern))
}

/// The function of a call.
fn function(call: Call) -> *const () {
    match call {
        Call::Step => raw::captable_step as *const (),
        Call::Stepped => raw::captable_step_by_value as *const (),
        Call::Sound => raw::captable_sound as *const (),
        Call::Access => raw::captable_access as *const (),
        Call::AccessByGroups => raw::captable_access_by_groups as *const (),
        Call::Test => raw::captable_test as *const (),
        Call::TestByGroups => raw::captable_test_by_groups as *const (),
        Call::Chain => raw::captable_chain as *const (),
        Call::Read => raw::captable_read as *const (),
        Call::Import => raw::captable_import as *const (),
        Call::Write => raw::captable_write as *const (),
        Call::WriteOlder => raw::captable_write_older as *const (),
        Call::Confine => raw::captable_confine as *const (),
        Call::Unborn => raw::captable_unborn as *const (),
        Call::Version => raw::captable_version as *const (),
    }
}

/// Where the table that is lent is, the bytes and how many they are, and the place of what is given back.
struct Places {
    table: u64,
    start: u64,
    length: u64,
    result: u64,
}

/// The integers that a call takes, in order, and zeros after them.
type Arguments = [u64; 5];

/// What a register has above an argument of one byte: by the convention it may be anything.
const ABOVE_A_BYTE: u64 = 0xA5A5_A5A5_A5A5_A500;

fn arguments(call: Call, sample: &Sample, places: &Places) -> Arguments {
    let &Places {
        table,
        start,
        length,
        result,
    } = places;
    let (members, object) = (sample.members, ABOVE_A_BYTE | u64::from(sample.object));
    match call {
        Call::Step => [table, start, length, 0, 0],
        Call::Stepped | Call::Read | Call::Import => [result, start, length, 0, 0],
        Call::Sound | Call::Version => [0; 5],
        Call::Access | Call::AccessByGroups | Call::Unborn => [result, 0, 0, 0, 0],
        Call::Test | Call::TestByGroups => [members, start, length, 0, 0],
        Call::Chain => [result, members, start, length, object],
        Call::Write | Call::WriteOlder => [start, length, 0, 0, 0],
        Call::Confine => [start, length, result, 0, 0],
    }
}

/// The number that was answered, in a register or in what was given back.
fn number(call: Call, registers: [u64; 2], place: &[u64]) -> u8 {
    let result: Vec<u8> = place.iter().flat_map(|word| word.to_ne_bytes()).collect();
    match call {
        Call::Step | Call::Sound | Call::Write | Call::WriteOlder => registers[0] as u8,
        Call::Test | Call::TestByGroups => (registers[1] >> TEST_NUMBER_BIT) as u8,
        Call::Stepped | Call::Access | Call::AccessByGroups | Call::Read | Call::Import => {
            result[NUMBER_AT]
        }
        Call::Chain => result[CHAIN_NUMBER_AT],
        Call::Confine => {
            let count = usize::try_from(registers[0]).map_or(0, |count| count.min(256));
            printed_number(&String::from_utf8_lossy(&result[..count]))
        }
        // SAFETY: the place is aligned as a table is and larger, and all of its bytes have a value.
        Call::Unborn => unborn_number(unsafe { &*place.as_ptr().cast() }),
        Call::Version => version_number(registers[0] as u32),
    }
}

/// The bytes from the deepest one that is not of the pattern to the top.
fn depth(stack: &[u128], pattern: u8) -> usize {
    let mut bytes = stack.iter().flat_map(|words| words.to_ne_bytes());
    let untouched = bytes.position(|byte| byte != pattern);
    let all = size_of_val(stack);
    all - untouched.unwrap_or(all)
}

/// Makes the call at the top of the stack, and gives back rax and rdx.
///
/// # Safety
/// The function takes these arguments, and the table by value if there is one.
unsafe fn call_on(
    stack: &mut [u128],
    function: *const (),
    arguments: Arguments,
    pushed: Option<&raw::Table>,
) -> [u64; 2] {
    let mut top = stack.as_mut_ptr_range().end.cast::<u8>();
    if let Some(table) = pushed {
        top = top.wrapping_sub(size_of::<raw::Table>());
        top.cast::<raw::Table>().write(*table);
    }
    let (first, second);
    asm!(
        "xchg rsp, r12",
        "call r13",
        "mov rsp, r12",
        inout("r12") top => _,
        in("r13") function,
        in("rdi") arguments[0],
        in("rsi") arguments[1],
        inlateout("rdx") arguments[2] => second,
        in("rcx") arguments[3],
        in("r8") arguments[4],
        lateout("rax") first,
        clobber_abi("C"),
    );
    [first, second]
}
