//! The program `confine`: from the bytes of its input to the text that it prints.
//! The input is an image of version 1, 8 bytes of members, a count byte and 2 bytes for each entry.

use crate::confinement::confinement_test;
use crate::image::{big_endian, read, Version, VERSION_AT};
use crate::refusal::Refusal;
use crate::set;
use crate::wire::decode_list;

/// Where the members begin: after the image.
const MEMBERS_AT: usize = Version::One.image_length();
/// Where the count byte stands: after the members.
const COUNT_AT: usize = MEMBERS_AT + 8;
/// Where the entries begin.
const ENTRIES_AT: usize = COUNT_AT + 1;

/// The text printed for an input. Every line ends with a newline. Checks 17, then 15 at any version but
/// 1, then what reading and the test refuse.
pub fn confine(input: &[u8]) -> String {
    if !length_is_right(input) {
        return refused(Refusal::InputLength.number());
    }
    let image = &input[..MEMBERS_AT];
    if image[VERSION_AT] != Version::One.number() {
        return refused(Refusal::ImageVersion.number());
    }
    let (number, table) = read(image);
    if number != 0 {
        return refused(number);
    }
    let members = big_endian(&input[MEMBERS_AT..COUNT_AT]);
    let list = decode_list(&input[ENTRIES_AT..]);
    let tested = confinement_test(&table, members, &list);
    match tested.number {
        0 => accepted(tested.bound),
        number => refused(number),
    }
}

/// Whether the input ends exactly after as many entries as the count byte says.
fn length_is_right(input: &[u8]) -> bool {
    match input.get(COUNT_AT) {
        Some(&count) => input.len() == ENTRIES_AT + 2 * usize::from(count),
        None => false,
    }
}

fn accepted(bound: u64) -> String {
    let mut text = String::from("accepted\n");
    for n in set::numbers(bound) {
        text.push_str(&format!("{n}\n"));
    }
    text
}

fn refused(number: u8) -> String {
    format!("refused {number}\n")
}
