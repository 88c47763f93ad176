//! Which tests have a member with wk alone over a non-member for which the list has no wk. Their answers are
//! counted apart too, so that it is seen how often such a test was compared.

use yavrinks_model::image::{self, big_endian, Version};
use yavrinks_model::table::Table;
use yavrinks_model::wire::decode_list;
use yavrinks_tools::generate::{unlisted_wk, INPUT_COUNT_AT};

use super::counts::{Counts, Line};

/// The numbers of a test, or of what begins with one, that came as far as the members' capabilities.
const JUDGED: [u8; 5] = [0, 12, 13, 18, 19];

/// The length of the image that an input of `confine` begins with.
const IMAGE_LENGTH: usize = Version::One.image_length();

/// What a test is given: table, members and the bytes of a list.
pub type Test<'a> = (&'a Table, u64, &'a [u8]);

/// Counts the answer of a test, or of a chain, which begins with one.
pub fn count_test(counts: &mut Counts, line: Line, number: u8, test: Test) {
    let (table, members, list) = test;
    counts.add(line, number);
    if JUDGED.contains(&number) && !unlisted_wk(table, members, &decode_list(list)).is_empty() {
        counts.add_unlisted(line, number);
    }
}

/// Counts what `confine` printed for an input.
pub fn count_input(counts: &mut Counts, number: u8, input: &[u8]) {
    if !JUDGED.contains(&number) {
        return counts.add(Line::Confine, number);
    }
    let (_, table) = image::read(&input[..IMAGE_LENGTH]);
    let members = big_endian(&input[IMAGE_LENGTH..INPUT_COUNT_AT]);
    let list = &input[INPUT_COUNT_AT + 1..];
    count_test(counts, Line::Confine, number, (&table, members, list));
}
