//! What the program `confine` prints, for a caller that has its input already.

use crate::raw;

/// The most bytes of an input that decide anything: one more than the longest input that can be right
/// has, so that a longer one is seen to be too long.
pub const CONFINE_BYTES: usize = 2443;

/// What `confine` prints for an input: `accepted` and the bound, a number a line, or `refused N`.
#[derive(Clone, Debug)]
#[must_use = "a refused subsystem may not be loaded"]
pub struct Printed {
    bytes: [u8; 256],
    length: usize,
}

impl Printed {
    /// The printed bytes: lines of ASCII, each with its newline.
    #[must_use]
    pub fn as_bytes(&self) -> &[u8] {
        &self.bytes[..self.length]
    }

    /// Was the subsystem accepted?
    #[must_use]
    pub fn is_accepted(&self) -> bool {
        self.as_bytes().starts_with(b"accepted\n")
    }
}

/// The confinement test of the program `confine`: an image of version 1, as
/// [`Table::to_older_image`](crate::Table::to_older_image) gives it, 8 bytes of members, a count byte, and two bytes an
/// entry. An input of a wrong length is refused by 17, and then any other version byte than 1 by 15.
///
/// ```
/// let printed = captable::confine(b"no image");
/// assert_eq!(printed.as_bytes(), b"refused 17\n");
/// assert!(!printed.is_accepted());
/// ```
pub fn confine(input: &[u8]) -> Printed {
    let mut bytes = [0; 256];
    // SAFETY: the pointer and the length are of one slice, and the buffer is borrowed for the call alone.
    let length = unsafe { raw::captable_confine(input.as_ptr(), input.len(), &mut bytes) };
    Printed { bytes, length }
}
