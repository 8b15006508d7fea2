// Generated from crates/langtag_keyword/src/key_set.rt. Do not edit.

//! A set of keys.

use crate::erased::scan::into_smallcase;

/// The number of characters of a key: letters, ignoring case, and digits.
pub(crate) const CHARACTERS: usize = 36;

/// A set of keys, which ignores case. It stores a `u64` for each first character, with a bit for
/// each second character.
#[derive(Clone, Copy, Debug)]
pub struct KeySet {
    seconds: [u64; CHARACTERS],
}

impl KeySet {
    /// Returns the empty set.
    #[inline]
    #[must_use]
    pub fn new() -> KeySet {
        KeySet {
            seconds: [0; CHARACTERS],
        }
    }

    /// Adds a subtag if it is a key, which has two characters. Returns `false` only if the set
    /// already contains it.
    pub(crate) fn insert(&mut self, subtag: &[u8]) -> bool {
        let [first, second] = subtag else {
            return true;
        };
        let row = place_of(*first);
        let place = place_of(*second);
        let is_new = (self.seconds[row] >> place) & 1 == 0;
        self.seconds[row] |= 1 << place;
        is_new
    }
}

/// Returns the place of a character: 0 to 9 for a digit, and 10 to 35 for a letter, ignoring case.
#[inline]
pub(crate) fn place_of(byte: u8) -> usize {
    if byte.is_ascii_digit() {
        return usize::from(byte - b'0');
    }
    usize::from(into_smallcase(byte) - b'a') + 10
}
