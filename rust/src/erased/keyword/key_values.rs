// Generated from crates/langtag_keyword/src/key_values.rt. Do not edit.

//! The values of the keys that begin with one character, found by one walk over the subtags.

use crate::erased::keyword::key_set::{place_of, CHARACTERS};
use crate::erased::keyword::keys::Keys;
use crate::erased::keyword::subtags::{before_key, nonempty, split_first};
use crate::erased::scan::into_smallcase;

/// Returns the values of the keys that begin with a character, ignoring case. The index of a value
/// is the place of the second character of its key.
pub(crate) fn values_after(first: u8, text: &str, keys: Keys) -> [Option<&str>; CHARACTERS] {
    let mut values = [None; CHARACTERS];
    let mut rest = nonempty(text);
    while let Some(text) = rest {
        let (subtag, others) = split_first(text);
        if let Some(place) = place_after(first, subtag.as_bytes(), keys) {
            values[place] = values[place].or(Some(before_key(others, keys)));
        }
        rest = others;
    }
    values
}

/// Returns the place of the second character of a subtag, if the subtag is a key that begins with a
/// character, ignoring case.
fn place_after(first: u8, subtag: &[u8], keys: Keys) -> Option<usize> {
    match subtag {
        [start, second] if into_smallcase(*start) == into_smallcase(first) && keys.has(subtag) => {
            Some(place_of(*second))
        }
        _ => None,
    }
}
