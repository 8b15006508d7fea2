// Generated from crates/langtag_keyword/src/keyword_form.rt. Do not edit.

//! Keywords and fields with their canonical values, in the order of their keys, written to an
//! output.

use crate::erased::keyword::alias::canonical_value;
use crate::erased::keyword::alphabet::{are_few, push_each_lowercase};
use crate::erased::keyword::key_set::{place_of, CHARACTERS};
use crate::erased::keyword::key_values::values_after;
use crate::erased::keyword::keys::Keys;
use crate::erased::keyword::least_numbers::{order_number, LeastNumbers, FEW, MANY};
use crate::erased::keyword::subtags::value_in;
use crate::erased::scan::Subtags;
use crate::erased::text::Output;

/// Appends the keywords of a string, each once, in the order of their keys.
///
/// The string is read once to find its keys, or several times if they are many. To find the values,
/// it is read up to each key, or once for each first character of the keys if there are more than
/// 36.
#[inline]
pub fn push_keywords(out: &mut Output<'_>, text: &str, keys: Keys) {
    if are_few(Some(text)) {
        return push_with_room::<FEW>(out, text, keys);
    }
    push_with_room::<MANY>(out, text, keys);
}

/// Appends what [`push_keywords`] appends. Each walk over the subtags finds the next `ROOM / 2`
/// keys, or more.
// This function is not inlined, so that callers with few subtags do not use the stack that many take.
#[inline(never)]
fn push_with_room<const ROOM: usize>(out: &mut Output<'_>, text: &str, keys: Keys) {
    let mut least = LeastNumbers::<ROOM>::new();
    let mut more = true;
    while more {
        offer_keys(&mut least, text, keys);
        least.sort();
        push_each(out, text, keys, least.kept());
        more = least.advance();
    }
}

/// Offers the number of each key among the subtags of a string.
#[inline]
pub fn offer_keys<const ROOM: usize>(least: &mut LeastNumbers<ROOM>, text: &str, keys: Keys) {
    for subtag in Subtags::new(text) {
        if keys.has(subtag.as_bytes()) {
            least.offer(order_number(subtag.as_bytes()));
        }
    }
}

/// Appends the keywords whose keys have these numbers.
#[inline]
fn push_each(out: &mut Output<'_>, text: &str, keys: Keys, numbers: &[u64]) {
    if numbers.len() <= CHARACTERS {
        return push_each_of_few(out, text, keys, numbers);
    }
    push_each_of_many(out, text, keys, numbers);
}

/// Appends what [`push_each`] appends. The string is read up to each key.
#[inline]
fn push_each_of_few(out: &mut Output<'_>, text: &str, keys: Keys, numbers: &[u64]) {
    for number in numbers {
        let key = key_of(*number);
        push_keyword(out, keys, key, value_in(text, keys, &key));
    }
}

/// Appends what [`push_each`] appends. The string is read once for each first character of the
/// keys.
fn push_each_of_many(out: &mut Output<'_>, text: &str, keys: Keys, numbers: &[u64]) {
    let mut first = b'0';
    let mut values = values_after(first, text, keys);
    for number in numbers {
        let key = key_of(*number);
        if key[0] != first {
            first = key[0];
            values = values_after(first, text, keys);
        }
        push_keyword(out, keys, key, values[place_of(key[1])]);
    }
}

/// Returns the key that has a number.
#[must_use]
pub fn key_of(number: u64) -> [u8; 2] {
    let [first, second, ..] = number.to_be_bytes();
    [first, second]
}

/// Appends a key with its canonical value, if there is a value.
pub fn push_keyword(out: &mut Output<'_>, keys: Keys, key: [u8; 2], value: Option<&str>) {
    if let Some(value) = value {
        out.push_subtag(&key);
        push_each_lowercase(out, canonical_value(keys, &key, value));
    }
}
