// Generated from crates/langtag_c/src/transform.rt. Do not edit.

//! Where the language and the fields of the extension `t` are (RFC 6497 section 2.2).

use crate::calls::extension_walk::{before_key, extension_subtags, next_key, value_of};
use crate::calls::span::Span;
use crate::erased::keyword::Keys;

/// Returns whether a tag has the extension t ([RFC 6497 section 2.2]), and writes where the
/// language of t is (out), before its first field: ja-latn in und-t-ja-latn-m0-hepburn. The
/// language is empty if there is none, and it need not be a tag.
///
/// Returns false and leaves `language` unchanged if there is no t.
///
/// [RFC 6497 section 2.2]: https://www.rfc-editor.org/rfc/rfc6497#section-2.2
#[inline]
pub fn langtag_transform(bytes: &[u8], language: &mut Span) -> bool {
    let subtags = extension_subtags(bytes, b't');
    if subtags.len == 0 {
        return false;
    }
    *language = before_key(bytes, subtags, Keys::Transform);
    true
}

/// Finds the value of a field of the extension t, as `langtag_keyword` does for u: hepburn for m0
/// in und-t-ja-m0-hepburn.
pub fn langtag_field(bytes: &[u8], key: &[u8], value: &mut Span) -> bool {
    let subtags = extension_subtags(bytes, b't');
    let Some(found) = value_of(bytes, subtags, Keys::Transform, key) else {
        return false;
    };
    *value = found;
    true
}

/// Writes the next field of the extension t, as `langtag_next_keyword` does for the keywords of u.
pub fn langtag_next_field(
    bytes: &[u8],
    passed: &mut usize,
    key: &mut Span,
    value: &mut Span,
) -> bool {
    let subtags = extension_subtags(bytes, b't');
    let Some(place) = next_key(bytes, subtags, Keys::Transform, passed) else {
        return false;
    };
    *key = place.key;
    *value = place.value;
    true
}
