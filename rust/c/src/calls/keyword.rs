// Generated from crates/langtag_c/src/keyword.rt. Do not edit.

//! Where the keywords and attributes of the extension `u` are (RFC 6067 section 2.1).

use crate::calls::extension_walk::{before_key, extension_subtags, next_key, value_of};
use crate::calls::span::Span;
use crate::erased::keyword::Keys;

/// Returns whether the extension u has a key ([RFC 6067 section 2.1]), ignoring case, and writes
/// where its value is (out).
///
/// ```c
/// const char *text = "ar-EG-u-ca-islamic-civil-nu-latn";
/// langtag_span value;
/// if (langtag_keyword(text, strlen(text), "ca", 2, &value))
///     printf("%.*s\n", (int)value.len, text + value.start); // islamic-civil
/// ```
///
/// The value is empty if the key has none, such as kn in de-u-kn. An empty value means true. If a
/// key or the extension is repeated, the first one counts.
///
/// Returns false and leaves `value` unchanged if the key is absent, or the string is not a tag.
///
/// [RFC 6067 section 2.1]: https://www.rfc-editor.org/rfc/rfc6067#section-2.1
pub fn langtag_keyword(bytes: &[u8], key: &[u8], value: &mut Span) -> bool {
    let subtags = extension_subtags(bytes, b'u');
    let Some(found) = value_of(bytes, subtags, Keys::Unicode, key) else {
        return false;
    };
    *value = found;
    true
}

/// Writes where the key and the value of the next keyword of the extension u are (out). The value
/// may be empty. Each key is returned once, with its first value. `passed` counts the subtags of u
/// that were passed. Begin with 0, and let the calls change it:
///
/// ```c
/// const char *text = "ar-u-ca-islamic-civil-nu-latn";
/// size_t passed = 0, len = strlen(text);
/// langtag_span key, value;
/// while (langtag_next_keyword(text, len, &passed, &key, &value))
///     printf("%.*s=%.*s ", (int)key.len, text + key.start, (int)value.len, text + value.start); // ca=islamic-civil nu=latn
/// ```
///
/// Returns false and leaves all three unchanged if no keyword is left, or the string is not a tag.
pub fn langtag_next_keyword(
    bytes: &[u8],
    passed: &mut usize,
    key: &mut Span,
    value: &mut Span,
) -> bool {
    let subtags = extension_subtags(bytes, b'u');
    let Some(place) = next_key(bytes, subtags, Keys::Unicode, passed) else {
        return false;
    };
    *key = place.key;
    *value = place.value;
    true
}

/// Writes where the attributes of the extension u are (out), which come before its first key ([RFC
/// 6067 section 2.1]): attr-foo in de-u-attr-foo-ca-buddhist. `langtag_next_subtag` returns them
/// one by one. A repeated attribute, which has no meaning, is returned too.
///
/// Returns false, and writes an empty span, if there are none.
///
/// [RFC 6067 section 2.1]: https://www.rfc-editor.org/rfc/rfc6067#section-2.1
#[inline]
pub fn langtag_attributes(bytes: &[u8], attributes: &mut Span) -> bool {
    let subtags = extension_subtags(bytes, b'u');
    *attributes = before_key(bytes, subtags, Keys::Unicode);
    attributes.len > 0
}
