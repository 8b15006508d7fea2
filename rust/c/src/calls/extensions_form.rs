// Generated from crates/langtag_c/src/extensions_form.rt. Do not edit.

//! The canonical form of a tag's extensions, in the caller's buffer (UTS #35, part 1, Annex C).

use crate::calls::tag::tag_of;
use crate::erased::unicode::write_extensions_form;

/// Writes a tag with its extensions u and t in canonical form to `buffer` (UTS #35, part 1, Annex
/// C), and returns its length: en-u-nu-thai-ca-gregory-kn-true becomes en-u-ca-gregory-kn-nu-thai.
/// If the buffer is too short, its bytes are unspecified, and the result is the size that is
/// needed.
///
/// ```c
/// char buffer[64];
/// size_t len = langtag_extensions_form("de-u-CO-phonebk-ca-islamicc", 27, buffer, sizeof buffer);
/// if (len > 0 && len <= sizeof buffer) printf("%.*s\n", (int)len, buffer); // de-u-ca-islamic-civil-co-phonebk
/// ```
///
/// Attributes, keywords and fields are put in alphabetical order, each once and in lowercase. If a
/// key is repeated, its first value counts. Types and subdivisions that CLDR replaces become their
/// replacements. The value true is left out of u. The variants in the language of t are put in
/// alphabetical order.
///
/// All other bytes stay, and so does a tag without these extensions. Only the first u and the first
/// t are changed. A t that UTS #35 does not allow, such as t-m0, stays as it is. The order of the
/// extensions stays, too; `langtag_canonical` sorts them.
///
/// Time is quadratic beyond 512 attributes, or variants in the language of t: up to 2 s for 1 MB.
/// The form may be longer than the tag.
///
/// Returns 0 and writes nothing if the string is not a tag.
#[inline]
pub fn langtag_extensions_form(bytes: &[u8], buffer: &mut [u8]) -> usize {
    match tag_of(bytes) {
        Some(tag) => write_extensions_form(tag, buffer),
        None => 0,
    }
}
