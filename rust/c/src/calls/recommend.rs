// Generated from crates/langtag_c/src/recommend.rt. Do not edit.

//! The recommended case (RFC 5646 section 2.1.1).

use crate::erased::text::make_recommended_case;

/// Changes a string to the case that [RFC 5646 section 2.1.1] recommends, in place: zh-hant-tw
/// becomes zh-Hant-TW.
///
/// Letters become lowercase, except in subtags of two bytes, which become uppercase (CH), and of
/// four bytes, which get one uppercase letter (Latn). The exceptions do not apply to the first
/// subtag, or to any subtag that comes after a subtag of one byte. The string may be any bytes. A
/// tag keeps its kind, and its parts keep their offsets.
///
/// [RFC 5646 section 2.1.1]: https://www.rfc-editor.org/rfc/rfc5646#section-2.1.1
#[inline]
pub fn langtag_recommend(bytes: &mut [u8]) {
    make_recommended_case(bytes);
}
