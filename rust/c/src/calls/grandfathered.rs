// Generated from crates/langtag_c/src/grandfathered.rt. Do not edit.

//! The grandfathered tags (RFC 5646 section 2.2.8).

use crate::erased::tag::GrandfatheredLangTag;

/// Returns the number of a grandfathered tag, ignoring case, in the order of [RFC 5646 section
/// 2.1], or `LANGTAG_GRANDFATHERED_COUNT` if the string is not one of the 26. A tag with a number
/// below 17 is irregular, and the others are regular:
///
/// ```text
///  0 en-GB-oed    1 i-ami        2 i-bnn          3 i-default    4 i-enochian   5 i-hak        6 i-klingon
///  7 i-lux        8 i-mingo      9 i-navajo      10 i-pwn       11 i-tao       12 i-tay       13 i-tsu
/// 14 sgn-BE-FR   15 sgn-BE-NL   16 sgn-CH-DE
/// 17 art-lojban  18 cel-gaulish 19 no-bok        20 no-nyn      21 zh-guoyu    22 zh-hakka    23 zh-min
/// 24 zh-min-nan  25 zh-xiang
/// ```
///
/// [RFC 5646 section 2.1]: https://www.rfc-editor.org/rfc/rfc5646#section-2.1
#[inline]
pub fn langtag_grandfathered(bytes: &[u8]) -> u32 {
    match GrandfatheredLangTag::new(bytes) {
        Ok(tag) => tag as u32,
        Err(_) => 26,
    }
}
