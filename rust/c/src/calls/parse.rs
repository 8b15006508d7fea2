// Generated from crates/langtag_c/src/parse.rt. Do not edit.

//! Whether bytes are a tag, of which kind, and where its parts are.

use crate::calls::span::Span;
use crate::erased::scan::{recognise, Ends, Found, Metered};

/// Where each part of a tag is, for example in "zh-yue-Hant-HK-rozaj-1994-u-co-pinyin-x-mine":
#[repr(C)]
#[derive(Clone, Copy)]
pub struct Parts {
    /// zh-yue: the primary subtag and up to three extended ones
    pub language: Span,
    /// Hant
    pub script: Span,
    /// HK
    pub region: Span,
    /// rozaj-1994
    pub variants: Span,
    /// u-co-pinyin
    pub extensions: Span,
    /// x-mine
    pub private_use: Span,
}

impl Parts {
    /// Returns the parts of a normal tag, by their ends.
    fn at(ends: &Ends) -> Parts {
        Parts {
            language: Span {
                start: 0,
                len: ends.language,
            },
            script: Span::between(ends.language, ends.script),
            region: Span::between(ends.script, ends.region),
            variants: Span::between(ends.region, ends.variants),
            extensions: Span::between(ends.variants, ends.extensions),
            private_use: Span::between(ends.extensions, ends.whole),
        }
    }

    /// Returns parts that are all empty.
    #[inline]
    pub(crate) fn none() -> Parts {
        Parts::private_alone(0)
    }

    /// Returns parts that are empty except for a private use part of this length.
    fn private_alone(len: usize) -> Parts {
        Parts {
            language: Span { start: 0, len: 0 },
            script: Span { start: 0, len: 0 },
            region: Span { start: 0, len: 0 },
            variants: Span { start: 0, len: 0 },
            extensions: Span { start: 0, len: 0 },
            private_use: Span { start: 0, len },
        }
    }
}

/// Returns what the recogniser finds, or `None` if the bytes are not a tag.
#[inline(always)]
fn found_of(bytes: &[u8]) -> Option<Found> {
    recognise(&mut Metered::of_bytes(bytes))
}

/// Returns what `langtag_parse` returns, without the parts.
pub fn langtag_kind(bytes: &[u8]) -> u32 {
    let Some(found) = found_of(bytes) else {
        return 0;
    };
    if found.is_normal() {
        1
    } else if found.is_private_use() {
        2
    } else {
        3
    }
}

/// Parses a tag ([RFC 5646 section 2.1]): returns an enum `langtag_kind_answer`, and writes where
/// the parts are (out).
///
/// All of `parts` is written, even if the result is `LANGTAG_NONE`. No span reaches beyond the
/// string.
///
/// - For a normal tag, an absent part has the length 0, and starts at the end of the part before
///   it.
/// - For a private-use tag such as x-fr-CH, `private_use` is the whole string, and all other
///   members are 0.
/// - For an irregular tag, and for a string that is not a tag, all members are 0.
///
/// [RFC 5646 section 2.1]: https://www.rfc-editor.org/rfc/rfc5646#section-2.1
pub fn langtag_parse(bytes: &[u8], parts: &mut Parts) -> u32 {
    let Some(found) = found_of(bytes) else {
        *parts = Parts::none();
        return 0;
    };
    if let Some(ends) = found.ends() {
        *parts = Parts::at(&ends);
        1
    } else if found.is_private_use() {
        *parts = Parts::private_alone(bytes.len());
        2
    } else {
        *parts = Parts::none();
        3
    }
}
