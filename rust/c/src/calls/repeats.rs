// Generated from crates/langtag_c/src/repeats.rt. Do not edit.

//! Variants and singletons that occur twice in a tag (RFC 5646 section 2.2.9).

use crate::calls::members::{singleton_at, variant_at};
use crate::calls::span::Span;
use crate::calls::tag::normal_tag_of;
use crate::erased::tag::NormalLangTag;

/// Where the repeated subtags of a tag are. A span has the length 0 if no such subtag is repeated.
#[repr(C)]
#[derive(Clone, Copy)]
pub struct Repeated {
    /// the first variant that equals an earlier one, ignoring case
    pub variant: Span,
    /// the first singleton, one byte, that equals an earlier one, ignoring case
    pub singleton: Span,
}

/// Returns whether a variant or a singleton occurs twice in a normal tag, as bits of enum
/// `langtag_repeats_answer`, and writes where the first repetition of each is (out). Such a tag is
/// well-formed but not valid (RFC 5646 section 2.2.9). Returns 0 for any other string. `repeated`
/// is always written.
///
/// Beyond 1,152 variants, the time is quadratic in the length: less than a second for 1 MB, 20 s
/// for 10 MB. Limit the length of untrusted strings.
pub fn langtag_repeats(bytes: &[u8], repeated: &mut Repeated) -> u32 {
    let none = Span { start: 0, len: 0 };
    let Some(tag) = normal_tag_of(bytes) else {
        *repeated = Repeated {
            variant: none,
            singleton: none,
        };
        return 0;
    };
    let variant = repeated_variant(&tag);
    let singleton = repeated_singleton(&tag);
    *repeated = Repeated {
        variant: variant.unwrap_or(none),
        singleton: singleton.unwrap_or(none),
    };
    flags(variant.is_some(), singleton.is_some())
}

/// Returns where the first repeated variant is in a tag.
#[inline]
fn repeated_variant(tag: &NormalLangTag<'_>) -> Option<Span> {
    variant_at(tag, tag.repeated_variant_index()?)
}

/// Returns where the first repeated singleton is in a tag.
#[inline]
fn repeated_singleton(tag: &NormalLangTag<'_>) -> Option<Span> {
    singleton_at(tag, tag.repeated_singleton_index()?)
}

/// Returns 1 if a variant is repeated, plus 2 if a singleton is repeated.
fn flags(variant: bool, singleton: bool) -> u32 {
    match (variant, singleton) {
        (false, false) => 0,
        (true, false) => 1,
        (false, true) => 2,
        (true, true) => 3,
    }
}
