// Generated from crates/langtag_c/src/validity.rt. Do not edit.

//! Whether a tag is valid by the registry (RFC 5646 section 2.2.9).

use crate::calls::members::{singleton_at, variant_at};
use crate::calls::span::Span;
use crate::calls::tag::tag_of;
use crate::erased::registry::{fault_at, InvalidSubtag};
use crate::erased::tag::NormalLangTag;

/// Returns whether a tag is valid ([RFC 5646 section 2.2.9]), as an enum `langtag_validity_answer`,
/// and writes where its first invalid subtag is (out), which is empty if there is none.
///
/// ```c
/// langtag_span invalid;
/// langtag_validity("qt-FR", 5, &invalid);
/// printf("%.*s\n", (int)invalid.len, "qt-FR" + invalid.start); // qt
/// ```
///
/// A tag is valid if it is grandfathered, or if its language, extended language, script, region and
/// variants are registered, it has at most one extended language, and no variant or singleton is
/// repeated. It uses the registry whose date `langtag_registry_date` returns. Deprecated subtags
/// are valid. Whether a variant follows one of its prefixes is not checked.
///
/// [RFC 5646 section 2.2.9]: https://www.rfc-editor.org/rfc/rfc5646#section-2.2.9
pub fn langtag_validity(bytes: &[u8], invalid: &mut Span) -> u32 {
    *invalid = Span { start: 0, len: 0 };
    let Some(tag) = tag_of(bytes) else {
        return 0;
    };
    let (Some(normal), Some((fault, index))) = (tag.as_normal(), fault_at(tag)) else {
        return 1;
    };
    *invalid = place(&normal, fault, index);
    number(fault)
}

/// Returns the number of a fault.
fn number(fault: InvalidSubtag<'_>) -> u32 {
    match fault {
        InvalidSubtag::Language(_) => 2,
        InvalidSubtag::Extlang(_) => 3,
        InvalidSubtag::SecondExtlang(_) => 4,
        InvalidSubtag::Script(_) => 5,
        InvalidSubtag::Region(_) => 6,
        InvalidSubtag::Variant(_) => 7,
        InvalidSubtag::RepeatedVariant(_) => 8,
        InvalidSubtag::RepeatedSingleton(_) => 9,
    }
}

/// Returns where the invalid subtag is in its tag. `index` is the index of the subtag among the
/// variants, or of its extension among the extensions.
fn place(tag: &NormalLangTag<'_>, fault: InvalidSubtag<'_>, index: usize) -> Span {
    let ends = tag.ends();
    let none = Span { start: 0, len: 0 };
    match fault {
        InvalidSubtag::Language(language) => Span {
            start: 0,
            len: language.as_str().len(),
        },
        InvalidSubtag::Extlang(extlang) => Span {
            start: primary_len(tag) + 1,
            len: extlang.as_str().len(),
        },
        InvalidSubtag::SecondExtlang(extlang) => Span {
            start: primary_len(tag) + 5,
            len: extlang.as_str().len(),
        },
        InvalidSubtag::Script(_) => Span::between(ends.language, ends.script),
        InvalidSubtag::Region(_) => Span::between(ends.script, ends.region),
        InvalidSubtag::Variant(_) => variant_at(tag, index).unwrap_or(none),
        InvalidSubtag::RepeatedVariant(_) => variant_at(tag, index).unwrap_or(none),
        InvalidSubtag::RepeatedSingleton(_) => singleton_at(tag, index).unwrap_or(none),
    }
}

/// Returns the number of bytes of the primary language of a tag.
#[inline]
fn primary_len(tag: &NormalLangTag<'_>) -> usize {
    tag.language().primary().as_str().len()
}
