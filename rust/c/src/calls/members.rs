// Generated from crates/langtag_c/src/members.rt. Do not edit.

//! Where the variants and the singletons of a tag are in its text (RFC 5646 sections 2.2.5 and
//! 2.2.6).

use crate::calls::span::Span;
use crate::erased::tag::NormalLangTag;

/// Returns where the variant at an index is in a tag.
pub(crate) fn variant_at(tag: &NormalLangTag<'_>, wanted: usize) -> Option<Span> {
    tag.variants()
        .iter()
        .scan(tag.ends().region, |end, variant| {
            let start = *end + 1;
            let len = variant.as_str().len();
            *end = start + len;
            Some(Span { start, len })
        })
        .nth(wanted)
}

/// Returns where the singleton of the extension at an index is in a tag.
pub(crate) fn singleton_at(tag: &NormalLangTag<'_>, wanted: usize) -> Option<Span> {
    tag.extensions()
        .iter()
        .scan(tag.ends().variants, |end, extension| {
            let start = *end + 1;
            *end = start + extension.as_str().len();
            Some(Span { start, len: 1 })
        })
        .nth(wanted)
}
