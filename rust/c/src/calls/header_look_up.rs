// Generated from crates/langtag_c/src/header_look_up.rt. Do not edit.

//! The tag that lookup finds for an Accept-Language header (RFC 9110 section 12.5.4, RFC 4647
//! section 3.4), without allocating.

use crate::calls::items::{is_comma, next_item};
use crate::calls::span::Span;
use crate::calls::spanned::{bytes_in, tag_in};
use crate::erased::matching::{element_at, ElementPart, LanguageRange};
use crate::erased::range::{is_empty_element, trimmed_place};
use crate::erased::scan::case_insensitive_eq;

/// Returns the index of the tag that lookup finds for an Accept-Language header, or the number of
/// spans if it finds none. Malformed elements, and spans that are not tags, are skipped.
#[inline]
pub(crate) fn index_for_header(header: &[u8], bytes: &[u8], spans: &[Span]) -> usize {
    heaviest_found(header, bytes, spans).unwrap_or(spans.len())
}

/// Returns the index of the tag for the element of the greatest weight that finds a tag. If several
/// elements have this weight, the first counts.
fn heaviest_found(header: &[u8], bytes: &[u8], spans: &[Span]) -> Option<usize> {
    let mut rest = Span {
        start: 0,
        len: header.len(),
    };
    let mut found = None;
    let mut weight = 0;
    while let Some(item) = next_item(header, &mut rest) {
        let Ok(element) = element_at(&header[item.start..item.start + item.len]) else {
            continue;
        };
        if element.weighted.weight <= weight {
            continue;
        }
        if let Some(index) = tag_for(element.weighted.range, bytes, spans) {
            found = Some(index);
            weight = element.weighted.weight;
        }
    }
    found
}

/// Returns the index of the tag that lookup finds for a range.
fn tag_for(range: LanguageRange<'_>, bytes: &[u8], spans: &[Span]) -> Option<usize> {
    for fallback in range.fallbacks() {
        if let Some(index) = index_alike(fallback.as_str().as_bytes(), bytes, spans) {
            return Some(index);
        }
    }
    None
}

/// Returns the index of the first tag that equals a string, ignoring case.
#[inline]
fn index_alike(text: &[u8], bytes: &[u8], spans: &[Span]) -> Option<usize> {
    first_alike(bytes, spans, text)
}

/// Returns the index of the first span that is a tag and equals a string, ignoring case.
#[inline]
fn first_alike(bytes: &[u8], spans: &[Span], text: &[u8]) -> Option<usize> {
    spans
        .iter()
        .position(|span| is_tag_alike(bytes, *span, text))
}

/// Returns whether a span is a tag and equals a string, ignoring case.
#[inline]
fn is_tag_alike(bytes: &[u8], span: Span, text: &[u8]) -> bool {
    case_insensitive_eq(bytes_in(bytes, span), text) && tag_in(bytes, span).is_some()
}

/// Returns the first malformed element of a header, and which part of it is malformed.
pub(crate) fn first_bad(header: &[u8]) -> Option<(Span, ElementPart)> {
    let mut start = 0;
    for item in header.split(|byte| is_comma(*byte)) {
        if let Some(part) = bad_part(item) {
            let (first, end) = trimmed_place(item);
            let span = Span {
                start: start + first,
                len: end - first,
            };
            return Some((span, part));
        }
        start += item.len() + 1;
    }
    None
}

/// Returns which part of an item is malformed, or `None` if the item is empty or an element.
#[inline]
fn bad_part(item: &[u8]) -> Option<ElementPart> {
    match element_at(item) {
        Err(part) if !is_empty_element(item) => Some(part),
        _ => None,
    }
}
