// Generated from crates/langtag_c/src/walk.rt. Do not edit.

//! Walks over the subtags and the extensions of a part, without allocating.

use crate::calls::span::Span;
use crate::erased::extension::first_extension_end;
use crate::erased::scan::segment_end;

/// Removes the first subtag from `rest`, and writes it to `subtag` (out). `rest` then begins after
/// the next hyphen. Begin with a copy of the span of a part:
///
/// ```c
/// const char *text = "sl-rozaj-1994";
/// size_t len = strlen(text);
/// langtag_parts parts;
/// langtag_parse(text, len, &parts);
/// langtag_span rest = parts.variants, variant;
/// while (langtag_next_subtag(text, len, &rest, &variant))
///     printf("%.*s ", (int)variant.len, text + variant.start); // rozaj 1994
/// ```
///
/// Returns false if and only if `rest` is empty or reaches beyond the string, and then leaves both
/// spans unchanged. So an empty subtag after the last hyphen is not returned: "a-" has one subtag.
/// In "a--b", the second of three subtags is empty.
#[inline]
pub fn langtag_next_subtag(bytes: &[u8], rest: &mut Span, subtag: &mut Span) -> bool {
    let Some(part) = rest.of(bytes) else {
        return false;
    };
    *subtag = rest.take_first(segment_end(part, 0));
    true
}

/// Removes the first extension, such as u-co-pinyin, from `rest`, as `langtag_next_subtag` removes
/// a subtag. Begin with `parts.extensions`. From any other span, the bytes before the first hyphen
/// that is followed by a subtag of one byte are removed.
#[inline]
pub fn langtag_next_extension(bytes: &[u8], rest: &mut Span, extension: &mut Span) -> bool {
    let Some(part) = rest.of(bytes) else {
        return false;
    };
    *extension = rest.take_first(first_extension_end(part));
    true
}
