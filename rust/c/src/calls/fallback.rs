// Generated from crates/langtag_c/src/fallback.rt. Do not edit.

//! The fallbacks of a language range in a lookup (RFC 4647 section 3.4), without allocating.

use crate::calls::span::Span;
use crate::erased::range::shortened_len;

/// Shortens `rest` to its next fallback in a lookup ([RFC 4647 section 3.4]); for a catalogue of
/// strings, call `langtag_parent` instead. It removes the last subtag, and each subtag of one byte
/// that would then be last. Begin with the whole range:
///
/// ```c
/// const char *range = "zh-Hant-CN-x-private1";
/// size_t len = strlen(range);
/// langtag_span rest = {0, len};
/// while (langtag_next_fallback(range, len, &rest))
///     printf("%.*s ", (int)rest.len, range + rest.start); // zh-Hant-CN zh-Hant zh
/// ```
///
/// Returns false if and only if no fallback is left, or `rest` is empty or reaches beyond the
/// string, and then leaves `rest` unchanged. It does not check that the string is a range;
/// `langtag_range_kind` does.
///
/// A lookup reads an extended range as the basic range without each "-*" (section 3.2). So remove
/// each "-*" from a fallback before you compare it: de-*-DE finds the tag de-DE, and then de. A
/// range that begins with * finds nothing.
///
/// [RFC 4647 section 3.4]: https://www.rfc-editor.org/rfc/rfc4647#section-3.4
pub fn langtag_next_fallback(bytes: &[u8], rest: &mut Span) -> bool {
    let Some(range) = rest.of(bytes) else {
        return false;
    };
    let Some(len) = shortened_len(range) else {
        return false;
    };
    rest.len = len;
    true
}
