// Generated from crates/langtag_c/src/look_up.rt. Do not edit.

//! The tag that lookup finds for an Accept-Language header (RFC 9110 section 12.5.4, RFC 4647
//! section 3.4), without allocating.

use crate::calls::header_look_up::{first_bad, index_for_header};
use crate::calls::items::number_of;
use crate::calls::span::Span;

/// Looks up a tag as `langtag_tag_for_header_lenient` does, but refuses a header with a malformed
/// element. Returns an enum `langtag_accepted_answer`.
///
/// - `LANGTAG_ACCEPTED_END`: no element is malformed. `index` (out) is what
///   `langtag_tag_for_header_lenient` returns, and
///   `bad` (out) is empty, at the end of the header.
/// - Otherwise: the answer says what is wrong with the first malformed element. `index` is
///   `tags_len`, and `bad` is the
///   string of that element, without the spaces and tabs around it.
pub fn langtag_tag_for_header(
    header: &[u8],
    bytes: &[u8],
    tags: &[Span],
    index: &mut usize,
    bad: &mut Span,
) -> u32 {
    if let Some((item, part)) = first_bad(header) {
        *index = tags.len();
        *bad = item;
        return number_of(&part);
    }
    *index = index_for_header(header, bytes, tags);
    *bad = Span {
        start: header.len(),
        len: 0,
    };
    0
}

/// Returns the index of the tag that lookup finds for an Accept-Language header ([RFC 4647 section
/// 3.4]), or `tags_len` if it finds none. The tags are spans of one string, as for
/// `langtag_best_for_header`. Malformed elements are skipped.
///
/// ```c
/// const char *header = "fr;q=0.3, DE-ch-1996;q=0.9", *have = "en de-CH fr";
/// const langtag_span tags[] = {{0, 2}, {3, 5}, {9, 2}};
/// size_t index = langtag_tag_for_header_lenient(header, strlen(header), have, strlen(have), tags, 3);
/// assert_eq!(printf("%zu\n", index), 1);
/// ```
///
/// The ranges are looked up by descending weight, and ranges of equal weight in the order of the
/// header. Ranges of weight 0 are not looked up. A range finds the first tag that equals it,
/// ignoring case. If there is none, its fallbacks are tried, the longest first
/// (`langtag_next_fallback`). So zh-TW does not find zh-Hant, though `langtag_best_for_header`
/// chooses it.
///
/// To look up a list of ranges, in order of preference, remove each "-*" from them, and join them
/// with commas.
///
/// Time is at most proportional to the length of the header times the length of the tags.
///
/// [RFC 4647 section 3.4]: https://www.rfc-editor.org/rfc/rfc4647#section-3.4
#[inline]
pub fn langtag_tag_for_header_lenient(header: &[u8], bytes: &[u8], tags: &[Span]) -> usize {
    index_for_header(header, bytes, tags)
}
