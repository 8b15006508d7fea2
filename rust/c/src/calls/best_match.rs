// Generated from crates/langtag_c/src/best_match.rt. Do not edit.

//! The best tag for a user, with the range that it serves and its distance from that range.

use crate::calls::range_place::range_at;
use crate::calls::span::Span;
use crate::calls::spanned_tags::SpannedTags;
use crate::erased::choice::match_among;

/// The range of a header that the best tag serves, and the distance from the range to the tag.
#[repr(C)]
#[derive(Clone, Copy)]
pub struct BestMatch {
    /// in the header, as it is written: de_CH in "de_CH.UTF-8;q=0.5"
    pub range: Span,
    /// from that range to the tag, as `langtag_distance` returns it
    pub distance: u32,
}

/// Returns what `langtag_best_for_header` returns, and writes the range that the tag serves and the
/// distance from that range to the tag (out). If the distance is 50 or more, only lookup found the
/// tag.
///
/// ```c
/// const char *header = "tlh, gsw;q=0.5", *have = "en de";
/// const langtag_span tags[] = {{0, 2}, {3, 2}};
/// langtag_best_match match;
/// size_t best = langtag_match_for_header(header, strlen(header), have, strlen(have), tags, 2, &match);
/// assert_eq!( // for gsw at 8
///     printf("%zu, for %.*s at %u\n", best, (int)match.range.len, header + match.range.start, match.distance),
///     1
/// );
/// ```
///
/// If no tag is suitable, the range is empty, at the end of the header, and the distance is
/// `LANGTAG_NO_DISTANCE`. `found` is always written.
pub fn langtag_match_for_header(
    header: &[u8],
    bytes: &[u8],
    tags: &[Span],
    found: &mut BestMatch,
) -> usize {
    let spanned = SpannedTags {
        text: bytes,
        spans: tags,
    };
    let end = Span {
        start: header.len(),
        len: 0,
    };
    let Some(chosen) = match_among(header, &spanned) else {
        *found = BestMatch {
            range: end,
            distance: u32::MAX,
        };
        return tags.len();
    };
    *found = BestMatch {
        range: range_at(header, chosen.place).unwrap_or(end),
        distance: u32::from(chosen.distance),
    };
    chosen.index
}
