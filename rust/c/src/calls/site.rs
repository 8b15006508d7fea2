// Generated from crates/langtag_c/src/site.rt. Do not edit.

//! The best of tags that are prepared once.

use crate::calls::best_match::BestMatch;
use crate::calls::prepare::{PreparedTag, PreparedTags};
use crate::calls::range_place::range_at;
use crate::calls::span::Span;
use crate::calls::spanned_ranges::SpannedRanges;
use crate::erased::choice::{best_among, match_among};

/// Returns what `langtag_best_for_header` returns for the same string and the spans of the tags.
/// For 40 tags it takes about half of the time, and for a few tags nearly as much. Each tag was
/// prepared by `langtag_prepare` for this string. A tag that was not is skipped: any values of
/// `opaque` are safe.
#[inline]
pub fn langtag_site_best_for_header(header: &[u8], bytes: &[u8], tags: &[PreparedTag]) -> usize {
    let site = PreparedTags { text: bytes, tags };
    best_among(header, &site).unwrap_or(tags.len())
}

/// Returns what `langtag_best_for_ranges` returns, among tags that `langtag_prepare` prepared, as
/// `langtag_site_best_for_header` does.
pub fn langtag_site_best_for_ranges(
    text: &[u8],
    ranges: &[Span],
    bytes: &[u8],
    tags: &[PreparedTag],
) -> usize {
    let wanted = SpannedRanges {
        text,
        spans: ranges,
    };
    let site = PreparedTags { text: bytes, tags };
    best_among(wanted, &site).unwrap_or(tags.len())
}

/// Returns what `langtag_match_for_header` returns, among tags that `langtag_prepare` prepared, as
/// `langtag_site_best_for_header` does.
pub fn langtag_site_match_for_header(
    header: &[u8],
    bytes: &[u8],
    tags: &[PreparedTag],
    found: &mut BestMatch,
) -> usize {
    let site = PreparedTags { text: bytes, tags };
    let end = Span {
        start: header.len(),
        len: 0,
    };
    let Some(chosen) = match_among(header, &site) else {
        *found = BestMatch {
            range: end,
            distance: u32::MAX,
        };
        return tags.len();
    };
    *found = BestMatch {
        range: range_at(header, chosen.place).unwrap_or(end),
        distance: u32::from(chosen.distance),
    };
    chosen.index
}
