// Generated from crates/langtag_c/src/spanned_ranges.rt. Do not edit.

//! Language ranges as spans of a string.

use crate::calls::span::Span;
use crate::calls::spanned::range_in;
use crate::erased::choice::RangeList;
use crate::erased::matching::WantedRange;

/// A string, and spans of it that are language ranges, in order of preference.
#[derive(Clone, Copy)]
pub(crate) struct SpannedRanges<'a> {
    pub(crate) text: &'a [u8],
    pub(crate) spans: &'a [Span],
}

impl<'a> RangeList<'a> for SpannedRanges<'a> {
    fn split_range(self) -> Option<(WantedRange<'a>, SpannedRanges<'a>)> {
        let mut left = self.spans;
        while let Some((first, rest)) = left.split_first() {
            left = rest;
            if let Some(found) = range_in(self.text, *first) {
                let rest = SpannedRanges {
                    text: self.text,
                    spans: left,
                };
                return Some((found, rest));
            }
        }
        None
    }
}
