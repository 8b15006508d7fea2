// Generated from crates/langtag_choice/src/refused.rt. Do not edit.

//! Which tags the ranges of weight 0 refuse.

use crate::erased::choice::range_list::RangeList;
use crate::erased::choice::read_range::{begins, is_star};
use crate::erased::cldr::basic_len;
use crate::erased::range::WantedRange;

/// The lengths of the longest ranges that match a tag: of those with a weight above 0, and of those
/// with the weight 0.
#[derive(Clone, Copy)]
pub(crate) struct Longest {
    wanted: usize,
    refused: usize,
}

impl Longest {
    /// Returns the lengths before any range is read.
    #[inline]
    pub(crate) fn none() -> Longest {
        Longest {
            wanted: 0,
            refused: 0,
        }
    }

    /// Returns the lengths after one more range is read.
    pub(crate) fn with(self, range: WantedRange<'_>, tag: &[u8]) -> Longest {
        if !matches(range, tag) {
            return self;
        }
        let length = basic_len(range.bytes);
        if range.weight == 0 {
            Longest {
                wanted: self.wanted,
                refused: self.refused.max(length),
            }
        } else {
            Longest {
                wanted: self.wanted.max(length),
                refused: self.refused,
            }
        }
    }

    /// Returns whether the longest range that matches the tag has the weight 0.
    #[inline]
    pub(crate) fn is_refused(self) -> bool {
        self.wanted < self.refused
    }
}

/// Returns whether the longest range that matches a tag has the weight 0.
pub(crate) fn is_refused<'a, R: RangeList<'a>>(ranges: R, tag: &[u8]) -> bool {
    let mut longest = Longest::none();
    let mut left = ranges;
    while let Some((range, rest)) = left.split_range() {
        longest = longest.with(range, tag);
        left = rest;
    }
    longest.is_refused()
}

/// Returns whether a range, other than `*`, matches a tag by basic filtering.
#[inline]
fn matches(range: WantedRange<'_>, tag: &[u8]) -> bool {
    begins(range.bytes, tag) && !is_star(range.bytes)
}
