// Generated from crates/langtag_choice/src/by_ranges.rt. Do not edit.

//! Making the choice range by range. Ranges of lower weight are skipped if a tag is near a range of
//! higher weight.

use crate::erased::choice::candidate::Candidate;
use crate::erased::choice::improve::limit;
use crate::erased::choice::known_at::{improve_at, next_near};
use crate::erased::choice::range_list::RangeList;
use crate::erased::choice::tag_list::TagList;
use crate::erased::choice::wish::Wish;
use crate::erased::range::WantedRange;

/// Returns the best of all candidates, even if it is refused or not a tag, and whether a range has
/// the weight 0.
pub(crate) fn first_by_ranges<'a, 't, R: RangeList<'a>, T: TagList>(
    ranges: R,
    tags: &'t T,
) -> (Option<Candidate<'a, 't>>, bool) {
    let mut first = None;
    let mut has_zero = false;
    let mut place = 0;
    let mut left = ranges;
    while let Some((wanted, rest)) = left.split_range() {
        has_zero = has_zero || wanted.weight == 0;
        improve_for_range(&mut first, wanted, place, tags);
        place += 1;
        left = rest;
    }
    (first, has_zero)
}

/// Replaces the candidate by the best candidate for a range, if that is better.
fn improve_for_range<'a, 't, T: TagList>(
    found: &mut Option<Candidate<'a, 't>>,
    wanted: WantedRange<'a>,
    place: usize,
    tags: &'t T,
) {
    if limit(found, wanted.weight, place) == 0 {
        return;
    }
    let Some(wish) = Wish::new(wanted, place) else {
        return;
    };
    let mut from = 0;
    while let Some(index) = next_near(tags, &wish, from) {
        improve_at(found, &wish, tags, index);
        from = index + 1;
    }
}
