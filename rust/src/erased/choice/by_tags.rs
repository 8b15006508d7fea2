// Generated from crates/langtag_choice/src/by_tags.rt. Do not edit.

//! Making the choice tag by tag. Each entry is checked once: whether it is a tag, and whether it is
//! refused. To find the refused tags, each range is read once for a block of tags.

use crate::erased::choice::candidate::Candidate;
use crate::erased::choice::improve::limit;
use crate::erased::choice::range_list::RangeList;
use crate::erased::choice::refused::Longest;
use crate::erased::choice::shortlist::{improve, worst_of};
use crate::erased::choice::tag_list::TagList;
use crate::erased::choice::wish::Wish;
use crate::erased::range::WantedRange;

/// The number of tags for which each range is read once.
pub(crate) const BLOCK: usize = 64;

/// Returns the best candidate among the tags that are not refused.
#[inline]
pub(crate) fn first_by_tags<'a, 't, R: RangeList<'a>, T: TagList>(
    ranges: R,
    tags: &'t T,
) -> Option<Candidate<'a, 't>> {
    let mut best = [None];
    best_by_tags(ranges, tags, &[], &mut best);
    best[0]
}

/// Replaces the candidates by the best among them and the tags that are neither refused nor chosen.
pub(crate) fn best_by_tags<'a, 't, R: RangeList<'a>, T: TagList>(
    ranges: R,
    tags: &'t T,
    chosen: &[usize],
    best: &mut [Option<Candidate<'a, 't>>],
) {
    let Some(has_zero) = has_zero(ranges) else {
        return;
    };
    let mut start = 0;
    while start < tags.count() {
        let free = free_from(ranges, tags, chosen, has_zero, start);
        improve_at(best, ranges, tags, start, &free);
        start += BLOCK.min(tags.count() - start);
    }
}

/// Returns whether a range has the weight 0, or `None` if there is no range.
pub(crate) fn has_zero<'a, R: RangeList<'a>>(ranges: R) -> Option<bool> {
    let mut found = None;
    let mut left = ranges;
    while let Some((wanted, rest)) = left.split_range() {
        if wanted.weight == 0 {
            return Some(true);
        }
        found = Some(false);
        left = rest;
    }
    found
}

/// Returns which entries from an index on are tags that are neither refused nor chosen, up to
/// [`BLOCK`] entries.
pub(crate) fn free_from<'a, R: RangeList<'a>, T: TagList>(
    ranges: R,
    tags: &T,
    chosen: &[usize],
    has_zero: bool,
    start: usize,
) -> [bool; BLOCK] {
    let mut free = not_chosen(tags, chosen, start);
    if has_zero {
        clear_refused(&mut free, ranges, tags, start);
    }
    free
}

/// Returns which entries from an index on are tags that are not chosen, up to [`BLOCK`] entries.
fn not_chosen<T: TagList>(tags: &T, chosen: &[usize], start: usize) -> [bool; BLOCK] {
    let mut free = [false; BLOCK];
    for offset in 0..BLOCK.min(tags.count() - start) {
        free[offset] = is_free(tags, chosen, start + offset);
    }
    free
}

/// Returns whether the entry at an index is a tag that is not chosen.
#[inline]
fn is_free<T: TagList>(tags: &T, chosen: &[usize], index: usize) -> bool {
    !chosen.contains(&index) && tags.tag_at(index).is_some()
}

/// Clears the flags of the tags that are refused. The first flag is that of the entry at the index
/// `start`. Each range is read once. The function is not inlined, so that its lengths take no stack
/// while candidates are compared.
#[inline(never)]
fn clear_refused<'a, R: RangeList<'a>, T: TagList>(
    free: &mut [bool; BLOCK],
    ranges: R,
    tags: &T,
    start: usize,
) {
    let mut longest = [Longest::none(); BLOCK];
    let mut left = ranges;
    while let Some((range, rest)) = left.split_range() {
        read_for_refusals(&mut longest, range, tags, start, free);
        left = rest;
    }
    for offset in 0..BLOCK {
        if lengths_at(&longest, offset).is_refused() {
            free[offset] = false;
        }
    }
}

/// Reads one more range for the tags whose flags are set.
fn read_for_refusals<T: TagList>(
    longest: &mut [Longest; BLOCK],
    range: WantedRange<'_>,
    tags: &T,
    start: usize,
    free: &[bool; BLOCK],
) {
    for offset in 0..BLOCK {
        if free[offset] {
            let lengths = lengths_at(longest, offset);
            longest[offset] = lengths.with(range, tags.bytes_at(start + offset));
        }
    }
}

/// Returns the lengths of the tag at an offset.
fn lengths_at(longest: &[Longest; BLOCK], offset: usize) -> Longest {
    longest[offset]
}

/// Replaces the candidates by the best among them and some tags. `free` says which entries from the
/// index `start` on these are.
fn improve_at<'a, 't, R: RangeList<'a>, T: TagList>(
    best: &mut [Option<Candidate<'a, 't>>],
    ranges: R,
    tags: &'t T,
    start: usize,
    free: &[bool],
) {
    let mut worst = worst_of(best);
    let mut place = 0;
    let mut left = ranges;
    while let Some((wanted, rest)) = left.split_range() {
        worst = improve_for_range(best, worst, wanted, place, tags, start, free);
        place += 1;
        left = rest;
    }
}

/// Replaces the candidates by the best among them and those for a range and some tags. Returns the
/// place of the worst.
fn improve_for_range<'a, 't, T: TagList>(
    best: &mut [Option<Candidate<'a, 't>>],
    worst: usize,
    wanted: WantedRange<'a>,
    place: usize,
    tags: &'t T,
    start: usize,
    free: &[bool],
) -> usize {
    if limit(&best[worst], wanted.weight, place) == 0 {
        return worst;
    }
    let Some(wish) = Wish::new(wanted, place) else {
        return worst;
    };
    let mut worst = worst;
    for offset in 0..free.len() {
        if free[offset] {
            worst = improve(best, worst, &wish, tags, start + offset);
        }
    }
    worst
}
