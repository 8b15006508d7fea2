// Generated from crates/langtag_choice/src/serving.rt. Do not edit.

//! Counting the tags that suit a user, which needs no order and no memory for their indices.

use crate::erased::choice::by_tags::{free_from, has_zero, BLOCK};
use crate::erased::choice::known_at::improve_entry;
use crate::erased::choice::range_list::RangeList;
use crate::erased::choice::tag_list::TagList;
use crate::erased::choice::wish::Wish;
use crate::erased::range::WantedRange;

/// Returns the number of all suitable tags, also if
/// [`write_suitable`](crate::choice::write_suitable) had no room for them. Each range is compared
/// with each tag. It does not allocate.
///
/// ```
/// # fn main() -> Result<(), Box<dyn std::error::Error>> {
/// use langtag::erased::tag::LangTag;
/// use langtag::erased::choice::{PreparedTag, Site, suitable_count};
///
/// let tags = [PreparedTag::new(LangTag::new("en")?), PreparedTag::new(LangTag::new("zh-Hant")?)];
/// assert_eq!(suitable_count(&b"zh-TW,en;q=0.9"[..], &Site::new(&tags)), 2);
/// # Ok(())
/// # }
/// ```
#[must_use]
pub fn suitable_count<'a, R: RangeList<'a>, T: TagList>(ranges: R, tags: &T) -> usize {
    let has_zero = has_zero(ranges).unwrap_or(false);
    let mut count = 0;
    let mut start = 0;
    while start < tags.count() {
        count += count_from(ranges, tags, has_zero, start);
        start += BLOCK.min(tags.count() - start);
    }
    count
}

/// Returns the number of suitable tags from an index on, among up to [`BLOCK`] entries.
fn count_from<'a, R: RangeList<'a>, T: TagList>(
    ranges: R,
    tags: &T,
    has_zero: bool,
    start: usize,
) -> usize {
    let suitable = suitable_from(ranges, tags, has_zero, start);
    let mut count = 0;
    for offset in 0..BLOCK.min(tags.count() - start) {
        if suitable[offset] {
            count += 1;
        }
    }
    count
}

/// Returns which entries from an index on are suitable tags, up to [`BLOCK`] entries.
fn suitable_from<'a, R: RangeList<'a>, T: TagList>(
    ranges: R,
    tags: &T,
    has_zero: bool,
    start: usize,
) -> [bool; BLOCK] {
    let free = free_from(ranges, tags, &[], has_zero, start);
    let mut suitable = [false; BLOCK];
    let mut left = ranges;
    while let Some((wanted, rest)) = left.split_range() {
        set_serving(&mut suitable, wanted, tags, start, &free);
        left = rest;
    }
    suitable
}

/// Sets the flags of the free tags that may serve a range. The first flags are those of the entry
/// at the index `start`.
fn set_serving<T: TagList>(
    flags: &mut [bool; BLOCK],
    wanted: WantedRange<'_>,
    tags: &T,
    start: usize,
    free: &[bool; BLOCK],
) {
    let Some(wish) = Wish::new(wanted, 0) else {
        return;
    };
    for offset in 0..BLOCK {
        if free[offset] && !flags[offset] {
            flags[offset] = may_serve(&wish, tags, start + offset);
        }
    }
}

/// Returns whether the entry at an index, which is a tag, may serve a range.
#[inline]
fn may_serve<T: TagList>(wish: &Wish<'_>, tags: &T, index: usize) -> bool {
    let mut found = None;
    improve_entry(&mut found, wish, tags, index);
    found.is_some()
}
