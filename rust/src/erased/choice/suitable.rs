// Generated from crates/langtag_choice/src/suitable.rt. Do not edit.

//! All tags that suit a user, best first. They are defined by choices in turn, so that the first is
//! the choice of `best_for_header`. The name avoids *filter*, because filtering (RFC 4647) takes no
//! distances and has no order.

use crate::erased::choice::by_tags::best_by_tags;
use crate::erased::choice::range_list::RangeList;
use crate::erased::choice::shortlist::{take_first, worst_of};
use crate::erased::choice::tag_list::{TagList, Tags};
use crate::erased::matching::LanguageRange;
use crate::erased::tag::LangTag;
#[cfg(feature = "alloc")]
use crate::shim::{try_vec, AllocError};
#[cfg(feature = "alloc")]
use alloc::vec::Vec;

/// Returns the indices of all suitable tags for an Accept-Language header ([RFC 9110 section
/// 12.5.4]), best first: the tag that [`best_for_header`](crate::choice::best_for_header) chooses,
/// the tag that it chooses among the others, and so on. For `de-CH,fr;q=0.7` and the tags `en`,
/// `fr`, `de` and `de-AT`, they are 2, 3 and 1.
///
/// For every 64 indices, each range is compared with each tag, and each tag with each earlier
/// index. To limit the time, call [`write_suitable`] with a short array.
///
/// # Errors
///
/// Returns an error if allocation fails.
///
/// ```
/// # fn main() -> Result<(), Box<dyn std::error::Error>> {
/// use langtag::erased::tag::LangTag;
/// use langtag::erased::choice::suitable_for_header;
///
/// let tags = [LangTag::new("en")?, LangTag::new("fr")?, LangTag::new("de")?, LangTag::new("de-AT")?];
/// let found = suitable_for_header(b"de-CH,fr;q=0.7", &tags)?;
/// found.as_slice(); // [2, 3, 1]
/// # Ok(())
/// # }
/// ```
///
/// [RFC 9110 section 12.5.4]: https://www.rfc-editor.org/rfc/rfc9110#section-12.5.4
#[cfg(feature = "alloc")]
#[inline]
pub fn suitable_for_header(header: &[u8], tags: &[LangTag<'_>]) -> Result<Vec<usize>, AllocError> {
    suitable_among(header, &Tags(tags))
}

/// Returns the indices of all suitable tags for a list of language ranges, in order of preference,
/// as [`suitable_for_header`] does.
///
/// # Errors
///
/// Returns an error if allocation fails.
///
/// ```
/// # fn main() -> Result<(), Box<dyn std::error::Error>> {
/// use langtag::erased::tag::LangTag;
/// use langtag::erased::choice::suitable_for_ranges;
/// use langtag::erased::matching::LanguageRange;
///
/// let ranges = [LanguageRange::new("de-CH")?, LanguageRange::new("fr")?];
/// let tags = [LangTag::new("en")?, LangTag::new("fr")?, LangTag::new("de")?];
/// let found = suitable_for_ranges(&ranges, &tags)?;
/// found.as_slice(); // [2, 1]
/// # Ok(())
/// # }
/// ```
#[cfg(feature = "alloc")]
#[inline]
pub fn suitable_for_ranges(
    ranges: &[LanguageRange<'_>],
    tags: &[LangTag<'_>],
) -> Result<Vec<usize>, AllocError> {
    suitable_among(ranges, &Tags(tags))
}

/// Returns the indices of all suitable tags, as [`suitable_for_header`] does, for any list of
/// ranges and any list of tags.
///
/// # Errors
///
/// Returns an error if allocation fails.
///
/// ```
/// # fn main() -> Result<(), Box<dyn std::error::Error>> {
/// use langtag::erased::tag::LangTag;
/// use langtag::erased::choice::{PreparedTag, Site, suitable_among};
///
/// let tags = [PreparedTag::new(LangTag::new("en")?), PreparedTag::new(LangTag::new("zh-Hant")?)];
/// let found = suitable_among(&b"zh-TW,en;q=0.9"[..], &Site::new(&tags))?;
/// found.as_slice(); // [1, 0]
/// # Ok(())
/// # }
/// ```
#[cfg(feature = "alloc")]
pub fn suitable_among<'a, R: RangeList<'a>, T: TagList>(
    ranges: R,
    tags: &T,
) -> Result<Vec<usize>, AllocError> {
    let mut found = try_vec(0, tags.count())?;
    let count = write_suitable(ranges, tags, &mut found);
    found.truncate(count);
    Ok(found)
}

/// Writes the indices of the suitable tags to an array, best first, as `suitable_for_header`
/// returns them, and returns their number. If the array is too short, it gets the best. It does not
/// allocate.
///
/// ```
/// use langtag::erased::tag::LangTag;
/// use langtag::erased::choice::{TagList, write_suitable};
///
/// struct Tracks(&'static [&'static str]);
///
/// impl TagList for Tracks {
///     fn count(&self) -> usize {
///         self.0.len()
///     }
///
///     fn tag_at(&self, index: usize) -> Option<LangTag<'_>> {
///         LangTag::new(self.0[index]).ok()
///     }
///
///     fn bytes_at(&self, index: usize) -> &[u8] {
///         self.0[index].as_bytes()
///     }
/// }
///
/// let mut found = [0; 2];
/// let count = write_suitable(&b"de-CH,fr;q=0.7"[..], &Tracks(&["en", "fr", "de", "de-AT"]), &mut found);
/// assert_eq!(found.get(..count), Some(&[2, 3][..]));
/// ```
#[inline]
pub fn write_suitable<'a, R: RangeList<'a>, T: TagList>(
    ranges: R,
    tags: &T,
    found: &mut [usize],
) -> usize {
    choose_in_turn(ranges, tags, found)
}

/// The number of tags that one pass over all tags finds.
const BLOCK: usize = 64;

/// Writes the indices of the tags that are chosen in turn to an array, and returns their number.
fn choose_in_turn<'a, R: RangeList<'a>, T: TagList>(
    ranges: R,
    tags: &T,
    found: &mut [usize],
) -> usize {
    let mut count = 0;
    while count < found.len() {
        let (next, is_last) = choose_next(ranges, tags, found, count);
        count = next;
        if is_last {
            return count;
        }
    }
    count
}

/// Writes the indices of the next tags that are chosen in turn behind the first `start` indices, as
/// many as one pass over the tags finds. Returns the number of all indices, and whether there are
/// no more.
fn choose_next<'a, R: RangeList<'a>, T: TagList>(
    ranges: R,
    tags: &T,
    found: &mut [usize],
    start: usize,
) -> (usize, bool) {
    let mut best = [None; BLOCK];
    best_by_tags(ranges, tags, &found[..start], &mut best);
    let worst = best[worst_of(&best)];
    let mut end = start;
    while end < found.len() {
        let Some(next) = take_first(&mut best) else {
            return (end, worst.is_none());
        };
        found[end] = next.index;
        end += 1;
    }
    (end, true)
}
