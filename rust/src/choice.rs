//! The best tag for an `Accept-Language` header or for a list of language ranges, and the distance
//! of two tags (UTS #35, part 1, section 'Language Matching').
//!
//! ```
//! use langtag::choice::{best_for_header, match_for_header};
//! use langtag::LangTagBuf;
//!
//! let site = ["en", "zh-Hans", "zh-Hant"];
//! assert_eq!(best_for_header("zh-TW,zh;q=0.9,en;q=0.8", &site), Some(2));
//!
//! let site: Vec<LangTagBuf> = vec!["en".parse()?, "de".parse()?];
//! let found = match_for_header("tlh, gsw", &site).unwrap();
//! assert_eq!((found.index, found.range, found.distance), (1, &b"gsw"[..], 8));
//! # Ok::<(), Box<dyn std::error::Error>>(())
//! ```
//!
//! The tags are a slice, an array or a `Vec` of [`LangTag`], `LangTagBuf`, `&str` or `String`, or
//! another [`TagList`]. An entry that is not a tag is never chosen.
use crate::erased::choice::PreparedForm;
use crate::erased::{choice, locale};
#[cfg(feature = "alloc")]
use crate::memory::or_abort;
use crate::too_short::written_if_any;
#[cfg(feature = "alloc")]
use crate::LangTagBuf;
use crate::{LangTag, TooShort};
#[cfg(feature = "alloc")]
use alloc::vec::Vec;
use core::fmt;

pub use crate::erased::choice::{BestMatch, TagList, FORMLESS_DISTANCE};
pub use crate::lists::{RangeList, TagEntry};
#[cfg(feature = "alloc")]
pub use crate::site::Site;

/// Returns the index of the best tag for an `Accept-Language` header ([RFC 9110 section 12.5.4]),
/// or `None` if no tag is suitable.
///
/// The range with the greatest weight that has a tag at a [`distance`](LangTag::distance) below 16 is served by its
/// nearest tag. If there is no such range, the limit is 50, and after that, lookup is tried (RFC
/// 4647 section 3.4). A tag whose longest matching range has the weight 0 is never chosen. A range
/// `*` chooses nothing, so the program's default is used.
///
/// Among tags at the same distance, these rules decide, one after the other. The tag that has more
/// of the range's variants is better. A tag without the extension t, which marks machine
/// translations, is better, unless the range has t. The tag for which lookup removes fewer subtags
/// from the range is better, where lookup reads `eng` as `en`. The tag with the range's own code is
/// better. A tag whose region is a group with the range's region is better, and the smallest group
/// is best: `es-419` for `es-MX`. A tag with the most likely region of its language is better. One
/// of CLDR's paradigm locales, such as `en-GB`, is better. Otherwise the first in the list is
/// chosen. So list the tags in the order that you prefer.
///
/// A malformed element is read as far as possible: `de_CH` as `de-CH`. Time is at most proportional
/// to the length of the header times the length of the tags. Limit the header to 8 KiB, as most
/// servers do.
///
/// ```
/// use langtag::choice::best_for_header;
///
/// let site = ["en", "zh-Hans", "zh-Hant"];
/// assert_eq!(best_for_header("zh-TW,zh;q=0.9,en;q=0.8", &site), Some(2));
/// assert_eq!(best_for_header("ja", &site), None);
/// ```
///
/// [RFC 9110 section 12.5.4]: https://www.rfc-editor.org/rfc/rfc9110#section-12.5.4
#[must_use]
pub fn best_for_header(
    header: &(impl AsRef<[u8]> + ?Sized),
    tags: &(impl TagList + ?Sized),
) -> Option<usize> {
    choice::best_among(header.as_ref(), &tags)
}

/// Returns the index of the best tag for a list of language ranges in order of preference, as
/// [`best_for_header`] does.
///
/// A range is read as in a header: `zh_TW.UTF-8` as `zh-TW`, and `sr_RS@latin` as `sr-RS`. Call
/// `likely::from_posix` first for the names in `LANG` and `LANGUAGE`. An extended range is read
/// without its `*`: `zh-*-Hant` as `zh-Hant`. A string that is not a language range, such as
/// `de;q=0`, is skipped.
///
/// ```
/// use langtag::choice::best_for_ranges;
///
/// assert_eq!(best_for_ranges(&["nn", "de"], &["en", "nb"]), Some(1));
/// assert_eq!(best_for_ranges(&["fi", "zh_TW"], &["en", "zh-Hant"]), Some(1));
/// ```
#[doc(alias = "choose")]
#[must_use]
pub fn best_for_ranges<'a>(
    ranges: impl RangeList<'a>,
    tags: &(impl TagList + ?Sized),
) -> Option<usize> {
    choice::best_among(ranges.split(), &tags)
}

/// Returns the best tag for an `Accept-Language` header, as [`best_for_header`] chooses it, with
/// the range that it serves and its distance from that range.
///
/// If the distance is 50 or more, only lookup (RFC 4647 section 3.4) finds the tag.
///
/// ```
/// use langtag::choice::match_for_header;
///
/// let found = match_for_header("tlh, gsw", &["en", "de"]).unwrap();
/// assert_eq!((found.index, found.range, found.distance), (1, &b"gsw"[..], 8));
/// ```
#[must_use]
pub fn match_for_header<'a>(
    header: &'a (impl AsRef<[u8]> + ?Sized),
    tags: &(impl TagList + ?Sized),
) -> Option<BestMatch<'a>> {
    choice::match_among(header.as_ref(), &tags)
}

/// Returns the best tag for a list of language ranges, as [`best_for_ranges`] chooses it, with the
/// range that it serves and its distance from that range.
///
/// ```
/// use langtag::choice::match_for_ranges;
///
/// assert_eq!(match_for_ranges(&["tlh", "gsw"], &["en", "de"]).unwrap().distance, 8);
/// ```
#[must_use]
pub fn match_for_ranges<'a>(
    ranges: impl RangeList<'a>,
    tags: &(impl TagList + ?Sized),
) -> Option<BestMatch<'a>> {
    choice::match_among(ranges.split(), &tags)
}

/// Returns the indices of all suitable tags for an `Accept-Language` header, best first.
///
/// They are the tag that [`best_for_header`] chooses, the tag that it chooses among the others, and
/// so on. This is the order in which a player offers tracks, and a catalogue looks for a message.
///
/// For every 64 indices, each range is compared with each tag, and each tag with each earlier index.
/// [`write_suitable`] stops after as many indices as you want, and does not allocate.
///
/// ```
/// use langtag::choice::suitable_for_header;
///
/// assert_eq!(suitable_for_header("de-CH,fr;q=0.7", &["en", "fr", "de", "de-AT"]), [2, 3, 1]);
/// ```
#[cfg(feature = "alloc")]
#[doc(alias = "filtering")]
#[doc(alias = "negotiate_languages")]
#[must_use]
pub fn suitable_for_header(
    header: &(impl AsRef<[u8]> + ?Sized),
    tags: &(impl TagList + ?Sized),
) -> Vec<usize> {
    or_abort(choice::suitable_among(header.as_ref(), &tags))
}

/// Returns the indices of all suitable tags for a list of language ranges in order of preference,
/// best first, as [`suitable_for_header`] does.
///
/// ```
/// use langtag::choice::suitable_for_ranges;
///
/// assert_eq!(suitable_for_ranges(&["de_CH", "fr"], &["en", "fr", "de"]), [2, 1]);
/// ```
#[cfg(feature = "alloc")]
#[must_use]
pub fn suitable_for_ranges<'a>(
    ranges: impl RangeList<'a>,
    tags: &(impl TagList + ?Sized),
) -> Vec<usize> {
    or_abort(choice::suitable_among(ranges.split(), &tags))
}

/// Writes the indices of the suitable tags to an array, best first, and returns those that it
/// wrote.
///
/// It does not allocate.
///
/// # Errors
///
/// Returns an error if more tags are suitable than the array has room for. The array then has the
/// best. The error contains the number of tags: an array of that length is always long enough.
///
/// ```
/// use langtag::choice::write_suitable;
///
/// let tracks = ["en", "fr", "de", "de-AT"];
/// assert_eq!(write_suitable("de-CH,fr;q=0.7", &tracks, &mut [0; 4])?, [2, 3, 1]);
/// let mut found = [0; 2];
/// assert!(write_suitable("de-CH,fr;q=0.7", &tracks, &mut found).is_err());
/// assert_eq!(found, [2, 3]);
/// # Ok::<(), langtag::TooShort>(())
/// ```
pub fn write_suitable<'a, 'f>(
    ranges: impl RangeList<'a>,
    tags: &(impl TagList + ?Sized),
    found: &'f mut [usize],
) -> Result<&'f [usize], TooShort> {
    let (ranges, room) = (ranges.split(), found.len());
    let count = choice::write_suitable(ranges, &tags, found);
    let found = &found[..count];
    if count == room && choice::best_among(ranges, &Others { tags, found }).is_some() {
        return Err(TooShort::of(tags.count()));
    }
    Ok(found)
}

/// Returns the locale to format dates and numbers with, next to text in a tag that was chosen for a
/// range: the tag, with the region and the keywords of the range.
///
/// The range is the one that the tag serves, such as `range` of a [`BestMatch`]. Language, script,
/// variants and private use are those of the tag. Its script is written if it would not be likely
/// with the region: `zh-CN` for a reader in Hong Kong is `zh-Hans-HK`. All keywords of `u` come from
/// the range, and other keywords of the tag stay, but `rg` and `sd` go if the range has a region.
///
/// The result is the tag itself if the range asks for nothing, as `*` and `en` do. Returns `None` if
/// `tag` is a string that is not a tag.
///
/// ```
/// use langtag::choice::{match_for_header, resolved_locale};
///
/// let site = ["en", "zh-CN"];
/// let found = match_for_header("en-GB-u-hc-h12", &site).unwrap();
/// assert_eq!(resolved_locale(found.range, site[found.index]).unwrap(), "en-GB-u-hc-h12");
/// assert_eq!(resolved_locale("zh-HK", "zh-CN").unwrap(), "zh-Hans-HK");
/// ```
#[cfg(feature = "alloc")]
#[must_use]
pub fn resolved_locale(range: impl AsRef<[u8]>, tag: impl TagEntry) -> Option<LangTagBuf> {
    let tag = tag.tag()?;
    Some(or_abort(locale::resolved_locale(range.as_ref(), tag)))
}

/// Writes to a buffer the locale that `resolved_locale` returns. Returns what was written, or `None`
/// if `tag` is a string that is not a tag.
///
/// It does not allocate.
///
/// # Errors
///
/// Returns the length of the locale if the buffer is too short.
///
/// ```
/// use langtag::choice::write_resolved_locale;
///
/// let mut buffer = [0; 16];
/// assert_eq!(write_resolved_locale("de_AT", "de-DE", &mut buffer)?, Some("de-AT"));
/// # Ok::<(), langtag::TooShort>(())
/// ```
pub fn write_resolved_locale(
    range: impl AsRef<[u8]>,
    tag: impl TagEntry,
    buffer: &mut [u8],
) -> Result<Option<&str>, TooShort> {
    let len = tag
        .tag()
        .map(|tag| locale::write_resolved_locale(range.as_ref(), tag, buffer));
    written_if_any(buffer, len)
}

/// The tags of a list that were not found yet. Those that were found cannot be chosen.
struct Others<'a, T: ?Sized> {
    tags: &'a T,
    found: &'a [usize],
}

impl<T: TagList + ?Sized> TagList for Others<'_, T> {
    fn count(&self) -> usize {
        self.tags.count()
    }

    fn tag_at(&self, index: usize) -> Option<LangTag<'_>> {
        self.tags
            .tag_at(index)
            .filter(|_| !self.found.contains(&index))
    }

    fn bytes_at(&self, index: usize) -> &[u8] {
        if self.found.contains(&index) {
            b""
        } else {
            self.tags.bytes_at(index)
        }
    }
}

impl fmt::Debug for PreparedForm {
    fn fmt(&self, f: &mut fmt::Formatter<'_>) -> fmt::Result {
        f.debug_struct("PreparedForm").finish_non_exhaustive()
    }
}
