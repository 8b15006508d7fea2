// Generated from crates/langtag_parent/src/tag_parent.rt. Do not edit.

//! The parent of a tag.

use crate::erased::parent::parent_tag::ParentTag;
use crate::erased::parent::parents::Parents;
use crate::erased::tag::LangTag;

/// Returns the parent of a tag in CLDR: `pt-PT` for `pt-AO`, `es-419` for `es-MX`, `en-001` for
/// `en-GB`. If a catalogue has no string for a tag, look for the string of its parent. Returns
/// `None` if there is no parent, as for `pt`.
///
/// The parent is the second tag of [`Parents`], which has all of them.
///
/// ```
/// # fn main() -> Result<(), Box<dyn std::error::Error>> {
/// use langtag::erased::tag::LangTag;
/// use langtag::erased::parent::parent;
///
/// let mut buffer = [0; 16];
/// assert_eq!(parent(LangTag::new("zh-TW")?).map(|tag| tag.write(&mut buffer)), Some(7));
/// assert_eq!(buffer.get(..7), Some(&b"zh-Hant"[..]));
/// assert!(parent(LangTag::new("zh-Hant")?).is_none());
/// # Ok(())
/// # }
/// ```
#[inline]
#[must_use]
pub fn parent(tag: LangTag<'_>) -> Option<ParentTag<'_>> {
    nth_parent(tag, 1)
}

/// Returns the tag at an index of the chain of parents. At 0 is the tag itself, and at 1 its
/// parent. Returns `None` if the chain has no more tags.
///
/// ```
/// # fn main() -> Result<(), Box<dyn std::error::Error>> {
/// use langtag::erased::tag::LangTag;
/// use langtag::erased::parent::nth_parent;
///
/// let mut buffer = [0; 16];
/// assert_eq!(
///     nth_parent(LangTag::new("pt-Latn-AO")?, 2).map(|tag| tag.write(&mut buffer)),
///     Some(5)
/// );
/// assert_eq!(buffer.get(..5), Some(&b"pt-PT"[..]));
/// # Ok(())
/// # }
/// ```
#[inline]
#[must_use]
pub fn nth_parent(tag: LangTag<'_>, index: usize) -> Option<ParentTag<'_>> {
    Parents::new(tag).nth(index)
}
