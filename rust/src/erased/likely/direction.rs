// Generated from crates/langtag_likely/src/direction.rt. Do not edit.

//! Whether a tag is written from right to left.

use crate::erased::cldr::{is_right_to_left_script, matching_form};
use crate::erased::tag::LangTag;

/// Returns whether a tag's language is written from right to left: `true` for `he`, `pa-PK`,
/// `az-Arab` and `und-Thaa`, `false` for `ar-Latn`.
///
/// The script of the tag decides. If the tag has no script, the most likely script of its language
/// and region is used. Deprecated subtags such as `iw` count as their replacements. An extended
/// language counts only if it is registered for the language before it ([RFC 5646 section 2.2.2]).
/// The result is `false` for private-use tags, irregular tags and `und`.
///
/// ```
/// # fn main() -> Result<(), Box<dyn std::error::Error>> {
/// use langtag::LangTag;
/// use langtag::likely::is_right_to_left;
///
/// assert!(is_right_to_left(LangTag::new("az-IR")?));
/// assert!(!is_right_to_left(LangTag::new("az")?));
/// # Ok(())
/// # }
/// ```
///
/// [RFC 5646 section 2.2.2]: https://www.rfc-editor.org/rfc/rfc5646#section-2.2.2
#[inline]
#[must_use]
pub fn is_right_to_left(tag: LangTag<'_>) -> bool {
    matching_form(tag.as_bytes()).is_some_and(|form| is_right_to_left_script(form.script))
}
