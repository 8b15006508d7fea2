// Generated from crates/langtag_text/src/replacement.rt. Do not edit.

//! A range of a string that is replaced by a part, and the hyphen before that part.

#[cfg(feature = "alloc")]
use crate::shim::{try_string_with_capacity, AllocError, TryText};
#[cfg(feature = "alloc")]
use alloc::string::String;

/// A change of a tag's string, which `put_part` of langtag returns: the bytes to replace, and the
/// string that replaces them. Offsets are in bytes.
///
/// ```
/// # fn main() -> Result<(), Box<dyn std::error::Error>> {
/// use langtag::erased::tag::{NormalLangTag, Part, put_part};
///
/// let new = put_part(NormalLangTag::new("de-DE-1996")?, Part::Region(None));
/// assert_eq!((new.start, new.end, new.hyphen, new.part), (2, 5, "", ""));
/// # Ok(())
/// # }
/// ```
#[derive(Debug)]
pub struct Replacement<'a> {
    /// The offset of the first byte to replace: 2 in `de-x-a`, for a private use part.
    pub start: usize,
    /// The offset after the last byte to replace: 6 in `de-x-a`. It equals `start` if the tag has
    /// no such part.
    pub end: usize,
    /// The hyphen before the part. It is empty for a language, and if the part is removed.
    pub hyphen: &'static str,
    /// The string of the part, which is empty if the part is removed.
    pub part: &'a str,
}

/// Replaces the bytes of a string from `new.start` up to `new.end`.
///
/// If there are new bytes, the new string is complete before the old string is dropped. If there
/// are none, the old bytes are removed in place, without allocating.
#[cfg(feature = "alloc")]
#[inline]
pub fn replace(text: &mut String, new: Replacement<'_>) -> Result<(), AllocError> {
    if new.part.is_empty() {
        return text.try_replace_range(new.start..new.end, "");
    }
    *text = join(text.as_str(), new)?;
    Ok(())
}

/// Returns a new string in which these bytes are replaced. It allocates once, exactly the length of
/// the new string.
#[cfg(feature = "alloc")]
#[inline]
fn join(text: &str, new: Replacement<'_>) -> Result<String, AllocError> {
    let len = new.start + new.hyphen.len() + new.part.len() + (text.len() - new.end);
    let mut whole = try_string_with_capacity(len)?;
    whole.try_push_str(&text[..new.start])?;
    whole.try_push_str(new.hyphen)?;
    whole.try_push_str(new.part)?;
    whole.try_push_str(&text[new.end..])?;
    Ok(whole)
}
