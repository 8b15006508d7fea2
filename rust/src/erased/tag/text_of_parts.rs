// Generated from crates/langtag/src/text_of_parts.rt. Do not edit.

//! The string of a language, a script and a region.

use crate::shim::{try_string_with_capacity, AllocError, TryText};
use alloc::string::String;

/// Returns a new string that consists of a language, a script and a region, joined by hyphens. It
/// first allocates `room` bytes. An empty script or region is left out.
#[inline]
pub(crate) fn join_parts(
    room: usize,
    language: &str,
    script: &str,
    region: &str,
) -> Result<String, AllocError> {
    let mut whole = try_string_with_capacity(room)?;
    whole.try_push_str(language)?;
    push_part(&mut whole, script)?;
    push_part(&mut whole, region)?;
    Ok(whole)
}

/// Appends a hyphen and a part to a string, or nothing if the part is empty.
#[inline]
fn push_part(text: &mut String, part: &str) -> Result<(), AllocError> {
    if part.is_empty() {
        return Ok(());
    }
    text.try_push_str("-")?;
    text.try_push_str(part)
}
