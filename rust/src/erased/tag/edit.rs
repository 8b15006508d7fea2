// Generated from crates/langtag/src/edit.rt. Do not edit.

//! How a part of a tag's string is set, and where the parts of the new string end.

use crate::erased::scan::Ends;
use crate::erased::tag::lengths::Lengths;
use crate::erased::tag::part::Part;
use crate::erased::text::replace;
use crate::shim::AllocError;
use alloc::string::String;

/// Sets or removes a part in the string of a normal tag whose parts end at these offsets. Returns
/// where the parts of the new string end, without parsing it.
#[inline]
pub(crate) fn set_part(text: &mut String, ends: Ends, part: Part<'_>) -> Result<Ends, AllocError> {
    let new = part.replacement(&ends);
    let len = new.hyphen.len() + new.part.len();
    replace(text, new)?;
    Ok(Lengths::of(ends).with(&part, len).ends())
}
