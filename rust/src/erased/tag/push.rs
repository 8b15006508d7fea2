// Generated from crates/langtag/src/push.rt. Do not edit.

//! Parts of a tag that are appended to an output.

use crate::erased::private::PrivateUse;
use crate::erased::text::Output;

/// Appends the private use part, if there is one.
#[inline]
pub fn push_private_use(out: &mut Output<'_>, private_use: Option<PrivateUse<'_>>) {
    if let Some(private_use) = private_use {
        out.push_subtag(private_use.as_bytes());
    }
}
