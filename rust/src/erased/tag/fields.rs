// Generated from crates/langtag/src/fields.rt. Do not edit.

//! The script and the region of a tag as strings, which are empty if the tag has none.

use crate::erased::place::{Region, Script};

/// Returns the string of a script, or the empty string if there is none.
#[inline]
#[must_use]
pub fn script_field(script: Option<Script<'_>>) -> &[u8] {
    match script {
        Some(script) => script.as_bytes(),
        None => b"",
    }
}

/// Returns the string of a region, or the empty string if there is none.
#[inline]
#[must_use]
pub fn region_field(region: Option<Region<'_>>) -> &[u8] {
    match region {
        Some(region) => region.as_bytes(),
        None => b"",
    }
}
