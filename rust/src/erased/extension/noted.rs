// Generated from crates/langtag_extension/src/noted.rt. Do not edit.

//! Which singletons extensions have.

use crate::erased::extension::extension::Extension;
use crate::erased::extension::extensions::Extensions;
use crate::erased::scan::into_smallcase;

/// All singletons ([RFC 5646 section 2.2.6]) in order.
///
/// [RFC 5646 section 2.2.6]: https://www.rfc-editor.org/rfc/rfc5646#section-2.2.6
pub const SINGLETONS: [u8; 35] = *b"0123456789abcdefghijklmnopqrstuvwyz";

/// Returns, for each byte, whether it is the lowercase singleton of one of the extensions.
#[must_use]
pub fn singletons_of(extensions: Extensions<'_>) -> [bool; 256] {
    let mut present = [false; 256];
    for extension in extensions.iter() {
        present[usize::from(folded_singleton(extension))] = true;
    }
    present
}

/// Returns the singleton of an extension in lowercase.
#[inline]
#[must_use]
pub fn folded_singleton(extension: Extension<'_>) -> u8 {
    into_smallcase(extension.singleton().unwrap())
}
