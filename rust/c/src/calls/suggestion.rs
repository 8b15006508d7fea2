// Generated from crates/langtag_c/src/suggestion.rt. Do not edit.

//! What was probably meant by a subtag that is not registered.

use crate::erased::likely::{suggested_language, suggested_region};
use crate::erased::text::write_text;

/// Writes the registered code that is probably meant by a subtag that is not registered, and
/// returns its length, which is 2 or 3: de for the language deu or ger, GB for the region UK, US
/// for 840. `fault` is what `langtag_validity` returned, and `subtag` the invalid subtag.
///
/// ```c
/// langtag_span invalid;
/// uint32_t fault = langtag_validity("ger-AT", 6, &invalid);
/// char code[3];
/// size_t len = langtag_suggestion(fault, "ger-AT" + invalid.start, invalid.len, code, sizeof code);
/// if (len > 0) printf("did you mean %.*s?\n", (int)len, code); // did you mean de?
/// ```
///
/// The codes are from the aliases of Unicode's CLDR. Returns 0 and writes nothing if the aliases
/// have no code for the subtag, or more than one region, or if a script or a region comes with the
/// language. Also returns 0 if `fault` is neither `LANGTAG_INVALID_LANGUAGE` nor
/// `LANGTAG_INVALID_REGION`. If `buffer` is too short, nothing is written, and the result is the
/// size that is needed. No NUL is written.
#[inline]
pub fn langtag_suggestion(fault: u32, subtag: &[u8], buffer: &mut [u8]) -> usize {
    match suggested(fault, subtag) {
        Some(code) => write_text(code.as_bytes(), buffer),
        None => 0,
    }
}

/// Returns the code by which CLDR replaces a language, whose fault is 2, or a region, whose fault
/// is 6.
fn suggested(fault: u32, subtag: &[u8]) -> Option<&'static str> {
    let code = core::str::from_utf8(subtag).ok()?;
    match fault {
        2 => suggested_language(code),
        6 => suggested_region(code),
        _ => None,
    }
}
