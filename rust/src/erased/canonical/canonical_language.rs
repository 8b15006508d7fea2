// Generated from crates/langtag_canonical/src/canonical_language.rt. Do not edit.

//! Whether a language with its extended subtags is its own canonical form (RFC 5646 section 4.5).

use crate::erased::fields::{is_registered_extlang, preferred_language};
use crate::erased::language::Language;

/// Returns whether a language is its own canonical form: `true` for `he`, `zh-fra` and
/// `zh-cmn-yue`, `false` for `iw`, `iw-fra` and `zh-yue`.
pub(crate) fn is_canonical_language(language: Language<'_>) -> bool {
    let mut extlangs = language.extension_subtags();
    let Some(extlang) = extlangs.next() else {
        return preferred_language(language.primary()).is_none();
    };
    let None = extlangs.next() else {
        return true;
    };
    if is_registered_extlang(extlang) {
        return false;
    }
    preferred_language(language.primary()).is_none()
}
