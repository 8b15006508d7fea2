// Generated from crates/langtag_scan/src/caseless.rt. Do not edit.

//! Strings that compare without regard to the case of ASCII letters (RFC 5646 section 2.1.1).

use crate::erased::scan::case::{case_insensitive_cmp, case_insensitive_eq, case_insensitive_hash};
use crate::shim::AsStr;
use core::cmp::Ordering;
use core::hash::{Hash, Hasher};

/// A string, borrowed (`&str`) or owned (`String`), whose comparisons and hash ignore the case of
/// ASCII letters ([RFC 5646 section 2.1.1]): `Caseless("zh-Latn") == Caseless("ZH-LATN")`.
///
/// The string keeps its case. The string types of the other crates contain a `Caseless`, from which
/// they derive `PartialEq`, `Eq`, `PartialOrd`, `Ord` and `Hash`.
///
/// [RFC 5646 section 2.1.1]: https://www.rfc-editor.org/rfc/rfc5646#section-2.1.1
#[derive(Clone, Copy)]
pub struct Caseless<T>(pub T);

impl<T: AsStr> Caseless<T> {
    /// Returns the bytes of the string.
    #[inline]
    fn as_bytes(&self) -> &[u8] {
        self.0.as_str().as_bytes()
    }
}

impl<T: AsStr> PartialEq for Caseless<T> {
    #[inline]
    fn eq(&self, other: &Self) -> bool {
        case_insensitive_eq(self.as_bytes(), other.as_bytes())
    }
}

impl<T: AsStr> Eq for Caseless<T> {}

impl<T: AsStr> Ord for Caseless<T> {
    #[inline]
    fn cmp(&self, other: &Self) -> Ordering {
        case_insensitive_cmp(self.as_bytes(), other.as_bytes())
    }
}

impl<T: AsStr> PartialOrd for Caseless<T> {
    #[inline]
    fn partial_cmp(&self, other: &Self) -> Option<Ordering> {
        Some(self.cmp(other))
    }
}

impl<T: AsStr> Hash for Caseless<T> {
    #[inline]
    fn hash<H: Hasher>(&self, state: &mut H) {
        case_insensitive_hash(self.as_bytes(), state);
    }
}
