// Generated from crates/langtag_scan/src/found.rt. Do not edit.

//! What a recogniser found.

use crate::erased::scan::ends::Ends;
use crate::erased::scan::finding::Finding;

/// What [`recognise`](crate::scan::recognise) finds in a tag ([RFC 5646 section 2.1]): its kind,
/// with the ends of the parts of a normal tag, or the index of an irregular tag.
///
/// For `x-a`, `is_private_use()` is `true`. A `Found` does not contain the string.
///
/// ```
/// use langtag::scan::{Metered, recognise};
///
/// let found = recognise(&mut Metered::new("x-a"));
/// assert!(found.is_some_and(|found| found.is_private_use()));
/// ```
///
/// [RFC 5646 section 2.1]: https://www.rfc-editor.org/rfc/rfc5646#section-2.1
#[derive(Clone, Copy)]
pub struct Found {
    pub(crate) finding: Finding,
}

impl Found {
    /// Returns whether the string is a normal tag: `true` for `zh-min`, a regular grandfathered
    /// tag, and `false` for `i-lux` and `x-a`.
    ///
    /// ```
    /// use langtag::scan::{recognise, Metered};
    ///
    /// let found = recognise(&mut Metered::new("zh-min"));
    /// assert_eq!(found.map(|found| found.is_normal()), Some(true));
    /// ```
    #[inline]
    #[must_use]
    pub const fn is_normal(self) -> bool {
        matches!(self.finding, Finding::Normal(_))
    }

    /// Returns whether the string is a private-use tag (section 2.2.7): `true` for `x-a`, `false`
    /// for `fr-x-a`.
    ///
    /// ```
    /// use langtag::scan::{recognise, Metered};
    ///
    /// let found = recognise(&mut Metered::new("x-a"));
    /// assert_eq!(found.map(|found| found.is_private_use()), Some(true));
    /// ```
    #[inline]
    #[must_use]
    pub const fn is_private_use(self) -> bool {
        matches!(self.finding, Finding::PrivateUse)
    }

    /// Returns the index of an irregular grandfathered tag (section 2.2.8), from 0 to 16 in the
    /// order of section 2.1: `Some(1)` for `i-AMI`, and `None` for `zh-min`, a regular
    /// grandfathered tag.
    ///
    /// ```
    /// use langtag::scan::{recognise, Metered};
    ///
    /// let found = recognise(&mut Metered::new("i-AMI"));
    /// assert_eq!(found.and_then(|found| found.irregular()), Some(1));
    /// ```
    #[inline]
    #[must_use]
    pub const fn irregular(self) -> Option<usize> {
        match self.finding {
            Finding::Irregular(index) => Some(index),
            _ => None,
        }
    }

    /// Returns the ends of the parts of a normal tag (section 2.1): in `fr-FR`, the language and
    /// the absent script end at 2, and all other ends are 5. Returns `None` for `x-a`.
    ///
    /// ```
    /// use langtag::scan::{recognise, Metered};
    ///
    /// let ends = recognise(&mut Metered::new("fr-FR")).and_then(|found| found.ends());
    /// assert_eq!(ends.map(|ends| (ends.language, ends.script, ends.region)), Some((2, 2, 5)));
    /// assert_eq!(ends.map(|ends| (ends.variants, ends.extensions, ends.whole)), Some((5, 5, 5)));
    /// assert_eq!(recognise(&mut Metered::new("x-a")).and_then(|found| found.ends()), None);
    /// ```
    #[inline]
    #[must_use]
    pub const fn ends(self) -> Option<Ends> {
        match self.finding {
            Finding::Normal(ends) => Some(ends),
            _ => None,
        }
    }
}
