// Generated from crates/langtag/src/recognised.rt. Do not edit.

//! What a tag stores about its text.

use crate::erased::scan::Ends;
use crate::erased::tag::grandfathered::GrandfatheredLangTag;

/// The kind of a tag ([RFC 5646 section 2.1]), with what was found in its text, so that no call has
/// to parse the string again.
///
/// [RFC 5646 section 2.1]: https://www.rfc-editor.org/rfc/rfc5646#section-2.1
#[derive(Clone, Copy)]
pub(crate) enum Recognised {
    /// A normal tag, and where its parts end.
    Normal(Ends),
    /// A private-use tag.
    PrivateUse,
    /// An irregular grandfathered tag.
    Irregular(GrandfatheredLangTag),
}

impl Recognised {
    /// Returns whether this is a normal tag.
    #[inline]
    pub(crate) const fn is_normal(&self) -> bool {
        matches!(self, Recognised::Normal(_))
    }

    /// Returns whether this is a private-use tag.
    #[inline]
    pub(crate) const fn is_private_use(&self) -> bool {
        matches!(self, Recognised::PrivateUse)
    }

    /// Returns where the parts of a normal tag end, or `None` for a tag of another kind.
    #[inline]
    pub(crate) fn ends(&self) -> Option<Ends> {
        match self {
            Recognised::Normal(ends) => Some(*ends),
            _ => None,
        }
    }
}
