// Generated from crates/langtag/src/kind.rt. Do not edit.

//! The kinds of language tags.

/// The kind of a language tag: one of the three cases of the rule `Language-Tag` (RFC 5646 section
/// 2.1).
///
/// Comparisons and hashes use the position in this declaration.
///
/// ```
/// use langtag::Kind;
///
/// assert!(Kind::Normal.is_normal());
/// assert!(Kind::Normal < Kind::Grandfathered);
/// ```
#[derive(Clone, Copy, Debug, PartialEq, Eq, PartialOrd, Ord, Hash)]
pub enum Kind {
    /// A tag that is made of parts. The regular grandfathered tags are made of parts, too.
    Normal,
    /// A tag that consists of a private use part only (section 2.2.7).
    PrivateUse,
    /// An irregular grandfathered tag (section 2.2.8), which does not follow the grammar of other
    /// tags.
    Grandfathered,
}

impl Kind {
    /// Returns whether this is the kind of a tag that is made of parts.
    ///
    /// ```
    /// use langtag::Kind;
    ///
    /// assert!(Kind::Normal.is_normal());
    /// ```
    #[inline]
    #[must_use]
    pub const fn is_normal(self) -> bool {
        matches!(self, Kind::Normal)
    }

    /// Returns whether this is the kind of a private-use tag.
    ///
    /// ```
    /// use langtag::Kind;
    ///
    /// assert!(Kind::PrivateUse.is_private_use());
    /// ```
    #[inline]
    #[must_use]
    pub const fn is_private_use(self) -> bool {
        matches!(self, Kind::PrivateUse)
    }

    /// Returns whether this is the kind of an irregular grandfathered tag.
    ///
    /// ```
    /// use langtag::Kind;
    ///
    /// assert!(Kind::Grandfathered.is_grandfathered());
    /// ```
    #[inline]
    #[must_use]
    pub const fn is_grandfathered(self) -> bool {
        matches!(self, Kind::Grandfathered)
    }
}
