// Generated from crates/langtag_match/src/filter_rule.rt. Do not edit.

//! The two rules of filtering (RFC 4647 section 3.3).

use crate::erased::matching::language_range::LanguageRange;
use crate::erased::tag::LangTag;

/// The rule by which a range matches a tag.
#[derive(Clone, Copy, Debug)]
pub(crate) enum FilterRule {
    /// Basic filtering (section 3.3.1).
    Basic,
    /// Extended filtering (section 3.3.2).
    Extended,
}

impl FilterRule {
    /// Returns whether a range matches a tag by the rule.
    #[inline]
    pub(crate) fn matches(self, range: LanguageRange<'_>, tag: LangTag<'_>) -> bool {
        match self {
            FilterRule::Basic => range.is_basic_match(&tag),
            FilterRule::Extended => range.is_extended_match(&tag),
        }
    }
}
