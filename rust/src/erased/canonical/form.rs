// Generated from crates/langtag_canonical/src/form.rt. Do not edit.

//! How the canonical form of a tag is made (RFC 5646 section 4.5).

use crate::erased::canonical::canonical_language::is_canonical_language;
use crate::erased::canonical::canonical_variants::are_canonical_variants;
use crate::erased::canonical::extension_order::are_in_order;
use crate::erased::fields::{preferred_region, preferred_tag};
use crate::erased::place::Region;
use crate::erased::tag::{LangTag, NormalLangTag};

/// How the canonical form of a tag is made.
pub(crate) enum Form<'a> {
    /// The tag itself.
    Same,
    /// The Preferred-Value of the whole tag.
    Whole(LangTag<'static>),
    /// This tag with its parts in their canonical forms, or the Preferred-Value of the tag that
    /// these parts make up.
    Parts(NormalLangTag<'a>),
}

/// Returns how the canonical form of a tag is made. It is inlined, so that the `Form` is not
/// written to memory.
#[inline(always)]
pub(crate) fn form_of(tag: LangTag<'_>) -> Form<'_> {
    if let Some(preferred) = preferred_tag(tag) {
        return Form::Whole(preferred);
    }
    let Some(normal) = tag.as_normal() else {
        return Form::Same;
    };
    // Most tags are their own canonical form.
    if has_canonical_parts(normal) || tag.is_grandfathered() {
        return Form::Same;
    }
    Form::Parts(normal)
}

/// Returns whether all parts of a tag are in their canonical forms.
#[inline]
fn has_canonical_parts(tag: NormalLangTag<'_>) -> bool {
    is_canonical_language(tag.language())
        && is_canonical_region(tag.region())
        && are_canonical_variants(tag.variants())
        && are_in_order(tag.extensions())
}

/// Returns whether the region has no Preferred-Value.
#[inline]
fn is_canonical_region(region: Option<Region<'_>>) -> bool {
    region.is_none_or(|region| preferred_region(region).is_none())
}
