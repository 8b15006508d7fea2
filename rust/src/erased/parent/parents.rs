// Generated from crates/langtag_parent/src/parents.rt. Do not edit.

//! A tag and its parents. Tests show that no tag stands twice in a chain
//! (rust/tests/rows/likely.rs). A proof would have to compare each pair of members by their
//! records. `zh-Hans-CN` leads to `zh-Hans` before `zh`, as in CLDR's own chains; ICU4X's data have
//! no `zh-Hans`.

use crate::erased::likely::marked_region;
use crate::erased::parent::base::Base;
use crate::erased::parent::parent_base::parent_of;
use crate::erased::parent::parent_tag::ParentTag;
use crate::erased::parent::scripts::{has_likely_script, named, short};
use crate::erased::scan::segment_start;
use crate::erased::tag::{LangTag, NormalLangTag};

/// An iterator over a tag and its parents, the nearest first. `es-rUS`, as Android writes `es-US`,
/// is followed by `es-US` and its parents.
///
/// ```
/// # fn main() -> Result<(), Box<dyn std::error::Error>> {
/// use langtag::erased::tag::LangTag;
/// use langtag::erased::parent::Parents;
///
/// assert_eq!(Parents::new(LangTag::new("pt-AO")?).count(), 3); // `pt-AO`, `pt-PT` and `pt`
/// # Ok(())
/// # }
/// ```
#[derive(Clone, Debug)]
pub struct Parents<'a> {
    // A tag that comes before all others, or the empty string.
    written: &'a [u8],
    // A tag that comes before those of `base`.
    pending: Option<ParentTag<'a>>,
    base: Option<Base<'a>>,
    // The first tag, whose script is named again before its language alone.
    tag: Base<'a>,
    // What stands after the region of the next tag, with the hyphen before it.
    rest: &'a [u8],
    // The variants of the first tag, with the hyphen before them.
    variants: &'a [u8],
}

impl<'a> Parents<'a> {
    /// Returns an iterator that starts at the tag itself.
    #[must_use]
    pub fn new(tag: LangTag<'a>) -> Self {
        match tag.as_normal() {
            Some(tag) => Parents::of_normal(tag),
            None => Parents {
                written: tag.as_str().as_bytes(),
                pending: None,
                base: None,
                tag: Base {
                    language: b"und",
                    script: b"",
                    region: b"",
                },
                rest: b"",
                variants: b"",
            },
        }
    }

    /// Returns an iterator that starts at a normal tag.
    fn of_normal(tag: NormalLangTag<'a>) -> Self {
        let marked = marked_region(tag);
        let base = Base::of(tag, marked);
        let rest = after_region(tag);
        Parents {
            written: as_written(tag, marked),
            pending: given_form(base, rest),
            base: Some(short(base)),
            tag: base,
            rest,
            variants: after_region(tag.base()),
        }
    }
}

impl<'a> Iterator for Parents<'a> {
    type Item = ParentTag<'a>;

    fn next(&mut self) -> Option<ParentTag<'a>> {
        if !self.written.is_empty() {
            let written = self.written;
            self.written = b"";
            return Some(ParentTag::whole(written));
        }
        if let Some(pending) = self.pending {
            self.pending = None;
            return Some(pending);
        }
        let base = self.base?;
        let rest = self.rest;
        (self.base, self.rest) = following(base, rest, self.variants);
        let base = named(base, self.tag);
        self.pending = short_form(base, rest);
        Some(ParentTag::new(base, rest))
    }
}

/// Returns the tag as it is written if Android's mark stands before its region, and otherwise the
/// empty string.
#[inline]
fn as_written<'a>(tag: NormalLangTag<'a>, marked: &[u8]) -> &'a [u8] {
    if marked.is_empty() {
        b""
    } else {
        tag.as_str().as_bytes()
    }
}

/// Returns the tag of a base with a region, if its script is likely anyway.
#[inline]
fn given_form<'a>(base: Base<'a>, rest: &'a [u8]) -> Option<ParentTag<'a>> {
    if has_likely_script(base) && !base.region.is_empty() {
        Some(ParentTag::new(base, rest))
    } else {
        None
    }
}

/// Returns the tag of a base without its script, if this script is likely anyway.
#[inline]
fn short_form<'a>(base: Base<'a>, rest: &'a [u8]) -> Option<ParentTag<'a>> {
    if has_likely_script(base) {
        Some(ParentTag::new(short(base), rest))
    } else {
        None
    }
}

/// Returns the base of the next tag, and what stands after its region: the same base with less
/// after it, or the parent of the base with all variants.
#[inline]
fn following<'a>(
    base: Base<'a>,
    rest: &'a [u8],
    variants: &'a [u8],
) -> (Option<Base<'a>>, &'a [u8]) {
    match shortened(rest, variants) {
        Some(shorter) => (Some(base), shorter),
        None => (parent_of(short(base)), variants),
    }
}

/// Returns what stands after the region of the next tag of the same language, script and region:
/// without extensions and private use, and then without the last variant. Returns `None` if nothing
/// stands there.
#[inline]
fn shortened<'a>(rest: &'a [u8], variants: &'a [u8]) -> Option<&'a [u8]> {
    if variants.len() < rest.len() {
        return Some(variants);
    }
    without_last(rest)
}

/// Returns a string without its last subtag and the hyphen before it.
#[inline]
fn without_last(text: &[u8]) -> Option<&[u8]> {
    let (shorter, _) = split_last(text);
    shorter
}

/// Returns the string before the last hyphen and the string after it. If there is no hyphen,
/// returns `None` and the whole string.
fn split_last(text: &[u8]) -> (Option<&[u8]>, &[u8]) {
    let start = segment_start(text, text.len());
    if start == 0 {
        return (None, text);
    }
    (Some(&text[..start - 1]), &text[start..])
}

/// Returns what stands after the region of a tag, with the hyphen before it.
#[inline]
fn after_region(tag: NormalLangTag<'_>) -> &[u8] {
    let text = tag.as_str();
    &text.as_bytes()[tag.ends().region..]
}
