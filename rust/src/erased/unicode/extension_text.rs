// Generated from crates/langtag_unicode/src/extension_text.rt. Do not edit.

//! The subtags of an extension of a tag, as one string.

use crate::erased::tag::{LangTag, Singleton};

/// Returns the subtags of the first extension with a singleton, joined by hyphens, or the empty
/// string if there is no such extension.
#[inline]
pub(crate) fn extension_text(tag: LangTag<'_>, singleton: Singleton) -> &str {
    tag.extensions()
        .get_singleton(singleton)
        .map_or("", |extension| &extension.as_str()[2..])
}

/// Returns the subtags of the first extension `u` of a tag, joined by hyphens.
#[inline]
pub(crate) fn unicode_text(tag: LangTag<'_>) -> &str {
    Singleton::new(b'u').map_or("", |singleton| extension_text(tag, singleton))
}
