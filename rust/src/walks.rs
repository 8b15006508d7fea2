//! Traits of lists and iterators that Rust programs expect: `for` over a list, and iterators that
//! keep returning `None` at their end.
use core::iter::FusedIterator;

use crate::erased::tag::*;
use crate::matching::{Fallbacks, WantedRanges};

/// Lets `for` walk through a type that has `iter`.
macro_rules! walked {
    ($($(#[$feature:meta])? $list:ty: $walk:ident of $item:ident;)+) => {$(
        $(#[$feature])?
        impl<'a> IntoIterator for $list {
            type Item = $item<'a>;
            type IntoIter = $walk<'a>;

            #[inline]
            fn into_iter(self) -> $walk<'a> {
                self.iter()
            }
        }
    )+};
}

macro_rules! listed {
    ($($list:ident, $owned:ident: $walk:ident of $item:ident;)+) => {$(
        walked! {
            $list<'a>: $walk of $item;
            &$list<'a>: $walk of $item;
            #[cfg(feature = "alloc")] &'a $owned: $walk of $item;
        }

        impl FusedIterator for $walk<'_> {}
    )+};
}

listed! {
    LanguageExtension, LanguageExtensionBuf: LanguageExtensionIter of ExtendedLangTag;
    Variants, VariantsBuf: VariantsIter of Variant;
    Extension, ExtensionBuf: ExtensionIter of ExtensionSubtag;
    Extensions, ExtensionsBuf: ExtensionsIter of Extension;
    PrivateUse, PrivateUseBuf: PrivateUseIter of PrivateUseSubtag;
}

impl FusedIterator for Subtags<'_> {}
impl FusedIterator for Fallbacks<'_> {}
impl FusedIterator for WantedRanges<'_> {}
#[cfg(feature = "data")]
impl FusedIterator for crate::unicode::AttributesIter<'_> {}
#[cfg(feature = "data")]
impl FusedIterator for crate::unicode::KeywordsIter<'_> {}
