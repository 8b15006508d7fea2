//! The lists of tags and of ranges that Rust programs have: slices, arrays and vectors of tags,
//! owned tags and strings.
use crate::erased::tag::*;
use crate::matching::LanguageRange;

mod sealed {
    pub trait Sealed {}
}

/// An entry of a list of tags: [`LangTag`], `LangTagBuf`, `&str` or `String`.
///
/// A string is parsed each time it is compared with a range, and a string that is not a tag is
/// never chosen. If a program chooses from the same list again and again, it should parse the list
/// once.
pub trait TagEntry: sealed::Sealed {
    /// Returns the tag, or `None` if the entry is not a tag.
    fn tag(&self) -> Option<LangTag<'_>>;

    /// Returns the bytes of the entry.
    fn tag_bytes(&self) -> &[u8];
}

/// Implements `TagEntry` for a type.
macro_rules! entries {
    ($($(#[$feature:meta])? $entry:ty: $this:ident => $tag:expr;)+) => {$(
        $(#[$feature])?
        impl sealed::Sealed for $entry {}

        $(#[$feature])?
        impl TagEntry for $entry {
            #[inline]
            fn tag(&self) -> Option<LangTag<'_>> {
                let $this = self;
                $tag
            }

            #[inline]
            fn tag_bytes(&self) -> &[u8] {
                self.as_bytes()
            }
        }
    )+};
}

entries! {
    LangTag<'_>: this => Some(*this);
    &str: this => LangTag::new(this).ok();
    #[cfg(feature = "alloc")] LangTagBuf: this => Some(this.as_lang_tag());
    #[cfg(feature = "alloc")] alloc::string::String: this => LangTag::new(this).ok();
}

impl<E: TagEntry> sealed::Sealed for &E {}

impl<E: TagEntry> TagEntry for &E {
    #[inline]
    fn tag(&self) -> Option<LangTag<'_>> {
        (**self).tag()
    }

    #[inline]
    fn tag_bytes(&self) -> &[u8] {
        (**self).tag_bytes()
    }
}

#[cfg(feature = "data")]
mod of_tags {
    use super::TagEntry;
    use crate::choice::TagList;
    use crate::erased::choice::PreparedForm;
    use crate::LangTag;

    /// Implements `TagList` for a type whose indices lead to entries.
    macro_rules! of_entries {
        ($($(#[$feature:meta])? [$($generics:tt)*] $list:ty;)+) => {$(
            $(#[$feature])?
            impl<$($generics)*> TagList for $list {
                #[inline]
                fn count(&self) -> usize {
                    self.len()
                }

                #[inline]
                fn tag_at(&self, index: usize) -> Option<LangTag<'_>> {
                    self[index].tag()
                }

                #[inline]
                fn bytes_at(&self, index: usize) -> &[u8] {
                    self[index].tag_bytes()
                }
            }
        )+};
    }

    of_entries! {
        [E: TagEntry] [E];
        [E: TagEntry, const N: usize] [E; N];
        #[cfg(feature = "alloc")] [E: TagEntry] alloc::vec::Vec<E>;
    }

    impl<L: TagList + ?Sized> TagList for &L {
        #[inline]
        fn count(&self) -> usize {
            (**self).count()
        }

        #[inline]
        fn tag_at(&self, index: usize) -> Option<LangTag<'_>> {
            (**self).tag_at(index)
        }

        #[inline]
        fn bytes_at(&self, index: usize) -> &[u8] {
            (**self).bytes_at(index)
        }

        #[inline]
        fn form_at(&self, index: usize) -> Option<&PreparedForm> {
            (**self).form_at(index)
        }
    }
}

/// Language ranges in order of preference, of any type that contains a string. Strings that are not
/// language ranges are skipped.
#[derive(Debug)]
pub struct Ranges<'a, R>(pub(crate) &'a [R]);

impl<R> Clone for Ranges<'_, R> {
    #[inline]
    fn clone(&self) -> Self {
        *self
    }
}

impl<R> Copy for Ranges<'_, R> {}

impl<'a, R: AsRef<str>> Iterator for Ranges<'a, R> {
    type Item = LanguageRange<'a>;

    #[inline]
    fn next(&mut self) -> Option<LanguageRange<'a>> {
        while let Some((first, rest)) = self.0.split_first() {
            self.0 = rest;
            if let Ok(range) = LanguageRange::new(first.as_ref()) {
                return Some(range);
            }
        }
        None
    }
}

#[cfg(feature = "data")]
mod of_ranges {
    use super::Ranges;
    use crate::erased::choice::RangeList as Split;
    use crate::erased::range::listed_range;
    use crate::matching::{WantedRange, WeightedRange};

    /// A list of language ranges for which a tag is chosen: a slice, an array or a `Vec` of strings,
    /// ranges or tags, in order of preference; a `&str` that is an `Accept-Language` header; or an
    /// `AcceptLanguage`.
    ///
    /// ```
    /// use langtag::choice::best_for_ranges;
    /// # #[cfg(feature = "alloc")]
    /// use langtag::matching::AcceptLanguage;
    ///
    /// let site = ["en", "nb"];
    /// assert_eq!(best_for_ranges(&["nn", "de"], &site), Some(1));
    /// assert_eq!(best_for_ranges("de;q=0.5, nn", &site), Some(1));
    /// # #[cfg(feature = "alloc")]
    /// assert_eq!(best_for_ranges(&AcceptLanguage::lenient("nn, de;q=0.5"), &site), Some(1));
    /// ```
    pub trait RangeList<'a> {
        /// What the proved functions walk through.
        #[doc(hidden)]
        type Split: Split<'a>;

        #[doc(hidden)]
        fn split(self) -> Self::Split;
    }

    impl<'a, R: AsRef<str>> Split<'a> for Ranges<'a, R> {
        #[inline]
        fn split_range(self) -> Option<(WantedRange<'a>, Self)> {
            let mut rest = self.0;
            while let Some((first, others)) = rest.split_first() {
                rest = others;
                if let Some(wanted) = listed_range(first.as_ref().as_bytes()) {
                    return Some((wanted, Ranges(rest)));
                }
            }
            None
        }
    }

    /// Implements `RangeList` for a type.
    macro_rules! range_lists {
        ($($(#[$feature:meta])? [$($generics:tt)*] $list:ty: $this:ident => $split:expr, $of:ty;)+) => {$(
            $(#[$feature])?
            impl<'a, $($generics)*> RangeList<'a> for &'a $list {
                type Split = $of;

                #[inline]
                fn split(self) -> $of {
                    let $this = self;
                    $split
                }
            }
        )+};
    }

    range_lists! {
        [] str: header => header.as_bytes(), &'a [u8];
        [R: AsRef<str>] [R]: list => Ranges(list), Ranges<'a, R>;
        [R: AsRef<str>, const N: usize] [R; N]: list => Ranges(list), Ranges<'a, R>;
        [] [WeightedRange<'a>]: list => list, Self;
        #[cfg(feature = "alloc")] [] alloc::string::String: header => header.as_bytes(), &'a [u8];
        #[cfg(feature = "alloc")] [R: AsRef<str>] alloc::vec::Vec<R>: list => Ranges(list), Ranges<'a, R>;
        #[cfg(feature = "alloc")] [] crate::matching::AcceptLanguage<'a>: accepted => accepted.ranges(), &'a [WeightedRange<'a>];
    }
}

#[cfg(feature = "data")]
pub use of_ranges::RangeList;
