// Generated from crates/langtag_choice/src/wish.rt. Do not edit.

//! A range that a tag can serve.

use crate::erased::choice::first_letters::{first_two, language_of};
use crate::erased::choice::range_language::RangeLanguage;
use crate::erased::choice::read_range::is_star;
use crate::erased::choice::variants::variant_count;
use crate::erased::cldr::{matching_form, TagFields};
use crate::erased::range::WantedRange;

/// A range other than `*`, its weight, which is not 0, and the number of ranges before it. The
/// matching form of the range is computed once for many tags, and so is its language.
#[derive(Clone, Copy)]
pub(crate) struct Wish<'a> {
    pub(crate) range: &'a [u8],
    pub(crate) weight: u32,
    pub(crate) place: usize,
    pub(crate) form: Option<TagFields<'a>>,
    pub(crate) language: Option<RangeLanguage>,
    /// The number of variants of the range.
    pub(crate) variants: usize,
}

impl<'a> Wish<'a> {
    /// Reads the range with `place` ranges before it, or returns `None` if it is `*` or has the
    /// weight 0.
    pub(crate) fn new(wanted: WantedRange<'a>, place: usize) -> Option<Wish<'a>> {
        if wanted.weight == 0 || is_star(wanted.bytes) {
            return None;
        }
        let form = matching_form(wanted.bytes);
        Some(Wish {
            range: wanted.bytes,
            weight: wanted.weight,
            place,
            form,
            language: RangeLanguage::of(wanted.bytes, form),
            variants: variant_count(wanted.bytes),
        })
    }

    /// Returns whether the first letters of a tag show that it cannot serve the range: the tag has
    /// a language of two or three letters with which the range does not begin, and which is not
    /// near the language of the range. If the range has no matching form, it is enough that the
    /// range does not begin with these letters.
    pub(crate) fn is_far_from(&self, tag: &[u8]) -> bool {
        let Some(letters) = first_two(tag) else {
            return false;
        };
        if self.form.is_none() {
            return self.is_far_without_form(letters);
        }
        language_of(tag)
            .is_some_and(|number| self.is_far_from_language(&self.language, letters, number))
    }

    /// Returns whether the range, which has no matching form, does not begin with these letters.
    /// Only a tag that equals the range, or that lookup finds, can serve such a range, and both
    /// begin as the range does.
    #[inline]
    fn is_far_without_form(&self, letters: (u8, u8)) -> bool {
        self.language.is_some_and(|own| letters != own.letters)
    }

    /// Returns whether a tag cannot serve the range, which has this language. The tag is given by
    /// its first letters and the number of its language: the range does not begin with these
    /// letters, and the languages are not near.
    #[inline]
    pub(crate) fn is_far_from_language(
        &self,
        own: &Option<RangeLanguage>,
        letters: (u8, u8),
        number: u32,
    ) -> bool {
        match own {
            Some(own) => own.is_far(number) && letters != own.letters,
            None => false,
        }
    }
}
