// Generated from crates/langtag_choice/src/prepared_form.rt. Do not edit.

//! What is kept of a tag that is prepared.

use crate::erased::choice::first_letters::first_two;
use crate::erased::choice::likely_region::unlikely_form;
use crate::erased::choice::range_language::RangeLanguage;
use crate::erased::choice::wish::Wish;
use crate::erased::cldr::{language_number, matching_form, TagFields};
use crate::erased::scan::{case_insensitive_eq, is_primary, is_region, is_script};

/// What the choice computes of a tag: the fields of its matching form, the number of its language,
/// and its first letters. It has no reference to the tag, so that it can be stored and copied as
/// plain bytes.
///
/// Nothing is kept of a tag that has no language, or a language of more than three letters: the
/// choice reads such a tag each time.
#[repr(C)]
#[derive(Clone, Copy)]
pub struct PreparedForm {
    /// The number of the language, or 0 if nothing is kept.
    number: u16,
    /// The first two letters of the tag, in lowercase.
    letters: [u8; 2],
    // Each field of the matching form. Zeros fill it up to three or four bytes.
    language: [u8; 3],
    /// How unlikely the region of the form is.
    unlikely: u8,
    script: [u8; 4],
    region: [u8; 4],
}

impl PreparedForm {
    /// Computes what the choice compares, from a tag.
    #[must_use]
    pub fn of(tag: &[u8]) -> PreparedForm {
        match (matching_form(tag), first_two(tag)) {
            (Some(form), Some(letters)) => PreparedForm::with(form, letters),
            _ => PreparedForm::empty(),
        }
    }

    fn empty() -> PreparedForm {
        PreparedForm {
            number: 0,
            letters: [0, 0],
            language: [0, 0, 0],
            unlikely: 2,
            script: [0, 0, 0, 0],
            region: [0, 0, 0, 0],
        }
    }

    /// Keeps a matching form and the first letters of its tag.
    fn with(form: TagFields<'_>, letters: (u8, u8)) -> PreparedForm {
        if form.language.len() > 3 {
            return PreparedForm::empty();
        }
        PreparedForm {
            number: language_number(form.language) as u16,
            letters: [letters.0, letters.1],
            language: filled_language(form.language),
            unlikely: unlikely_form(form),
            script: filled(form.script),
            region: filled(form.region),
        }
    }

    /// Returns whether this was prepared for a tag, or for another tag with the same matching form
    /// and first letters.
    #[must_use]
    pub fn is_for(&self, tag: &[u8]) -> bool {
        match (matching_form(tag), first_two(tag)) {
            (Some(form), Some(letters)) => self.keeps(form, letters),
            _ => self.number == 0,
        }
    }

    /// Returns whether nothing is kept, or this matching form and these first letters of its tag.
    #[inline]
    fn keeps(&self, form: TagFields<'_>, letters: (u8, u8)) -> bool {
        self.number == 0 || (self.has_head(form, letters) && self.has_fields(form))
    }

    /// Returns whether the number of the language, and the first two letters of the tag, are these.
    fn has_head(&self, form: TagFields<'_>, letters: (u8, u8)) -> bool {
        form.language.len() <= 3
            && language_number(form.language) == u32::from(self.number)
            && (letters.0 == self.letters[0] && letters.1 == self.letters[1])
    }

    /// Returns whether the fields are these, and the form is as unlikely as this.
    fn has_fields(&self, form: TagFields<'_>) -> bool {
        (are_equal(language_name(&self.language), form.language)
            && (are_equal(name(&self.script), form.script)
                && are_equal(name(&self.region), form.region)))
            && unlikely_form(form) == self.unlikely
    }

    /// Returns the matching form, or `None` if nothing is kept.
    #[inline]
    pub(crate) fn form(&self) -> Option<TagFields<'_>> {
        if self.number == 0 {
            return None;
        }
        match (
            language_in(&self.language),
            script_in(&self.script),
            region_in(&self.region),
        ) {
            (Some(language), Some(script), Some(region)) => Some(TagFields {
                language,
                script,
                region,
            }),
            _ => None,
        }
    }

    /// Returns how unlikely the region of the form is, or `None` if nothing is kept.
    #[inline]
    pub(crate) fn unlikely(&self) -> Option<u8> {
        if self.number == 0 {
            return None;
        }
        Some(self.unlikely)
    }

    /// Returns whether the language of the tag is that of a range.
    #[inline]
    pub(crate) fn has_language_of(&self, wish: &Wish<'_>) -> bool {
        wish.language
            .is_some_and(|own| self.number != 0 && own.number == u32::from(self.number))
    }

    /// Returns whether the region of the tag is not that of a range.
    pub(crate) fn has_other_region(&self, wish: &Wish<'_>) -> bool {
        wish.form.is_some_and(|form| {
            self.number != 0 && !case_insensitive_eq(form.region, name(&self.region))
        })
    }

    /// Returns whether the first letters and the language of the tag show that it cannot serve a
    /// range with this language. A loop over tags passes its own copy of the language, so that it
    /// stays in registers.
    #[inline]
    pub(crate) fn is_far_from(&self, wish: &Wish<'_>, own: &Option<RangeLanguage>) -> bool {
        if self.number == 0 || self.number >= 32768 {
            return false;
        }
        let letters = (self.letters[0], self.letters[1]);
        wish.is_far_from_language(own, letters, u32::from(self.number))
    }
}

/// Returns a language with zeros that fill it up to three bytes.
fn filled_language(language: &[u8]) -> [u8; 3] {
    match language {
        [first, second] => [*first, *second, 0],
        [first, second, third] => [*first, *second, *third],
        _ => [0, 0, 0],
    }
}

/// Returns a language without the zeros that fill it up.
fn language_name(field: &[u8; 3]) -> &[u8] {
    if field[1] == 0 {
        return b"";
    }
    if field[2] == 0 {
        &field[..2]
    } else {
        &field[..3]
    }
}

/// Returns a field with zeros that fill it up to four bytes.
fn filled(field: &[u8]) -> [u8; 4] {
    match field {
        [first, second] => [*first, *second, 0, 0],
        [first, second, third] => [*first, *second, *third, 0],
        [first, second, third, fourth] => [*first, *second, *third, *fourth],
        _ => [0, 0, 0, 0],
    }
}

/// Returns a field without the zeros that fill it up.
fn name(field: &[u8; 4]) -> &[u8] {
    if field[1] == 0 {
        return b"";
    }
    if field[2] == 0 {
        return &field[..2];
    }
    if field[3] == 0 {
        &field[..3]
    } else {
        &field[..4]
    }
}

/// Returns whether two strings are equal. For short strings `==` takes longer, and would need
/// `bcmp` of the C library.
fn are_equal(a: &[u8], b: &[u8]) -> bool {
    if a.len() != b.len() {
        return false;
    }
    for index in 0..a.len() {
        if a[index] != b[index] {
            return false;
        }
    }
    true
}

/// Returns the language in a field, unless it is malformed.
fn language_in(field: &[u8; 3]) -> Option<&[u8]> {
    let language = language_name(field);
    if is_primary(language) || language.is_empty() {
        Some(language)
    } else {
        None
    }
}

/// Returns the script in a field, unless it is malformed.
fn script_in(field: &[u8; 4]) -> Option<&[u8]> {
    let script = name(field);
    if is_script(script) || script.is_empty() {
        Some(script)
    } else {
        None
    }
}

/// Returns the region in a field, unless it is malformed.
fn region_in(field: &[u8; 4]) -> Option<&[u8]> {
    let region = name(field);
    if is_region(region) || region.is_empty() {
        Some(region)
    } else {
        None
    }
}
