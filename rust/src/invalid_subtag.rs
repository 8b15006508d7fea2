//! The error for a tag that is not valid: what is wrong, with which subtag, and where it is.
use core::fmt;

use crate::erased::likely::{suggested_language, suggested_region};
use crate::erased::registry::{fault_at, InvalidSubtag as Found};
use crate::LangTag;

/// What makes a subtag invalid. It is displayed as one word, such as `second-extlang`.
#[derive(Clone, Copy, Debug, PartialEq, Eq, PartialOrd, Ord, Hash)]
#[non_exhaustive]
pub enum Fault {
    /// A language that is not registered: `qt` in `qt-FR`.
    Language,
    /// An extended language that is not registered: `fra` in `zh-fra`.
    Extlang,
    /// A second extended language, which no valid tag has ([RFC 5646 section 2.2.2]): `yue` in
    /// `zh-cmn-yue`.
    ///
    /// [RFC 5646 section 2.2.2]: https://www.rfc-editor.org/rfc/rfc5646#section-2.2.2
    SecondExtlang,
    /// A script that is not registered: `Abcd` in `fr-Abcd`.
    Script,
    /// A region that is not registered: `FQ` in `fr-FQ`.
    Region,
    /// A variant that is not registered: `1997` in `de-1997`.
    Variant,
    /// A variant that equals an earlier one, ignoring case: the second `1996` in `de-1996-1996`.
    RepeatedVariant,
    /// A singleton that equals an earlier one, ignoring case: the `A` in `fr-a-bb-A-cc`.
    RepeatedSingleton,
}

impl Fault {
    /// Returns the word for the fault, and for a message the words before and after the subtag.
    fn words(self) -> [&'static str; 3] {
        match self {
            Fault::Language => ["language", "language ", " is not registered"],
            Fault::Extlang => ["extlang", "extended language ", " is not registered"],
            Fault::SecondExtlang => ["second-extlang", "extended language ", " is the second"],
            Fault::Script => ["script", "script ", " is not registered"],
            Fault::Region => ["region", "region ", " is not registered"],
            Fault::Variant => ["variant", "variant ", " is not registered"],
            Fault::RepeatedVariant => ["repeated-variant", "variant ", " is repeated"],
            Fault::RepeatedSingleton => ["repeated-singleton", "singleton ", " is repeated"],
        }
    }
}

impl fmt::Display for Fault {
    fn fmt(&self, f: &mut fmt::Formatter<'_>) -> fmt::Result {
        f.pad(self.words()[0])
    }
}

/// The error for a tag that is not valid: its first subtag that is not registered, is a second
/// extended language, or repeats an earlier subtag. It has its own copy of the subtag, so it outlives
/// the tag.
///
/// ```
/// use langtag::registry::{validate, Fault};
/// use langtag::LangTag;
///
/// let error = validate(LangTag::new("sl-rozaj-rozaj")?).unwrap_err();
/// assert_eq!((error.fault(), error.subtag()), (Fault::RepeatedVariant, "rozaj"));
/// assert_eq!((error.start(), error.end()), (9, 14));
/// assert_eq!(error.to_string(), "variant rozaj is repeated");
/// # Ok::<(), Box<dyn std::error::Error>>(())
/// ```
#[derive(Clone, Copy, PartialEq, Eq, Hash)]
pub struct InvalidSubtag {
    fault: Fault,
    /// The subtag, and zeros after it.
    subtag: [u8; LONGEST],
    start: usize,
    end: usize,
}

/// The greatest length of a subtag (RFC 5646 section 2.1).
const LONGEST: usize = 8;

impl InvalidSubtag {
    /// Returns the error for a tag, or `None` if the tag is valid.
    #[inline]
    pub(crate) fn of(tag: LangTag<'_>) -> Option<Self> {
        let (found, index) = fault_at(tag)?;
        InvalidSubtag::found_in(tag, found, index)
    }

    /// Returns the error for a fault that was found. It is not inlined, so that a valid tag takes less
    /// time.
    #[cold]
    #[inline(never)]
    fn found_in(tag: LangTag<'_>, found: Found<'_>, index: usize) -> Option<Self> {
        let tag = tag.as_normal()?;
        let ends = tag.ends();
        let extlang = tag.language().primary().len() + 1;
        let variant = || ends.region + 1 + length(tag.variants().iter().take(index));
        let (fault, start) = match found {
            Found::Language(_) => (Fault::Language, 0),
            Found::Extlang(_) => (Fault::Extlang, extlang),
            Found::SecondExtlang(_) => (Fault::SecondExtlang, extlang + 4),
            Found::Script(_) => (Fault::Script, ends.language + 1),
            Found::Region(_) => (Fault::Region, ends.script + 1),
            Found::Variant(_) => (Fault::Variant, variant()),
            Found::RepeatedVariant(_) => (Fault::RepeatedVariant, variant()),
            Found::RepeatedSingleton(_) => {
                let before = length(tag.extensions().iter().take(index));
                (Fault::RepeatedSingleton, ends.variants + 1 + before)
            }
        };
        let text = tag.as_str()[start..].split('-').next()?;
        let mut subtag = [0; LONGEST];
        subtag[..text.len()].copy_from_slice(text.as_bytes());
        let end = start + text.len();
        Some(InvalidSubtag {
            fault,
            subtag,
            start,
            end,
        })
    }
}

/// Returns the number of bytes of some parts, each with the hyphen after it.
fn length(parts: impl Iterator<Item: AsRef<str>>) -> usize {
    parts.map(|part| part.as_ref().len() + 1).sum()
}

impl InvalidSubtag {
    /// Returns what is wrong with the subtag.
    #[must_use]
    pub fn fault(&self) -> Fault {
        self.fault
    }

    /// Returns the subtag, in its original case.
    #[must_use]
    pub fn subtag(&self) -> &str {
        core::str::from_utf8(&self.subtag[..self.end - self.start]).unwrap_or_default()
    }

    /// Returns where the subtag begins in the tag, in bytes.
    #[doc(alias = "offset")]
    #[must_use]
    pub fn start(&self) -> usize {
        self.start
    }

    /// Returns where the subtag ends in the tag, in bytes.
    #[must_use]
    pub fn end(&self) -> usize {
        self.end
    }

    /// Returns the registered code that is probably meant, or `None` if CLDR's aliases have none:
    /// `de` for the languages `deu` and `ger`, `GB` for the region `UK`. Only languages and regions
    /// have a suggestion.
    ///
    /// The message of the error ends with this code.
    ///
    /// ```
    /// use langtag::registry::validate;
    /// use langtag::LangTag;
    ///
    /// let error = validate(LangTag::new("ger-AT").unwrap()).unwrap_err();
    /// assert_eq!(error.suggestion(), Some("de"));
    /// assert_eq!(error.to_string(), "language ger is not registered: did you mean de?");
    /// ```
    #[must_use]
    pub fn suggestion(&self) -> Option<&'static str> {
        match self.fault {
            Fault::Language => suggested_language(self.subtag()),
            Fault::Region => suggested_region(self.subtag()),
            _ => None,
        }
    }
}

impl fmt::Debug for InvalidSubtag {
    fn fmt(&self, f: &mut fmt::Formatter<'_>) -> fmt::Result {
        let mut shown = f.debug_struct("InvalidSubtag");
        shown.field("fault", &self.fault);
        shown.field("subtag", &self.subtag());
        shown.field("start", &self.start).finish()
    }
}

impl fmt::Display for InvalidSubtag {
    fn fmt(&self, f: &mut fmt::Formatter<'_>) -> fmt::Result {
        // The strings are written as they are: `write!` would take twice the time.
        let [_, what, how] = self.fault.words();
        for words in [what, self.subtag(), how] {
            f.write_str(words)?;
        }
        let Some(code) = self.suggestion() else {
            return Ok(());
        };
        f.write_str(": did you mean ")?;
        f.write_str(code)?;
        f.write_str("?")
    }
}

impl core::error::Error for InvalidSubtag {}
