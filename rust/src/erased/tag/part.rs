// Generated from crates/langtag/src/part.rt. Do not edit.

//! The parts of a normal tag (RFC 5646 section 2.1), and how a new part is put into the string of a
//! tag.

use crate::erased::extension::Extensions;
use crate::erased::language::Language;
use crate::erased::place::{Region, Script, Variants};
use crate::erased::private::PrivateUse;
use crate::erased::scan::Ends;
use crate::erased::tag::normal_lang_tag::NormalLangTag;
use crate::erased::text::{write_pieces, Replacement};

/// A part of a normal tag ([RFC 5646 section 2.1]), as an argument of [`put_part`].
///
/// `None`, [`Variants::EMPTY`] and [`Extensions::EMPTY`] mean that the part is absent, and remove
/// the old part. A language is never absent.
///
/// ```
/// # fn main() -> Result<(), Box<dyn std::error::Error>> {
/// use langtag::erased::tag::{Part, Script};
///
/// assert_eq!(Part::Script(Some(Script::new("Latn")?)).as_str(), "Latn");
/// assert_eq!(Part::Script(None).as_str(), "");
/// # Ok(())
/// # }
/// ```
///
/// [RFC 5646 section 2.1]: https://www.rfc-editor.org/rfc/rfc5646#section-2.1
#[derive(Clone, Copy, Debug)]
pub enum Part<'a> {
    /// The language, with its extended subtags (section 2.2.1): `zh-yue`.
    Language(Language<'a>),
    /// The script (section 2.2.3): `Latn`.
    Script(Option<Script<'a>>),
    /// The region (section 2.2.4): `419`.
    Region(Option<Region<'a>>),
    /// All variants (section 2.2.5): `rozaj-1994`.
    Variants(Variants<'a>),
    /// All extensions (section 2.2.6): `u-co-phonebk`.
    Extensions(Extensions<'a>),
    /// The private use part (section 2.2.7): `x-mine`.
    PrivateUse(Option<PrivateUse<'a>>),
}

/// Returns the change of a normal tag's string that sets this part (RFC 5646 sections 2.2.1 to
/// 2.2.7). It does not allocate. The caller joins the bytes before `start`, the hyphen, the part,
/// and the bytes from `end` on.
///
/// To put the region `AT` into `de-DE-1996`, replace the bytes from 2 to 5 by a hyphen and `AT`.
///
/// ```
/// # fn main() -> Result<(), Box<dyn std::error::Error>> {
/// use langtag::erased::tag::{NormalLangTag, Part, Region, put_part};
///
/// let region = Part::Region(Some(Region::new("AT")?));
/// let new = put_part(NormalLangTag::new("de-DE-1996")?, region);
/// assert_eq!((new.start, new.end, new.hyphen, new.part), (2, 5, "-", "AT"));
/// # Ok(())
/// # }
/// ```
#[inline]
#[must_use]
pub fn put_part<'a>(tag: NormalLangTag<'_>, part: Part<'a>) -> Replacement<'a> {
    part.replacement(&tag.ends())
}

/// Writes the string of a normal tag, changed as [`put_part`] says, to a buffer, and returns the
/// length of the string in bytes. If the buffer is too short, it stays unchanged, and the length
/// says how much room is needed. The function does not allocate.
#[inline]
pub fn write_part<'a>(tag: NormalLangTag<'a>, part: Part<'a>, buffer: &mut [u8]) -> usize {
    let text = tag.as_str().as_bytes();
    let new = put_part(tag, part);
    let hyphen: &'a [u8] = new.hyphen.as_bytes();
    let part = new.part.as_bytes();
    let pieces = [&text[..new.start], hyphen, part, &text[new.end..]];
    write_pieces(&pieces, buffer)
}

impl<'a> Part<'a> {
    /// Returns the string of the part. An absent part has the empty string.
    ///
    /// ```
    /// use langtag::erased::tag::{Part, Script};
    ///
    /// assert_eq!(Part::Script(Script::new("Latn").ok()).as_str(), "Latn");
    /// ```
    #[inline]
    #[must_use]
    pub fn as_str(&self) -> &'a str {
        match self {
            Part::Language(language) => language.as_str(),
            Part::Script(Some(script)) => script.as_str(),
            Part::Region(Some(region)) => region.as_str(),
            Part::Variants(variants) => variants.as_str(),
            Part::Extensions(extensions) => extensions.as_str(),
            Part::PrivateUse(Some(private_use)) => private_use.as_str(),
            Part::Script(None) | Part::Region(None) | Part::PrivateUse(None) => "",
        }
    }

    /// Returns the change of a string whose parts end at these offsets.
    #[inline]
    pub(crate) fn replacement(&self, ends: &Ends) -> Replacement<'a> {
        let part = self.as_str();
        let (start, end) = self.place(ends);
        Replacement {
            start,
            end,
            hyphen: self.hyphen_before(part),
            part,
        }
    }

    /// Returns where the previous part ends, and where this part ends.
    #[inline]
    fn place(&self, ends: &Ends) -> (usize, usize) {
        match self {
            Part::Language(_) => (0, ends.language),
            Part::Script(_) => (ends.language, ends.script),
            Part::Region(_) => (ends.script, ends.region),
            Part::Variants(_) => (ends.region, ends.variants),
            Part::Extensions(_) => (ends.variants, ends.extensions),
            Part::PrivateUse(_) => (ends.extensions, ends.whole),
        }
    }

    /// Returns the hyphen before the string of this part, or nothing for a language or an empty
    /// string.
    #[inline]
    fn hyphen_before(&self, text: &str) -> &'static str {
        if text.is_empty() || matches!(self, Part::Language(_)) {
            ""
        } else {
            "-"
        }
    }
}
