// Generated from crates/langtag_registry/src/invalid_subtag.rt. Do not edit.

//! What makes a well-formed tag invalid (RFC 5646 section 2.2.9).

use crate::erased::extension::Singleton;
use crate::erased::language::{ExtendedLangTag, PrimaryLanguage};
use crate::erased::place::{Region, Script, Variant};
use core::fmt;

/// The error for a tag that is not valid: the first subtag that is not registered, is a second
/// extended language, or repeats an earlier subtag.
///
/// The subtag is a slice of the tag, in its original case. Two values are equal if they have the
/// same kind and their subtags are equal.
///
/// ```
/// # fn main() -> Result<(), Box<dyn std::error::Error>> {
/// use langtag::erased::tag::LangTag;
/// use langtag::erased::registry::{InvalidSubtag, validate};
///
/// let fault = validate(LangTag::new("fr-FQ")?).err();
/// assert!(matches!(fault, Some(InvalidSubtag::Region(region)) if region.as_str() == "FQ"));
/// # Ok(())
/// # }
/// ```
#[derive(Clone, Copy, Debug, PartialEq, Eq, Hash)]
pub enum InvalidSubtag<'a> {
    /// A language that is not registered: `qt` in `qt-FR`.
    Language(PrimaryLanguage<'a>),
    /// An extended language that is not registered: `fra` in `zh-fra`.
    Extlang(ExtendedLangTag<'a>),
    /// A second extended language, which no valid tag has (section 2.2.2): `yue` in `zh-cmn-yue`.
    SecondExtlang(ExtendedLangTag<'a>),
    /// A script that is not registered: `Abcd` in `fr-Abcd`.
    Script(Script<'a>),
    /// A region that is not registered: `FQ` in `fr-FQ`.
    Region(Region<'a>),
    /// A variant that is not registered: `1997` in `de-1997`.
    Variant(Variant<'a>),
    /// A variant that equals an earlier one, ignoring case: the second `1996` in `de-1996-1996`.
    RepeatedVariant(Variant<'a>),
    /// A singleton that equals an earlier one, ignoring case: the `A` in `fr-a-bb-A-cc`.
    RepeatedSingleton(Singleton),
}

impl fmt::Display for InvalidSubtag<'_> {
    fn fmt(&self, f: &mut fmt::Formatter<'_>) -> fmt::Result {
        match self {
            InvalidSubtag::Language(value) => write!(f, "language {value} is not registered"),
            InvalidSubtag::Extlang(value) => {
                write!(f, "extended language {value} is not registered")
            }
            InvalidSubtag::SecondExtlang(value) => {
                write!(f, "extended language {value} is the second")
            }
            InvalidSubtag::Script(value) => write!(f, "script {value} is not registered"),
            InvalidSubtag::Region(value) => write!(f, "region {value} is not registered"),
            InvalidSubtag::Variant(value) => write!(f, "variant {value} is not registered"),
            InvalidSubtag::RepeatedVariant(value) => write!(f, "variant {value} is repeated"),
            InvalidSubtag::RepeatedSingleton(value) => write!(f, "singleton {value} is repeated"),
        }
    }
}

impl core::error::Error for InvalidSubtag<'_> {}
