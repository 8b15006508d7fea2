//! Tags that rustc checks when it compiles a program.
use crate::erased::scan::{is_primary, is_region, is_script};
use crate::erased::tag::recognise_text::recognise_bytes;
use crate::{LangTag, PrimaryLanguage, Region, Script};

/// Returns a [`LangTag`] that rustc has checked: a string that is not a tag is an error of rustc.
///
/// ```
/// use langtag::langtag;
///
/// assert_eq!(langtag!("zh-Hant").script().unwrap(), "Hant");
/// ```
#[macro_export]
macro_rules! langtag {
    ($text:expr) => {
        const { $crate::LangTag::from_static($text) }
    };
}

impl LangTag<'static> {
    /// The tag `und`, for an undetermined language.
    ///
    /// It is the default.
    ///
    /// ```
    /// use langtag::LangTag;
    ///
    /// assert_eq!(LangTag::UND.as_str(), "und");
    /// assert_eq!(LangTag::default(), LangTag::UND);
    /// ```
    pub const UND: LangTag<'static> = LangTag::from_static("und");

    /// Returns a tag for a `const` or a `static`.
    ///
    /// ```
    /// use langtag::LangTag;
    ///
    /// static SITE: [LangTag; 2] = [LangTag::from_static("en"), LangTag::from_static("zh-Hant")];
    /// assert_eq!(SITE[1].script().unwrap(), "Hant");
    /// ```
    ///
    /// # Panics
    ///
    /// Panics if the string is not a tag. In a `const` or a `static`, that is an error of rustc:
    ///
    /// ```compile_fail
    /// const FR: langtag::LangTag = langtag::LangTag::from_static("fr_FR");
    /// ```
    #[must_use]
    pub const fn from_static(text: &'static str) -> LangTag<'static> {
        match recognise_bytes(text.as_bytes()) {
            Some(found) => LangTag::with_found(text, found),
            None => panic!("not a language tag"),
        }
    }
}

/// Writes `from_static` of a part, which `$is_part` recognises.
macro_rules! constant {
    ($($part:ident by $is_part:ident, $what:literal, $example:literal;)+) => {$(
        impl $part<'static> {
            #[doc = concat!("Returns ", $what, " for a `const` or a `static`.")]
            ///
            /// ```
            #[doc = concat!("use langtag::", stringify!($part), ";")]
            ///
            #[doc = concat!("const PART: ", stringify!($part), " = ", stringify!($part), "::from_static(\"", $example, "\");")]
            #[doc = concat!("assert_eq!(PART, ", stringify!($part), "::new(\"", $example, "\").unwrap());")]
            /// ```
            ///
            /// # Panics
            ///
            #[doc = concat!("Panics if the string is not ", $what, ". In a `const` or a `static`, that is an error of rustc.")]
            #[must_use]
            pub const fn from_static(text: &'static str) -> $part<'static> {
                if !$is_part(text.as_bytes()) {
                    panic!(concat!("not ", $what));
                }
                $part::from_checked(text)
            }
        }
    )+};
}

constant! {
    PrimaryLanguage by is_primary, "a primary language", "de";
    Script by is_script, "a script", "Hant";
    Region by is_region, "a region", "419";
}
