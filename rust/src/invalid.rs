//! The errors for refused strings: they can be converted to own their text, and explained.
use crate::erased::tag::*;
use crate::matching::InvalidLanguageRange;
use crate::message::Reason;

macro_rules! errors {
    ($($name:ident, $owned:ident, $error:ident, $lend:ident, $what:literal;)+) => {$(
        #[cfg(feature = "alloc")]
        impl $error<&str> {
            /// Returns the same error with a copy of the string, so that it does not borrow the
            /// input.
            ///
            /// ```
            /// # use langtag::{matching::*, *};
            #[doc = concat!("let error = ", stringify!($name), "::new(\"_\").unwrap_err();")]
            /// assert_eq!(error.into_owned().0, "_");
            /// ```
            #[inline]
            #[must_use]
            pub fn into_owned(self) -> $error<alloc::string::String> {
                $error(self.0.into())
            }
        }

        #[cfg(feature = "alloc")]
        from!([] $error<&str> => $error<alloc::string::String>: error => error.into_owned());
    )+};
}

for_text_types!(errors);

impl<T: AsRef<[u8]>> InvalidLangTag<T> {
    /// Returns where the string is wrong.
    ///
    /// It is `None` only if a program made the error from a string that is a tag.
    ///
    /// ```
    /// use langtag::{LangTag, RefusalKind};
    ///
    /// let error = LangTag::new("de-419-DE").unwrap_err();
    /// let refusal = error.refusal().unwrap();
    /// assert_eq!(refusal.kind, RefusalKind::Subtag);
    /// assert_eq!(&error.0[refusal.start..refusal.end], "DE");
    /// ```
    #[doc(alias = "offset")]
    #[must_use]
    #[inline]
    pub fn refusal(&self) -> Option<Refusal> {
        Refusal::of(self.0.as_ref())
    }

    /// Returns the reason in words, as a value that can be displayed.
    ///
    /// The message of the error ends with it.
    ///
    /// ```
    /// use langtag::LangTag;
    ///
    /// let error = LangTag::new("de-419-DE").unwrap_err();
    /// assert_eq!(error.reason().to_string(), "unexpected subtag `DE`");
    /// ```
    #[inline]
    pub fn reason(&self) -> Reason<'_> {
        Reason(self.0.as_ref())
    }
}
