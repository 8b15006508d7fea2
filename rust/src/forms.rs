//! The methods of tags that a module computes, and the functions that write a form of a tag, such as
//! its canonical form, to a buffer.

/// Writes methods of a tag and of an owned tag.
#[cfg(feature = "data")]
macro_rules! methods {
    ($(
        $(#[$text:meta])+
        $tag:ident.$name:ident($($argument:ident: $type:ty)?) -> $result:ty $body:block
    )+) => {
        impl<'a> LangTag<'a> {$(
            $(#[$text])+
            #[must_use]
            pub fn $name(self $(, $argument: $type)?) -> $result {
                let $tag = self;
                $body
            }
        )+}

        #[cfg(feature = "alloc")]
        lent! { LangTagBuf: LangTag by as_lang_tag {
            $($(#[$text])+ $name of 'a ($($argument: $type)?) -> $result;)+
        } }
    };
}

/// Writes the function that writes a form to a buffer. `$what` is the form, and the last literals are
/// an example. If some tags have no form, `$or_none` says so.
#[cfg(feature = "data")]
macro_rules! writer {
    (
        $calls:ident in $module:ident: $write_form:ident of $form:literal -> $shown:ty, $written:ident;
        $what:literal $(, $or_none:literal)?; $tag:literal is $value:literal $(, $unwrap:literal)?
    ) => {
        #[doc = concat!("Writes ", $what, " to a buffer, as `", $form, "` returns it. Returns what was written", $($or_none,)? ".")]
        ///
        /// It does not allocate.
        ///
        /// # Errors
        ///
        /// Returns the length that is needed if the buffer is too short.
        ///
        /// ```
        #[doc = concat!("use langtag::", stringify!($module), "::", stringify!($write_form), ";")]
        /// use langtag::LangTag;
        ///
        #[doc = concat!("let tag = LangTag::new(\"", $tag, "\")?;")]
        #[doc = concat!("assert_eq!(", stringify!($write_form), "(tag, &mut [0; 32])?", $($unwrap,)? ", \"", $value, "\");")]
        /// # Ok::<(), Box<dyn std::error::Error>>(())
        /// ```
        pub fn $write_form<'a, 'b>(
            tag: impl Into<LangTag<'a>>,
            buffer: &'b mut [u8],
        ) -> Result<$shown, TooShort> {
            let len = $calls::$write_form(tag.into(), buffer);
            $written(buffer, len)
        }
    };
}
