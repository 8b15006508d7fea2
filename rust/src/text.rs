//! What Rust programs expect of a type over a string: views of the string, conversions and
//! comparisons. Macros implement them for the fifteen types of a tag and its parts, and for
//! language ranges.
//!
//! `==` with a string ignores the case of ASCII letters, as `==` of two tags does. `Borrow<str>` is
//! not implemented, since a `str` is hashed with its case. A map is searched with
//! [`CaselessText`](crate::CaselessText).
use core::ops::Deref;

use crate::erased::tag::*;
use crate::matching::{InvalidLanguageRange, LanguageRange};

macro_rules! borrowed {
    ($($name:ident, $owned:ident, $error:ident, $lend:ident, $what:literal;)+) => {$(
        viewed!($name<'_>);
        from!(['a] $name<'a> => &'a str: part => part.as_str());
        try_from!(['a] &'a str => $name<'a>, $error<&'a str>: text => $name::new(text));
        try_from!(['a] &'a [u8] => $name<'a>, $error<&'a [u8]>: bytes => {
            let text = core::str::from_utf8(bytes).map_err(|_| $error(bytes))?;
            $name::new(text).map_err(|_| $error(bytes))
        });
        compared!([] $name<'_>, str);
        compared!(['b] $name<'_>, &'b str);
    )+};
}

/// Implements the views of a type over a string.
macro_rules! viewed {
    ($name:ty) => {
        /// Gives access to the methods of `str`, such as `len` and `starts_with`. Unlike `==` of this
        /// type, `==` of a `str` is case-sensitive, and so is `==` of what `Option::as_deref` returns.
        impl Deref for $name {
            type Target = str;

            #[inline]
            fn deref(&self) -> &str {
                self.as_str()
            }
        }

        impl AsRef<str> for $name {
            #[inline]
            fn as_ref(&self) -> &str {
                self.as_str()
            }
        }

        impl AsRef<[u8]> for $name {
            #[inline]
            fn as_ref(&self) -> &[u8] {
                self.as_str().as_bytes()
            }
        }
    };
}

/// Implements `==` between a type over a string and a string, in both directions.
macro_rules! compared {
    ([$($lifetime:lifetime)?] $name:ty, $text:ty) => {
        impl$(<$lifetime>)? PartialEq<$text> for $name {
            #[inline]
            fn eq(&self, other: &$text) -> bool {
                case_insensitive_eq(self.as_str().as_bytes(), other.as_bytes())
            }
        }

        impl$(<$lifetime>)? PartialEq<$name> for $text {
            #[inline]
            fn eq(&self, other: &$name) -> bool {
                other == self
            }
        }
    };
}

for_text_types!(borrowed);

impl AsRef<str> for GrandfatheredLangTag {
    #[inline]
    fn as_ref(&self) -> &str {
        self.as_str()
    }
}

/// Implements `==` between a singleton and a byte or a character, in both directions.
macro_rules! compared_singleton {
    ($($other:ty),+) => {$(
        /// ```
        /// # use langtag::Singleton;
        /// assert!(Singleton::new(b'u').unwrap() == b'u');
        /// assert!('u' == Singleton::new(b'u').unwrap());
        /// ```
        impl PartialEq<$other> for Singleton {
            #[inline]
            fn eq(&self, other: &$other) -> bool {
                <$other>::from(*self) == *other
            }
        }

        impl PartialEq<Singleton> for $other {
            #[inline]
            fn eq(&self, other: &Singleton) -> bool {
                other == self
            }
        }
    )+};
}

compared_singleton!(u8, char);

#[cfg(feature = "alloc")]
mod owned {
    use alloc::borrow::Cow;
    use alloc::boxed::Box;
    use alloc::rc::Rc;
    use alloc::string::String;
    use alloc::vec::Vec;
    use core::cmp::Ordering;
    use core::ops::Deref;
    use core::str::FromStr;

    use crate::erased::tag::*;
    use crate::matching::{InvalidLanguageRange, LanguageRange, LanguageRangeBuf};
    use crate::memory::or_abort;

    macro_rules! owned {
        ($($name:ident, $owned:ident, $error:ident, $lend:ident, $what:literal;)+) => {$(
            impl $name<'_> {
                #[doc = concat!("Returns the owned form of the same text. It aborts if allocation fails, as `String` does; [`try_to_owned`](", stringify!($name), "::try_to_owned) returns an error instead.")]
                ///
                #[doc = concat!("This is not a method of the trait `ToOwned`, whose `to_owned` returns another `", stringify!($name), "`, as for every type that is `Clone`.")]
                #[must_use]
                #[inline]
                pub fn to_owned(&self) -> $owned {
                    or_abort(self.try_to_owned())
                }
            }

            impl Clone for $owned {
                #[inline]
                fn clone(&self) -> Self {
                    self.$lend().to_owned()
                }
            }

            viewed!($owned);

            impl FromStr for $owned {
                type Err = $error<String>;

                #[inline]
                fn from_str(text: &str) -> Result<Self, Self::Err> {
                    match $name::new(text) {
                        Ok(lent) => Ok(lent.to_owned()),
                        Err(error) => Err(error.into_owned()),
                    }
                }
            }

            try_from!([] &str => $owned, $error<String>: text => text.parse());
            try_from!([] String => $owned, $error<String>: text => $owned::new(text));
            try_from!([] Box<str> => $owned, $error<String>: text => $owned::new(text.into()));
            try_from!(['a] Cow<'a, str> => $owned, $error<String>: text => $owned::new(text.into()));
            try_from!([] Vec<u8> => $owned, $error<Vec<u8>>: bytes => {
                let text = String::from_utf8(bytes).map_err(|error| $error(error.into_bytes()))?;
                $owned::new(text).map_err(|error| $error(error.0.into_bytes()))
            });
            try_from!([] &[u8] => $owned, $error<Vec<u8>>: bytes => bytes.to_vec().try_into());

            from!(['a] $name<'a> => $owned: lent => lent.to_owned());
            from!(['a] &'a $owned => $name<'a>: owned => owned.$lend());
            from!(['a] $name<'a> => String: lent => lent.as_str().into());
            from!(['a] $name<'a> => Box<str>: lent => lent.as_str().into());
            from!([] &$owned => String: owned => owned.as_str().into());
            from!([] $owned => String: owned => owned.into_string());
            from!([] $owned => Box<str>: owned => owned.into_string().into());
            from!([] $owned => Rc<str>: owned => owned.into_string().into());
            #[cfg(target_has_atomic = "ptr")]
            from!([] $owned => alloc::sync::Arc<str>: owned => owned.into_string().into());
            from!(['a] $owned => Cow<'a, str>: owned => owned.into_string().into());

            impl PartialEq<$name<'_>> for $owned {
                #[inline]
                fn eq(&self, other: &$name<'_>) -> bool {
                    self.$lend() == *other
                }
            }

            impl PartialEq<$owned> for $name<'_> {
                #[inline]
                fn eq(&self, other: &$owned) -> bool {
                    *self == other.$lend()
                }
            }

            impl PartialOrd<$name<'_>> for $owned {
                #[inline]
                fn partial_cmp(&self, other: &$name<'_>) -> Option<Ordering> {
                    self.$lend().partial_cmp(other)
                }
            }

            impl PartialOrd<$owned> for $name<'_> {
                #[inline]
                fn partial_cmp(&self, other: &$owned) -> Option<Ordering> {
                    self.partial_cmp(&other.$lend())
                }
            }

            compared!([] $name<'_>, String);
            compared!(['b] $name<'_>, Cow<'b, str>);
            compared!([] $owned, str);
            compared!(['b] $owned, &'b str);
            compared!([] $owned, String);
            compared!(['b] $owned, Cow<'b, str>);
        )+};
    }

    for_text_types!(owned);

    impl FromStr for Singleton {
        type Err = InvalidSingleton<String>;

        #[inline]
        fn from_str(text: &str) -> Result<Self, Self::Err> {
            Singleton::from_string(text).map_err(|error| InvalidSingleton(error.0.into()))
        }
    }

    impl Default for VariantsBuf {
        #[inline]
        fn default() -> Self {
            Variants::EMPTY.to_owned()
        }
    }

    impl Default for ExtensionsBuf {
        #[inline]
        fn default() -> Self {
            Extensions::EMPTY.to_owned()
        }
    }
}
