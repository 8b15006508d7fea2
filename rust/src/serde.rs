//! Tags, their parts and kinds, and ranges as strings of serde: `Serialize` and `Deserialize`, in
//! lists, options and as keys of maps. The borrowed types are deserialized from a string that is borrowed
//! from the input.
//!
//! This module needs `cfg(feature = "serde")`. The manifest of a release declares that feature and
//! its dependency.
use alloc::string::String;
use core::fmt;

use ::serde::de::{Deserialize, Deserializer, Error, Visitor};
use ::serde::ser::{Serialize, Serializer};

use crate::erased::tag::*;
use crate::matching::{LanguageRange, LanguageRangeBuf};

macro_rules! strings {
    ($($name:ident, $owned:ident, $error:ident, $lend:ident, $what:literal;)+) => {$(
        const _: () = {
            impl Serialize for $name<'_> {
                fn serialize<S: Serializer>(&self, serializer: S) -> Result<S::Ok, S::Error> {
                    serializer.serialize_str(self.as_str())
                }
            }

            impl Serialize for $owned {
                fn serialize<S: Serializer>(&self, serializer: S) -> Result<S::Ok, S::Error> {
                    serializer.serialize_str(self.as_str())
                }
            }

            struct Borrowed;

            impl<'de> Visitor<'de> for Borrowed {
                type Value = $name<'de>;

                fn expecting(&self, f: &mut fmt::Formatter<'_>) -> fmt::Result {
                    f.write_str(concat!($what, ", borrowed from the input"))
                }

                fn visit_borrowed_str<E: Error>(self, text: &'de str) -> Result<Self::Value, E> {
                    $name::new(text).map_err(E::custom)
                }
            }

            impl<'de: 'a, 'a> Deserialize<'de> for $name<'a> {
                fn deserialize<D: Deserializer<'de>>(deserializer: D) -> Result<Self, D::Error> {
                    deserializer.deserialize_str(Borrowed)
                }
            }

            struct Owned;

            impl Visitor<'_> for Owned {
                type Value = $owned;

                fn expecting(&self, f: &mut fmt::Formatter<'_>) -> fmt::Result {
                    f.write_str($what)
                }

                fn visit_str<E: Error>(self, text: &str) -> Result<$owned, E> {
                    text.parse().map_err(E::custom)
                }

                fn visit_string<E: Error>(self, text: String) -> Result<$owned, E> {
                    $owned::new(text).map_err(E::custom)
                }
            }

            impl<'de> Deserialize<'de> for $owned {
                fn deserialize<D: Deserializer<'de>>(deserializer: D) -> Result<Self, D::Error> {
                    deserializer.deserialize_string(Owned)
                }
            }
        };
    )+};
}

for_text_types!(strings);

impl Serialize for Singleton {
    fn serialize<S: Serializer>(&self, serializer: S) -> Result<S::Ok, S::Error> {
        serializer.serialize_char((*self).into())
    }
}

impl<'de> Deserialize<'de> for Singleton {
    fn deserialize<D: Deserializer<'de>>(deserializer: D) -> Result<Self, D::Error> {
        let character = char::deserialize(deserializer)?;
        Singleton::try_from(character).map_err(D::Error::custom)
    }
}

impl Serialize for Kind {
    fn serialize<S: Serializer>(&self, serializer: S) -> Result<S::Ok, S::Error> {
        serializer.collect_str(self)
    }
}

impl<'de> Deserialize<'de> for Kind {
    fn deserialize<D: Deserializer<'de>>(deserializer: D) -> Result<Self, D::Error> {
        match &*String::deserialize(deserializer)? {
            "normal" => Ok(Kind::Normal),
            "private-use" => Ok(Kind::PrivateUse),
            "grandfathered" => Ok(Kind::Grandfathered),
            text => Err(D::Error::custom(format_args!(
                "`{text}` is not a kind of tags"
            ))),
        }
    }
}

#[cfg(feature = "oxilangtag")]
mod oxilangtag {
    use core::ops::Deref;

    use ::serde::de::{Deserialize, Deserializer, Error};
    use ::serde::ser::{Serialize, Serializer};

    use crate::oxilangtag::LanguageTag;

    impl<T: Deref<Target = str>> Serialize for LanguageTag<T> {
        fn serialize<S: Serializer>(&self, serializer: S) -> Result<S::Ok, S::Error> {
            serializer.serialize_str(self.as_str())
        }
    }

    impl<'de, T: Deref<Target = str> + Deserialize<'de>> Deserialize<'de> for LanguageTag<T> {
        fn deserialize<D: Deserializer<'de>>(deserializer: D) -> Result<Self, D::Error> {
            LanguageTag::parse(T::deserialize(deserializer)?).map_err(D::Error::custom)
        }
    }
}
