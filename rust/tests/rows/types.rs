//! Calls of the text types.
use std::fmt::{self, Write};

use langtag::matching::{LanguageRange, LanguageRangeBuf};
use langtag::scan::*;
use langtag::*;

use crate::reader::{list, word};

/// Counts the pieces that are written to it.
struct Pieces(usize);

impl Write for Pieces {
    fn write_str(&mut self, _: &str) -> fmt::Result {
        self.0 += 1;
        Ok(())
    }
}

/// Returns the number of pieces in which `Display` writes a value.
fn pieces_of(value: &impl fmt::Display) -> usize {
    let mut pieces = Pieces(0);
    write!(pieces, "{value}").unwrap();
    pieces.0
}

/// Returns a message without the refused text, which follows it.
fn before_text(message: &str, text: &str) -> String {
    let (what, rest) = message.split_once(" `").expect("the message has the text");
    let begin: String = text.chars().take(80).collect();
    assert!(
        rest.starts_with(&begin) || text.contains(|c: char| !c.is_ascii_graphic()),
        "{message}"
    );
    what.into()
}

/// Makes both forms of a type from a text, by all constructors and conversions. Returns `accepted`, or the message of
/// the error.
macro_rules! seen {
    ($name:ident, $owned:ident, $lend:ident, $text:ident) => {{
        let text: &str = $text;
        let owned = $owned::new(text.to_owned());
        assert_eq!($name::try_from(text), $name::new(text));
        assert_eq!($name::try_from(text.as_bytes()).is_ok(), owned.is_ok());
        assert_eq!(text.parse::<$owned>(), owned);
        assert_eq!($owned::try_from(text), owned);
        assert_eq!($owned::try_from(text.to_owned()), owned);
        match ($name::new(text), owned) {
            (Ok(lent), Ok(owned)) => {
                assert_eq!((lent.as_str(), owned.as_str()), (text, text));
                assert_eq!((pieces_of(&lent), pieces_of(&owned)), (1, 1));
                assert_eq!(format!("{lent}{owned}"), format!("{text}{text}"));
                assert_eq!(format!("{lent:?}{owned:?}"), format!("{text:?}{text:?}"));
                let copy = lent.try_to_owned().unwrap();
                for other in [lent.to_owned(), copy, owned.clone(), lent.into()] {
                    assert_eq!((&other, other.$lend()), (&owned, lent));
                    assert_eq!(other.into_string().capacity(), text.len());
                }
                let upper = text.to_ascii_uppercase();
                assert!(lent == upper.as_str() && lent == *upper && lent.eq_str(&upper));
                assert!(upper == owned && *upper == owned && owned == upper);
                assert!(owned == lent && lent == $name::from(&owned));
                assert_eq!((&*lent, owned.as_ref()), (text, text.as_bytes()));
                assert_eq!(owned.into_string(), text);
                "accepted".to_owned()
            }
            (Err(lent), Err(owned)) => {
                assert_eq!((lent.0, &*owned.0), (text, text));
                assert_eq!(lent.to_string(), owned.to_string());
                assert_eq!(lent.into_owned(), owned);
                let shown = format!("Invalid{}({text:?})", stringify!($name));
                assert_eq!(format!("{lent:?}"), shown);
                before_text(&lent.to_string(), text)
            }
            (lent, owned) => format!("{lent:?}, and {owned:?}"),
        }
    }};
}

macro_rules! types {
    ($($name:ident $owned:ident $lend:ident;)+) => {
        /// The text types.
        const TYPES: &[&str] = &[$(stringify!($name)),+];

        /// Returns `accepted` if a type accepts a text, or otherwise the message of the error.
        pub fn new(name: &str, text: &str) -> String {
            match name {
                $(stringify!($name) => seen!($name, $owned, $lend, text),)+
                "Singleton" => singleton(text),
                _ => panic!("no type: {name}"),
            }
        }
    };
}

types! {
    PrimaryLanguage PrimaryLanguageBuf as_primary_language;
    ExtendedLangTag ExtendedLangTagBuf as_extended_lang_tag;
    LanguageExtension LanguageExtensionBuf as_language_extension;
    Language LanguageBuf as_language;
    Script ScriptBuf as_script;
    Region RegionBuf as_region;
    Variant VariantBuf as_variant;
    Variants VariantsBuf as_variants;
    ExtensionSubtag ExtensionSubtagBuf as_extension_subtag;
    Extension ExtensionBuf as_extension;
    Extensions ExtensionsBuf as_extensions;
    PrivateUseSubtag PrivateUseSubtagBuf as_private_use_subtag;
    PrivateUse PrivateUseBuf as_private_use;
    NormalLangTag NormalLangTagBuf as_normal_lang_tag;
    LangTag LangTagBuf as_lang_tag;
    LanguageRange LanguageRangeBuf as_language_range;
}

/// Returns how a singleton is displayed, or the message of the error.
fn singleton(text: &str) -> String {
    match Singleton::from_string(text) {
        Ok(singleton) => {
            assert_eq!(pieces_of(&singleton), 1);
            assert!(singleton == text.as_bytes()[0] && char::from(singleton) == singleton);
            assert_eq!(format!("{singleton:?}"), format!("'{singleton}'"));
            let byte = singleton.unwrap();
            format!("{singleton} Singleton \\x7b byte: {byte} \\x7d")
        }
        Err(refusal) => {
            assert_eq!(refusal.0, text);
            refusal.to_string()
        }
    }
}

/// Returns the types that accept a text, without the type of ranges, which accepts many texts that are not a part of a tag.
pub fn types(text: &str) -> String {
    let parts = TYPES.iter().copied().filter(|it| *it != "LanguageRange");
    let accepted = parts.filter(|name| new(name, text) == "accepted");
    let grandfathered = GrandfatheredLangTag::new(text.as_bytes()).is_ok();
    list(accepted.chain(grandfathered.then_some("GrandfatheredLangTag")))
}

pub fn fronts(name: &str, text: &str) -> String {
    let accepted =
        (0..=text.len()).filter(|len| new(name, text.get(..*len).unwrap_or("")) == "accepted");
    accepted.count().to_string()
}

/// Returns the name of a grandfathered tag, its registered spelling, and its language.
pub fn spelling(text: &str) -> String {
    let tag = match GrandfatheredLangTag::try_from(text.as_bytes()) {
        Ok(tag) => tag,
        Err(refusal) => {
            assert_eq!(refusal.0, text.as_bytes());
            return before_text(&refusal.to_string(), text);
        }
    };
    assert_eq!(LangTag::new(text).unwrap().as_grandfathered(), Some(tag));
    assert_eq!(LangTag::new(text).unwrap(), LangTag::from(tag));
    assert_eq!(pieces_of(&tag), 1);
    format!("{tag:?} {tag} {}", word(tag.language()))
}

pub fn extension(singleton: &str, text: &str) -> String {
    let (Ok(singleton), Ok(extensions)) =
        (Singleton::from_string(singleton), Extensions::new(text))
    else {
        return "refused".into();
    };
    let subtags = extensions.iter_extension(singleton);
    let mut found = vec![word(extensions.get(singleton))];
    found.extend(subtags.map(|subtag| subtag.to_string()));
    found.join(" ")
}

pub fn class(bytes: &[u8]) -> String {
    let classes = [
        (is_primary(bytes), "primary"),
        (is_extended(bytes), "extended"),
        (is_script(bytes), "script"),
        (is_region(bytes), "region"),
        (is_variant(bytes), "variant"),
        (is_extension_subtag(bytes), "extension"),
        (is_private_subtag(bytes), "private"),
        (matches!(bytes, [byte] if is_singleton(*byte)), "singleton"),
        (matches!(bytes, [byte] if is_mark(*byte)), "mark"),
    ];
    list(classes.into_iter().filter(|it| it.0).map(|it| it.1))
}
