//! Tags, parts and other values with one spelling are displayed like their text, also with a width, a fill and a precision.
use std::fmt::Display;

use langtag::matching::{ElementPart, LanguageRange};
use langtag::*;

/// Checks that a value is displayed as a text is.
fn shown(value: impl Display, text: &str) {
    assert_eq!(format!("{value}"), format!("{text}"));
    assert_eq!(format!("{value:3}|"), format!("{text:3}|"));
    assert_eq!(format!("{value:20}|"), format!("{text:20}|"));
    assert_eq!(format!("{value:>20}"), format!("{text:>20}"));
    assert_eq!(format!("{value:-^19}"), format!("{text:-^19}"));
    assert_eq!(format!("{value:·<20}"), format!("{text:·<20}"));
    assert_eq!(format!("{value:.1}"), format!("{text:.1}"));
    assert_eq!(format!("{value:#>9.4}"), format!("{text:#>9.4}"));
}

/// Writes the test of the borrowed and the owned form of each type.
macro_rules! shown {
    ($($name:ident $text:literal;)+) => {$(
        shown($name::new($text).unwrap(), $text);
        #[cfg(feature = "alloc")]
        shown($name::new($text).unwrap().to_owned(), $text);
    )+};
}

#[test]
fn as_texts() {
    shown! {
        PrimaryLanguage "zh";
        ExtendedLangTag "yue";
        LanguageExtension "yue-nan";
        Language "zh-yue";
        Script "Hant";
        Region "TW";
        Variant "1996";
        Variants "rozaj-1994";
        ExtensionSubtag "phonebk";
        Extension "u-co-phonebk";
        Extensions "a-bcd-u-co-phonebk";
        PrivateUseSubtag "mine";
        PrivateUse "x-mine";
        NormalLangTag "ZH-tw";
        LangTag "i-Klingon";
        LanguageRange "*-TW";
    }
    shown(GrandfatheredLangTag::IKlingon, "i-klingon");
    shown(Singleton::new(b'U').unwrap(), "U");
    shown(ElementPart::Range, "language range");
    shown(ElementPart::Weight, "weight");
}

#[test]
fn in_recommended_case() {
    for (text, wanted) in [
        ("zh-Hant-TW", "zh-Hant-TW"),
        ("ZH-hant-tw-X-MINE", "zh-Hant-TW-x-mine"),
        ("I-KLINGON", "i-klingon"),
    ] {
        shown(LangTag::new(text).unwrap().in_recommended_case(), wanted);
    }
}

#[test]
fn for_programmers() {
    let tag = LangTag::new("zh-TW").unwrap();
    let all = (tag, tag.to_owned(), tag.region(), Singleton::new(b'u'));
    let shown = r#"("zh-TW", "zh-TW", Some("TW"), Ok('u'))"#;
    assert_eq!(format!("{all:?}"), shown);
}
