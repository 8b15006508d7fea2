//! The names of oxilangtag.
#![cfg(feature = "oxilangtag")]
use std::borrow::Cow;
use std::collections::HashMap;

use langtag::oxilangtag::LanguageTag;

#[test]
fn parts() {
    let tag = LanguageTag::parse("zh-cmn-Hans-CN-rozaj-u-co-phonebk-a-bb-x-a-b").unwrap();
    assert_eq!(tag.primary_language(), "zh");
    assert_eq!(tag.extended_language(), Some("cmn"));
    assert_eq!(tag.full_language(), "zh-cmn");
    assert!(tag.extended_language_subtags().eq(["cmn"]));
    assert_eq!(tag.script(), Some("Hans"));
    assert_eq!(tag.region(), Some("CN"));
    assert_eq!(tag.variant(), Some("rozaj"));
    assert!(tag.variant_subtags().eq(["rozaj"]));
    assert_eq!(tag.extension(), Some("u-co-phonebk-a-bb"));
    let extensions = [('u', "co-phonebk"), ('a', "bb")];
    assert!(tag.extension_subtags().eq(extensions));
    assert_eq!(tag.private_use(), Some("x-a-b"));
    assert!(tag.private_use_subtags().eq(["a", "b"]));
}

/// A grandfathered tag has no parts. A private-use tag is only a private-use part.
#[test]
fn whole_tags() {
    for text in ["i-klingon", "zh-min-nan", "art-lojban", "X-fr-CH"] {
        let tag = LanguageTag::parse(text).unwrap();
        let whole = [tag.primary_language(), tag.full_language(), tag.as_str()];
        assert_eq!(whole, [text; 3]);
        let places = [tag.extended_language(), tag.script(), tag.region()];
        assert_eq!(places, [None; 3]);
        assert_eq!((tag.variant(), tag.extension()), (None, None));
        assert_eq!(tag.private_use(), text.starts_with('X').then_some(text));
    }
    let tag = LanguageTag::parse("x-a-b").unwrap();
    assert!(tag.private_use_subtags().eq(["a", "b"]));
}

/// As in oxilangtag, case counts, so a map can be searched with a `str`.
#[test]
fn texts() {
    let tag: LanguageTag<String> = "EN-us".parse().unwrap();
    assert_eq!(tag, "en-US");
    let normalized = LanguageTag::parse_and_normalize("zh-hant-tw-X-A").unwrap();
    assert_eq!(normalized.into_inner(), "zh-Hant-TW-x-a");
    let [large, small] = ["EN", "en"].map(|text| LanguageTag::parse(text).unwrap());
    assert_ne!(large, small);
    let map = HashMap::from([(tag, 1)]);
    assert_eq!((map.get("en-US"), map.get("EN-us")), (Some(&1), None));
    let cow: LanguageTag<Cow<str>> = LanguageTag::parse("de-CH").unwrap().into();
    assert_eq!(LanguageTag::<String>::from(cow).region(), Some("CH"));
    let error = LanguageTag::parse("zh_Hant").unwrap_err().to_string();
    assert_eq!(
        error,
        "invalid language tag, of which the first 2 bytes can begin one"
    );
}

#[test]
fn long_parts_order_and_refusals() {
    let text = format!("de-x-{}", ["abcdefgh"; 30].join("-"));
    let long = LanguageTag::parse(text.as_str()).unwrap();
    assert_eq!(long.primary_language(), "de");
    assert_eq!(long.private_use(), Some(&text[3..]));
    assert!(LanguageTag::parse("a1").is_err());
    let [a, b] = ["de", "en"].map(|text| LanguageTag::parse(text).unwrap());
    assert!(a < b && a.cmp(&b).is_lt());
    let error = LanguageTag::parse_and_normalize("de-419-DE").unwrap_err();
    let same = LanguageTag::parse("de-419-DE").unwrap_err();
    assert_eq!(error.to_string(), same.to_string());
}
