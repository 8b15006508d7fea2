//! Tags of every kind, borrowed and owned: how they are displayed, stored and converted.
#![cfg(all(feature = "alloc", feature = "data"))]
use langtag::*;

fn normal(text: &str) -> NormalLangTag<'_> {
    NormalLangTag::new(text).unwrap()
}

#[test]
fn refused_edits_are_shown() {
    let shown = [EditError::NotNormal, EditError::Memory(AllocError)].map(|it| it.to_string());
    assert_eq!(shown, ["not a normal language tag", "out of memory"]);
}

/// Normal tags of each shape, with and without optional parts.
const NORMAL: &str = "fr zh-hakka art-LOJBAN en-Latn-GB-boont-r-extended-sequence-x-private";

#[test]
fn normal_tags_are_tags() {
    for text in NORMAL.split(' ') {
        let tag = normal(text);
        for other in [tag.as_lang_tag(), LangTag::from(tag)] {
            assert_eq!((other.as_str(), other.kind()), (text, Kind::Normal));
        }
        let kept = tag.try_to_owned().unwrap().into_lang_tag();
        assert_eq!(kept.as_str(), text);
        let again = kept.into_normal().unwrap();
        assert_eq!(again.as_normal_lang_tag().ends(), tag.ends(), "{text}");
        assert_eq!(LangTagBuf::from(again).as_str(), text);
    }
}

#[test]
fn tags_of_other_kinds_are_tags() {
    let part = PrivateUse::new("X-fr-CH").unwrap();
    let tag = LangTag::from(part);
    assert_eq!((tag.as_str(), tag.kind()), ("X-fr-CH", Kind::PrivateUse));
    assert_eq!(tag.as_private_use(), Some(part));
    assert!(tag.private_use().is_none() && tag.language().is_none());
    for grandfathered in GRANDFATHERED {
        let tag = grandfathered.as_lang_tag();
        assert_eq!(tag.as_str(), grandfathered.as_str());
        assert!(tag.is_grandfathered());
        assert_eq!(tag.as_grandfathered(), Some(grandfathered));
    }
    let kept = LangTagBuf::from(PrivateUseBuf::new("X-fr-CH".into()).unwrap());
    assert_eq!(kept.as_lang_tag().kind(), Kind::PrivateUse);
    assert_eq!(kept.into_string(), "X-fr-CH");
}

/// Languages of each length.
const LANGUAGES: &str = "\
    zh SRP abcd abcde abcdefgh zh-yue zho-YUE zh-min-nan zho-min-nan zh-abc-def-ghi zho-abc-def-ghi";

/// Scripts and regions, each empty if it is absent, and their text after a language.
const PLACES: [(&str, &str, &str); 6] = [
    ("", "", ""),
    ("", "HK", "-HK"),
    ("", "419", "-419"),
    ("latn", "", "-latn"),
    ("Hant", "TW", "-Hant-TW"),
    ("Latn", "001", "-Latn-001"),
];

#[test]
fn a_tag_is_made_of_its_parts() {
    for language in LANGUAGES.split(' ') {
        for (script, region, end) in PLACES {
            let made = NormalLangTagBuf::from_parts(
                Language::new(language).unwrap(),
                Script::new(script).ok(),
                Region::new(region).ok(),
            );
            let text = format!("{language}{end}");
            assert_eq!(made.as_str(), text);
            assert_eq!(made.as_normal_lang_tag().ends(), normal(&text).ends());
            assert_eq!(made.into_string().capacity(), text.len());
        }
    }
}
