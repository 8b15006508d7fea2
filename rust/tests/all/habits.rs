//! What a Rust program typically does with tags: comparisons, sets, walks, and constants.
use std::collections::hash_map::DefaultHasher;
use std::collections::HashSet;
use std::hash::{Hash, Hasher};

use langtag::matching::LanguageRange;
use langtag::*;

fn tags<const N: usize>(texts: [&str; N]) -> [LangTag<'_>; N] {
    texts.map(|text| LangTag::new(text).unwrap())
}

fn hash(value: &(impl Hash + ?Sized)) -> u64 {
    let mut hasher = DefaultHasher::new();
    value.hash(&mut hasher);
    hasher.finish()
}

#[test]
fn texts_that_are_no_tags() {
    for bytes in [&b""[..], b" de", b"de-Latn-DE-1996_", b"\xff"] {
        assert_eq!(LangTag::try_from(bytes), Err(InvalidLangTag(bytes)));
        assert_eq!(LangTag::from_bytes(bytes), Err(InvalidLangTag(bytes)));
    }
    assert_eq!(InvalidLangTag("de").reason().to_string(), "it is a tag");
    assert!(InvalidLangTag("de").refusal().is_none());
}

#[test]
fn case_is_ignored() {
    assert_eq!(HashSet::from(tags(["zh-hant", "ZH-HANT"])).len(), 1);
    assert_eq!(LanguageRange::new("DE-*"), LanguageRange::new("de-*"));
    let [german, french] = tags(["de-U-co", "fr-u-CO"]);
    assert_eq!(german.extensions(), french.extensions());
}

/// A text with which a map is searched is compared, ordered and hashed like a tag.
#[test]
fn texts_without_case() {
    let tags = tags(["de-DE", "zh", "DE-de", "zh-Latn", "de"]);
    for (a, b) in tags.iter().flat_map(|a| tags.iter().map(move |b| (a, b))) {
        let (text, other) = (a.caseless(), b.caseless());
        assert_eq!(text == other, a == b);
        assert_eq!(text.cmp(other), a.cmp(b));
        assert_eq!(hash(text), hash(a));
    }
    assert_eq!("ZH".caseless().text(), "ZH");
    assert_eq!("ZH".caseless(), "zh".caseless());
    assert_eq!(format!("{:?}", "ZH".caseless()), "\"ZH\"");
}

#[test]
fn parts_that_are_lists() {
    let [tag] = tags(["de-1996-ab1cd-u-co-phonebk-A-bb-x-a"]);
    let (variants, extensions) = (tag.variants(), tag.extensions());
    assert!(variants.into_iter().eq(["1996", "ab1cd"]));
    assert!((&variants).into_iter().eq(["1996", "ab1cd"]));
    let named = extensions
        .iter()
        .map(|it| (char::from(it.singleton()), it.as_str()));
    assert!(named.eq([('u', "u-co-phonebk"), ('A', "A-bb")]));
    assert!(extensions.get(b'a').unwrap().iter().eq(["bb"]));
    assert!(extensions.iter_extension(b'U').eq(["co", "phonebk"]));
    let mut walked: Vec<String> = Vec::new();
    for extension in &extensions {
        walked.extend((&extension).into_iter().map(|subtag| subtag.to_string()));
    }
    assert_eq!(walked, ["co", "phonebk", "bb"]);
    assert!(tag.private_use().unwrap().into_iter().eq(["a"]));
}

#[test]
fn values_may_cross_threads() {
    fn is_send_and_sync<T: Send + Sync + 'static>() {}
    is_send_and_sync::<(LangTag, LanguageRange, InvalidLangTag<&str>)>();
}

/// A part of a `const` is refused if and only if `new` refuses it.
#[test]
fn constant_parts() {
    fn is_made<T>(part: fn(&'static str) -> T, text: &'static str) -> bool {
        std::panic::catch_unwind(|| part(text)).is_ok()
    }
    macro_rules! same {
        ($($part:ident),+: $text:ident) => {$(
            assert_eq!(is_made($part::from_static, $text), $part::new($text).is_ok());
        )+};
    }
    for text in "a de 9a 419 41a gsw 4191 La9n Latn abcdefgh abcdefghi é".split(' ') {
        same!(PrimaryLanguage, Script, Region: text);
    }
}

/// rustc knows the kind of a constant tag, its bytes and where its parts end.
#[test]
fn constant_tags() {
    const TAGS: [LangTag; 3] = [
        langtag!("sl-Latn-IT-rozaj-x-a"),
        langtag!("X-A"),
        langtag!("i-LUX"),
    ];
    const TYPED: [TypedLangTag; 3] = [TAGS[0].as_typed(), TAGS[1].as_typed(), TAGS[2].as_typed()];
    const KINDS: [Kind; 3] = [TYPED[0].kind(), TYPED[1].kind(), TYPED[2].kind()];
    const ENDS: Option<Ends> = match TYPED[0].as_normal() {
        Some(tag) => Some(tag.ends()),
        None => None,
    };
    const PRIVATE: &[u8] = match TYPED[1].as_private_use() {
        Some(tag) => tag.as_bytes(),
        None => &[],
    };
    const LUXEMBOURGISH: Option<GrandfatheredLangTag> = TYPED[2].as_grandfathered();
    const { assert!(TAGS[0].is_normal() && TAGS[1].is_private_use() && !TAGS[2].is_normal()) };
    assert_eq!(KINDS, tags(["sl", "x-a", "i-lux"]).map(|tag| tag.kind()));
    assert_eq!(
        ENDS,
        tags(["sl-Latn-IT-rozaj-x-a"])[0]
            .as_normal()
            .map(|tag| tag.ends())
    );
    assert_eq!(PRIVATE, b"X-A");
    assert_eq!(
        LUXEMBOURGISH.map(GrandfatheredLangTag::as_str),
        Some("i-lux")
    );
}
