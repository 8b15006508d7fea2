//! What programmers write who know Rust and not this crate. Most of it compiles, and does what it says. These guesses do not compile, because
//! Rust does not allow them, or because they would be wrong:
//!
//! - `LangTag::new(text)?` in a function that returns `Box<dyn Error>`: the error borrows the string. Write `text.parse::<LangTagBuf>()?`,
//!   or `map_err(InvalidLangTag::into_owned)`.
//! - `LangTag::new` in a `const`: the recogniser calls a trait. Write `from_static` or `langtag!`. Rust 1.85 cannot cut a `str` in a `const`,
//!   so the parts of a constant tag are not constant.
//! - `tag.language() == Some("de")`: Rust compares only options of one type. Write `is_some_and(|language| language == "de")`.
//! - `set_script(Some("Latn"))`: a string may be no script, and with a generic argument `set_script(None)` would not compile.
//! - `text.parse::<LangTag>()`: `FromStr` cannot return a value that borrows. Write `LangTag::new(text)`.
//! - `from_parts(..)?`: its arguments are parts that are already checked, so it returns the tag.
//! - `tag.parents()` without `alloc`: the parent of `zh-TW` is `zh-Hant`, which is no slice of it. `likely::write_parent` does not allocate.
//! - `Cow<LangTag>`, `Arc<LangTag>`, `impl AsRef<LangTag>`: a `LangTag` is a value, and an owned tag contains none to borrow.
//! - `tag.subtags().map(|it| it.as_str())`: a subtag is a `&str`, because subtags of all types follow each other.
//! - `map.get("en")` and `map.get(&tag)`: a `str` is hashed with its case. Write `map.get("en".caseless())`.
//! - `tag.primary_language()`: only normal tags have one. Write `tag.language().map(|language| language.primary())`.
//! - `error.offset()`: a program may make an error without one. Write `error.refusal()`, which has `start` and `end`.
//! - `maximize`, `canonicalize`, `is_rtl`, `ancestors`, `choice::choose`: a call has one name, and rustdoc finds it.
//! - a type `Locale`, a builder of tags, and descriptions of the registry: a `LangTag` is read and set directly, and `names` has CLDR's names.
//!
//! These compile, and do something else: `tag.as_deref() == Some("EN-gb")` compares with the case, and the parent of `zh-Hant-TW` is `zh-TW`,
//! and then `zh-Hant` follows, because a catalogue may have the tag without its script.
#![cfg(all(feature = "alloc", feature = "data"))]
use std::borrow::Cow;
use std::rc::Rc;
use std::sync::Arc;

use langtag::choice::Site;
use langtag::*;

#[test]
fn conversions() {
    let tag = LangTag::new("de-CH").unwrap();
    let owned = tag.to_owned();
    let texts: [String; 3] = [tag.into(), (&owned).into(), owned.clone().into()];
    assert_eq!(texts, ["de-CH"; 3]);
    let boxes: [Box<str>; 2] = [tag.into(), owned.clone().into()];
    assert!(boxes.iter().all(|text| **text == *"de-CH"));
    let shared: (Rc<str>, Arc<str>) = (owned.clone().into(), owned.clone().into());
    assert_eq!((&*shared.0, &*shared.1), ("de-CH", "de-CH"));
    assert_eq!(Cow::from(owned.clone()), "de-CH");
    assert!([&owned].iter().all(|it| LangTag::from(it) == tag));
    assert_eq!(LangTagBuf::default(), LangTag::UND);
    assert_eq!(u8::from(Singleton::new(b'u').unwrap()), b'u');
    assert_eq!(NormalLangTag::try_from(tag).unwrap(), "de-CH");
    assert!(NormalLangTag::try_from(LangTag::new("x-mine").unwrap()).is_err());
}

/// A string of any type becomes an owned tag, and a refused one is returned.
#[test]
fn from_strings() {
    for text in ["de-CH", "de_CH"] {
        let cow: Result<LangTagBuf, _> = Cow::Borrowed(text).try_into();
        let boxed: Result<LangTagBuf, _> = Box::<str>::from(text).try_into();
        let refused = InvalidLangTag(String::from(text));
        let tag = LangTag::new(text).map(|tag| tag.to_owned());
        let tag = tag.map_err(InvalidLangTag::into_owned);
        assert!(cow == tag && boxed == tag && (tag.is_ok() || tag == Err(refused)));
    }
    for bytes in [&b"de-CH"[..], b"de_CH", b"de-\xff"] {
        let vec: Result<LangTagBuf, _> = bytes.to_vec().try_into();
        let slice: Result<LangTagBuf, _> = bytes.try_into();
        let tag = LangTag::from_bytes(bytes).map(|tag| tag.to_owned());
        let tag = tag.map_err(|_| InvalidLangTag(bytes.to_vec()));
        assert!(vec == tag && slice == tag);
    }
}

#[test]
fn sites() {
    let tags: Vec<LangTagBuf> = vec!["en".parse().unwrap(), "de".parse().unwrap()];
    let site: Site<LangTagBuf> = tags.iter().cloned().collect();
    assert_eq!((site.len(), site.is_empty()), (2, false));
    assert_eq!(site.tags(), Site::from(tags).tags());
    let found = site.match_for_ranges(&["tlh", "gsw"]).unwrap();
    let shown = r#"BestMatch { index: 1, range: b"gsw", place: 1, distance: 8 }"#;
    assert_eq!(format!("{found:?}"), shown);
    let wanted = matching::wanted_ranges("gsw;q=0.5").next().unwrap();
    let shown = r#"WantedRange { bytes: b"gsw", weight: 500 }"#;
    assert_eq!(format!("{wanted:?}"), shown);
}
