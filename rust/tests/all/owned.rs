//! Tags that own their text, and errors that outlive the refused text.
#![cfg(all(feature = "alloc", feature = "data"))]
use std::borrow::Cow;
use std::collections::{BTreeMap, HashMap, HashSet};
use std::error::Error;

use langtag::likely::{from_posix, PosixError};
use langtag::matching::*;
use langtag::registry::validate;
use langtag::*;

fn owned(text: &str) -> LangTagBuf {
    text.parse().unwrap()
}

#[test]
fn keep_their_text() {
    let text = String::from("en-US");
    let place = text.as_ptr();
    let tag = LangTagBuf::new(text).unwrap();
    assert_eq!(tag.region().unwrap(), "US");
    let copy = tag.clone();
    assert_eq!(copy, tag);
    let (kept, copied) = (tag.into_string(), copy.into_string());
    assert!(kept.as_ptr() == place && copied.as_ptr() != place);
}

#[test]
fn are_found_by_what_owns_nothing() {
    let sorted = BTreeMap::from([(owned("en-US"), 1)]);
    for (text, found) in [("EN-us", Some(&1)), ("en", None), ("", None)] {
        assert_eq!(sorted.get(text.caseless()), found);
        assert_eq!(sorted.get(String::from(text).caseless()), found);
    }
    let borrowed = HashMap::from([(LangTag::new("de-CH").unwrap(), 2)]);
    assert_eq!(borrowed.get("DE-ch".caseless()), Some(&2));
    let scripts = BTreeMap::from([(ScriptBuf::try_from("Latn").unwrap(), 3)]);
    let script = Script::new("LATN").unwrap();
    assert_eq!(scripts.get(script.caseless()), Some(&3));
}

#[test]
fn are_compared_with_lent_ones() {
    let (small, large) = (owned("de-at"), LangTag::new("DE-AT").unwrap());
    assert_eq!(small, large);
    assert_eq!(large, small);
    assert!(small < LangTag::new("DE-CH").unwrap());
    assert!(LangTag::new("de-at").unwrap() < owned("DE-CH"));
    assert_eq!(owned("DE-at").into_string(), "DE-at");
    assert_ne!(InvalidLangTag("a b"), InvalidLangTag("a c"));
    let (owned, lent) = (owned("de-CH"), LangTag::new("de-AT").unwrap());
    assert!(lent < owned && LangTag::from(&owned) == owned);
    assert!(owned > lent);
    let text: Cow<str> = "DE-ch".into();
    assert!(owned == text && LangTag::from(&owned) == text && text != lent);
}

/// The rows compare the calls of owned tags.
#[test]
fn parts_have_what_lent_ones_have() {
    let tag = LangTag::new("zh-yue-Hant-HK-rozaj-1994-u-co-x-a").unwrap();
    let (lent, variants) = (tag.variants(), tag.variants().to_owned());
    assert!(variants.first() == lent.first() && variants.last() == lent.last());
    assert!(variants.iter().eq(lent.iter()));
    let extensions = tag.extensions().to_owned();
    let extension = extensions.get(Singleton::new(b'U').unwrap()).unwrap();
    assert_eq!(extension.to_owned().singleton(), b'u');
    let language = tag.language().unwrap().to_owned();
    assert!(language.extension().unwrap().to_owned().iter().eq(["yue"]));
    assert_eq!(VariantsBuf::default(), Variants::EMPTY);
    assert_eq!(ExtensionsBuf::default(), Extensions::EMPTY);
}

/// An error that leaves a function as a boxed error owns its text, with the same message. The rows have the messages.
#[test]
fn errors_outlive_their_text() {
    fn read(tag: &str, range: &str, header: &str) -> Result<(), Box<dyn Error>> {
        let tag = LangTag::new(tag).map_err(InvalidLangTag::into_owned)?;
        LanguageRange::new(range).map_err(InvalidLanguageRange::into_owned)?;
        validate(tag)?;
        AcceptLanguage::new(header)?;
        from_posix(header)?;
        Ok(())
    }
    fn read_range(range: &str) -> Result<bool, InvalidLanguageRange<String>> {
        Ok(LanguageRange::new(range)?.is_basic())
    }
    for (tag, range, header, said) in [
        (
            "en-",
            "*",
            "de",
            "invalid language tag `en-`: unexpected end: expected a subtag",
        ),
        ("de", "d*", "de", "invalid language range `d*`"),
        ("qt", "*", "de", "language qt is not registered"),
        (
            "de",
            "*",
            "fr, de_CH",
            "element 2 at offset 4 has a bad language range: `de_CH`",
        ),
        ("de", "*", "C", "no language in the locale name `C`"),
        ("de", "*", "", r"no language in the locale name ``"),
    ] {
        let owned = [tag, range, header].map(String::from);
        let error = read(&owned[0], &owned[1], &owned[2]).unwrap_err();
        drop(owned);
        assert_eq!(error.to_string(), said);
    }
    assert_eq!(read_range("d*"), Err(InvalidLanguageRange("d*".into())));
    assert!(read("de", "*", "de").is_ok());
}

/// Errors that contain more than a text can own it too.
#[test]
fn errors_with_more_than_a_text() {
    let invalid = |text| validate(LangTag::new(text).unwrap()).unwrap_err();
    for text in "qt zh-fra en-UK de-1996-1996 fr-a-bb-A-cc".split(' ') {
        let error = invalid(text);
        assert_eq!(error.subtag(), &text[error.start()..error.end()]);
    }
    let shown = r#"InvalidSubtag { fault: Region, subtag: "UK", start: 3 }"#;
    assert_eq!(format!("{:?}", invalid("en-UK")), shown);
    let distinct = HashSet::from(["de-1997", "DE-1997", "fr-FQ"].map(invalid));
    assert_eq!(distinct.len(), 2);
    let error = from_posix("\t_DE").unwrap_err();
    assert_eq!(error, PosixError::NoTag("\t_DE".into()));
    assert_eq!(error.to_string(), r"no language in the locale name `\t_DE`");
}

#[test]
fn singletons_and_grandfathered_tags() {
    assert_eq!("u".parse::<Singleton>(), Ok(Singleton::new(b'u').unwrap()));
    assert_eq!("x".parse::<Singleton>(), Err(InvalidSingleton("x".into())));
    assert_eq!(Singleton::try_from('é'), Err(InvalidSingleton('é')));
    let tag = GrandfatheredLangTag::try_from(&b"I-Klingon"[..]).unwrap();
    assert_eq!(tag.as_ref(), "i-klingon");
    assert_eq!(LangTag::from(tag).as_str(), "i-klingon");
    let refused = GrandfatheredLangTag::try_from(&b"fr"[..]);
    assert_eq!(refused, Err(InvalidGrandfatheredTag(&b"fr"[..])));
}
