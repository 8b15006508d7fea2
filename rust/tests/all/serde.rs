//! Tags, parts and ranges as strings of serde: in structs, lists and options, and as keys of maps.
#![cfg(feature = "serde")]
use std::collections::{BTreeMap, HashMap};

use langtag::matching::{LanguageRange, LanguageRangeBuf};
use langtag::oxilangtag::LanguageTag;
use langtag::*;
use serde::{Deserialize, Serialize};

#[derive(Debug, PartialEq, Serialize, Deserialize)]
struct Text {
    language: LangTagBuf,
    original: Option<LangTagBuf>,
    translations: Vec<LangTagBuf>,
    titles: HashMap<LangTagBuf, String>,
    script: ScriptBuf,
    wanted: LanguageRangeBuf,
}

#[derive(Debug, PartialEq, Serialize, Deserialize)]
struct Lent<'a> {
    #[serde(borrow)]
    language: LangTag<'a>,
    #[serde(borrow)]
    regions: Vec<Region<'a>>,
    #[serde(borrow)]
    wanted: Option<LanguageRange<'a>>,
    #[serde(borrow)]
    counts: BTreeMap<Script<'a>, u32>,
}

#[test]
fn owned() {
    let json = r#"{"language":"de-CH","original":null,"translations":["fr","ZH-hant"],"titles":{"en":"Bike"},"script":"Latn","wanted":"de-*"}"#;
    let text: Text = serde_json::from_str(json).unwrap();
    assert_eq!(text.language.region().unwrap(), "CH");
    assert_eq!(text.original, None);
    assert_eq!(text.translations[1].as_str(), "ZH-hant");
    assert_eq!(text.titles.get("EN".caseless()).unwrap(), "Bike");
    assert_eq!(serde_json::to_string(&text).unwrap(), json);
    let read: Text = serde_json::from_reader(json.as_bytes()).unwrap();
    assert_eq!(read, text);
}

#[test]
fn lent() {
    let json = r#"{"language":"de-CH","regions":["CH","419"],"wanted":"*-CH","counts":{"Latn":2}}"#;
    let text: Lent = serde_json::from_str(json).unwrap();
    assert_eq!(text.language, "de-ch");
    assert_eq!((text.regions.len(), text.counts.len()), (2, 1));
    assert_eq!(serde_json::to_string(&text).unwrap(), json);
}

fn refused<'a, T: Deserialize<'a>>(json: &'a str) -> String {
    let words = serde_json::from_str::<T>(json).err().unwrap().to_string();
    words.split(" at line").next().unwrap().to_owned()
}

#[test]
fn refusals() {
    let invalid = "invalid language tag `en_US`: invalid character `_`: expected a letter, a digit or a hyphen";
    assert_eq!(refused::<LangTagBuf>(r#""en_US""#), invalid);
    assert_eq!(refused::<LangTag>(r#""en_US""#), invalid);
    assert_eq!(refused::<ScriptBuf>(r#""Latin""#), "invalid script `Latin`");
    let invalid = "invalid language range `de_`";
    assert_eq!(refused::<LanguageRangeBuf>(r#""de_""#), invalid);
    let invalid = "invalid type: integer `1`, expected a language tag";
    assert_eq!(refused::<LangTagBuf>("1"), invalid);
    // A text with an escape can't be borrowed.
    let escaped = r#""e\u006e""#;
    let invalid = r#"invalid type: string "en", expected a language tag, borrowed from the input"#;
    assert_eq!(refused::<LangTag>(escaped), invalid);
    assert_eq!(serde_json::from_str::<LangTagBuf>(escaped).unwrap(), "en");
}

#[test]
fn kinds() {
    for text in ["de", "x-a", "i-lux"] {
        let kind = LangTag::new(text).unwrap().kind();
        let json = serde_json::to_string(&kind).unwrap();
        assert_eq!(json, format!("\"{kind}\""));
        assert_eq!(serde_json::from_str::<Kind>(&json).unwrap(), kind);
    }
    assert_eq!(
        refused::<Kind>(r#""Normal""#),
        "`Normal` is not a kind of tags"
    );
}

#[test]
fn oxilangtag() {
    let tag: LanguageTag<String> = serde_json::from_str(r#""EN-us""#).unwrap();
    assert_eq!(tag, "EN-us");
    assert_eq!(serde_json::to_string(&tag).unwrap(), r#""EN-us""#);
    assert!(serde_json::from_str::<LanguageTag<String>>(r#""en_US""#).is_err());
}
