//! Calls of the extensions `u` and `t`.
use langtag::unicode::*;
use langtag::LangTag;

use crate::reader::{check_written, length, list, word};

fn written(keywords: KeywordsIter<'_>) -> Vec<String> {
    keywords
        .map(|KeyValue { key, value, .. }| format!("{key}={value}"))
        .collect()
}

pub fn pairs(tag: LangTag<'_>) -> String {
    for KeyValue { key, value, .. } in tag.keywords() {
        assert_eq!(tag.keyword(key), Some(value), "{tag}");
    }
    list(written(tag.keywords()))
}

pub fn transformed(tag: LangTag<'_>) -> String {
    let Some(transformation) = tag.transform() else {
        return "-".into();
    };
    for KeyValue { key, value, .. } in transformation.fields() {
        assert_eq!(transformation.field(key), Some(value), "{tag}");
    }
    let language = word(Some(transformation.language().unwrap_or("")));
    [vec![language], written(transformation.fields())]
        .concat()
        .join(" ")
}

/// Returns the form, which must be a Unicode locale identifier and its own form.
pub fn whole_form(tag: LangTag<'_>) -> String {
    let Some(form) = tag.locale_form() else {
        assert!(!is_locale(tag), "{tag}");
        assert_eq!(write_locale_form(tag, &mut []), Ok(None), "{tag}");
        return "-".into();
    };
    assert!(is_locale(&form), "{tag}");
    assert_eq!(form.locale_form().unwrap().as_str(), form.as_str());
    check_written(&form, |buffer| {
        length(write_locale_form(tag, buffer).map(Option::unwrap))
    });
    form.into_string()
}

/// Returns the form, which must be its own form.
pub fn form(tag: LangTag<'_>) -> String {
    let form = tag.extensions_form();
    assert_eq!(form.extensions_form().as_str(), form.as_str(), "{tag}");
    check_written(&form, |buffer| length(write_extensions_form(tag, buffer)));
    form.into_string()
}

/// Returns the tag with a keyword set, or removed if the value is `-`, as an owned tag becomes it. A buffer of the length that the
/// documentation gives is long enough. A buffer that is one byte too short stays unchanged, as it does after an error.
pub fn edited(tag: LangTag<'_>, key: &str, value: &str) -> String {
    let edit = |room: usize| {
        let mut buffer = vec![b'!'; room];
        let written = match value {
            "-" => write_without_keyword(tag, key, &mut buffer),
            _ => write_with_keyword(tag, key, value, &mut buffer),
        };
        let made = written.map(str::to_owned);
        let rest = made.as_ref().map_or(0, String::len);
        assert!(buffer[rest..].iter().all(|byte| *byte == b'!'), "{tag}");
        made
    };
    let room = if value == "-" {
        0
    } else {
        key.len() + value.len() + 4
    };
    let outcome = edit(tag.len() + room);
    check_owned(tag, key, value, &outcome);
    match outcome {
        Ok(made) => {
            let Err(WriteKeywordError::TooShort(error)) = edit(made.len() - 1) else {
                panic!("{made}");
            };
            assert_eq!(error.needed(), made.len(), "{made}");
            if value != "-" {
                check_keywords(tag, key, value, &made);
            }
            made
        }
        Err(WriteKeywordError::Keyword(KeywordError::Key)) => "bad key".into(),
        Err(WriteKeywordError::Keyword(KeywordError::Value(offset))) => {
            let is_good = |subtag: &&str| {
                (3..=8).contains(&subtag.len())
                    && subtag.bytes().all(|byte| byte.is_ascii_alphanumeric())
            };
            let good = value.split('-').take_while(is_good);
            assert_eq!(
                offset,
                good.map(|subtag| subtag.len() + 1).sum::<usize>(),
                "{value}"
            );
            "bad value".into()
        }
        Err(WriteKeywordError::Keyword(KeywordError::NotNormal)) => "no parts".into(),
        Err(error) => panic!("{error}"),
    }
}

/// Checks that a tag has the keyword that was set, and other keywords as before.
fn check_keywords(before: LangTag<'_>, key: &str, value: &str, made: &str) {
    let tag = LangTag::new(made).expect("it is a tag");
    assert_eq!(tag.keyword(key), Some(value), "{tag}");
    for other in ["ca", "nu", "co", "kn"] {
        if !other.eq_ignore_ascii_case(key) {
            assert_eq!(tag.keyword(other), before.keyword(other), "{tag}");
        }
    }
}

/// Checks that an owned tag becomes the text that was written, or stays unchanged after the same error.
fn check_owned(
    tag: LangTag<'_>,
    key: &str,
    value: &str,
    outcome: &Result<String, WriteKeywordError>,
) {
    let mut owned = tag.to_owned();
    let result = match value {
        "-" => owned.remove_keyword(key),
        _ => owned.set_keyword(key, value),
    };
    let result = result.map_err(|error| {
        WriteKeywordError::Keyword(match error {
            SetKeywordError::Key(_) => KeywordError::Key,
            SetKeywordError::Value(_, offset) => KeywordError::Value(offset),
            SetKeywordError::NotNormal => KeywordError::NotNormal,
            _ => panic!("{error}"),
        })
    });
    assert_eq!(result.as_ref(), outcome.as_ref().map(|_| &()), "{tag}");
    assert_eq!(owned.as_str(), outcome.as_deref().unwrap_or(tag.as_str()));
    let read = LangTag::new(owned.as_str()).expect("it is a tag");
    assert_eq!(owned.as_lang_tag().as_typed(), read.as_typed());
}
