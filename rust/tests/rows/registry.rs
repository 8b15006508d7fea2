//! Calls of the registry.
use langtag::registry::*;
use langtag::*;

use crate::reader::{check_buffer, length, word};
use crate::tags::{check_twice, recommended};

/// Returns the first fault of a tag, and the offset of its subtag. The proved call must find the same fault. The rows of the oracle
/// have each short language and region, so they show that no copy of these fails.
pub fn validity(tag: LangTag<'_>) -> String {
    check_twice(tag);
    recommended(tag.as_bytes());
    let found = erased::registry::validate(tag);
    let Err(invalid) = validate(tag) else {
        assert_eq!(found, Ok(()));
        return "valid".into();
    };
    let (fault, start, subtag) = (invalid.fault(), invalid.start(), invalid.subtag());
    assert!(invalid
        .to_string()
        .starts_with(&found.unwrap_err().to_string()));
    assert_eq!(&tag[start..invalid.end()], subtag);
    format!("{fault} {start} {subtag}")
}

/// Returns the code that was probably meant by the first invalid subtag. The error message must end with it.
pub fn suggestion(tag: LangTag<'_>) -> String {
    let Err(invalid) = validate(tag) else {
        return "-".into();
    };
    let (message, code) = (invalid.to_string(), invalid.suggestion());
    match code {
        Some(code) => {
            assert!(message.ends_with(&format!(" is not registered: did you mean {code}?")))
        }
        None => assert!(!message.contains(':')),
    }
    word(code)
}

/// Returns the canonical form. It must be its own canonical form, and must also be written to a buffer.
pub fn canonical_form(tag: LangTag<'_>) -> String {
    let form = tag.canonical();
    assert_eq!(is_canonical(tag), tag == form);
    assert!(is_canonical(&form));
    check_buffer(form, |buffer| length(write_canonical(tag, buffer)))
}

pub fn fault(tag: LangTag<'_>) -> String {
    let fault = validate(tag).err();
    fault.map_or("valid".into(), |fault| fault.to_string())
}

pub fn misplaced(text: &str) -> String {
    let tag = NormalLangTag::new(text);
    tag.map_or(String::new(), |tag| word(misplaced_variant(tag)))
}

pub fn subtag(text: &str) -> String {
    let mut found = Vec::new();
    if let Ok(language) = PrimaryLanguage::new(text) {
        found.push(word(preferred_language(language)));
        found.push(word(macrolanguage(language)));
        found.push(word(suppress_script(language)));
    }
    if let Ok(extlang) = ExtendedLangTag::new(text) {
        found.push(word(extlang_prefix(extlang)));
    }
    found.join(" ")
}

pub fn registered(tag: LangTag<'_>) -> String {
    canonical_form(tag);
    word(preferred_tag(tag))
}
