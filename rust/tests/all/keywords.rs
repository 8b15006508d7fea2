//! Errors of setting and removing keywords (RFC 6067 section 2.1). The rows of `with-keyword` ask for everything else.
#![cfg(feature = "data")]

use langtag::unicode::KeywordError;
#[cfg(feature = "alloc")]
use langtag::{unicode::SetKeywordError, LangTagBuf};

fn equal_themselves_alone(all: &[impl PartialEq]) {
    for (i, a) in all.iter().enumerate() {
        assert!(all.iter().enumerate().all(|(j, b)| (a == b) == (i == j)));
    }
}

#[test]
fn errors_are_values() {
    let all = [
        KeywordError::Key,
        KeywordError::Value(0),
        KeywordError::Value(1),
        KeywordError::NotNormal,
    ];
    equal_themselves_alone(&all);
    let said = KeywordError::Key.to_string();
    assert_eq!(said, "not a key of the extension u");
}

#[test]
#[cfg(feature = "alloc")]
fn errors_of_owned_tags_are_values() {
    let mut tag: LangTagBuf = "de".parse().unwrap();
    let mut private: LangTagBuf = "x-a".parse().unwrap();
    let all = [
        tag.set_keyword("c", "roc").unwrap_err(),
        tag.remove_keyword("d").unwrap_err(),
        tag.set_keyword("ca", "roc-b!").unwrap_err(),
        private.set_keyword("ca", "roc").unwrap_err(),
        SetKeywordError::Memory(langtag::AllocError),
    ];
    equal_themselves_alone(&all);
    assert_eq!(
        all.map(|error| error.to_string()),
        [
            "`c` is not a key of the extension u",
            "`d` is not a key of the extension u",
            "`roc-b!` is not a value of a key: a subtag needs three to eight letters or digits",
            "not a normal language tag",
            "out of memory",
        ]
    );
}
