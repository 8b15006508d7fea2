//! The types of a tag's parts (RFC 5646 sections 2.2.1 to 2.2.7): empty walks, and singletons.
use langtag::{ExtensionIter, LanguageExtensionIter, PrivateUseIter, Singleton, VariantsIter};

#[test]
fn empty_walks_give_nothing() {
    assert_eq!(VariantsIter::default().next(), None);
    assert_eq!(LanguageExtensionIter::default().next(), None);
    assert_eq!(ExtensionIter::default().next(), None);
    assert_eq!(PrivateUseIter::default().next(), None);
}

#[test]
fn letters_and_digits_but_x_are_singletons() {
    for byte in 0..=u8::MAX {
        let is_singleton = byte.is_ascii_alphanumeric() && !byte.eq_ignore_ascii_case(&b'x');
        match Singleton::new(byte) {
            Ok(singleton) => assert!(is_singleton && singleton.unwrap() == byte, "{byte}"),
            Err(refusal) => assert!(!is_singleton && refusal.0 == byte, "{byte}"),
        }
    }
}

#[test]
fn characters_convert() {
    assert_eq!(Singleton::try_from('U').unwrap().unwrap(), b'U');
    // The last eight bits of U+0161 are the bits of `a`.
    for c in ['\u{161}', 'x', 'X', '-', 'é', '\0', '\u{ff}', '\u{10ffff}'] {
        assert_eq!(Singleton::try_from(c).unwrap_err().0, c);
    }
}
