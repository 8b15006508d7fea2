//! The sizes of values: a tag stores its text and the ends of its parts.
#![cfg(target_pointer_width = "64")]
use core::mem::size_of;

#[test]
fn a_tag_is_its_text_and_the_ends_of_its_parts() {
    assert!(size_of::<langtag::LangTag<'_>>() <= 72);
    assert!(size_of::<Option<langtag::LangTag<'_>>>() <= 72);
    assert!(size_of::<langtag::NormalLangTag<'_>>() <= 64);
}

#[cfg(feature = "alloc")]
#[test]
fn an_owned_tag_has_one_word_more() {
    assert!(size_of::<langtag::LangTagBuf>() <= 80);
    assert!(size_of::<langtag::NormalLangTagBuf>() <= 72);
}

#[test]
fn a_part_is_its_text() {
    assert_eq!(size_of::<langtag::Script<'_>>(), size_of::<&str>());
    assert_eq!(size_of::<Option<langtag::Script<'_>>>(), size_of::<&str>());
    assert_eq!(size_of::<langtag::Variants<'_>>(), size_of::<&str>());
    assert_eq!(size_of::<langtag::Singleton>(), 1);
}
