//! Repeats each call that allocates. The first time, its first request for memory is refused, then its second, and so
//! on until no request is refused. The call must return an error for each refusal, and change nothing.
#![cfg(all(feature = "alloc", feature = "data"))]
use std::alloc::{GlobalAlloc, Layout, System};
use std::cell::Cell;
use std::panic;
use std::sync::Once;

use langtag::choice::Site;
use langtag::erased::choice::suitable_for_header;
use langtag::erased::{likely, locale, posix, registry, unicode};
use langtag::likely::{from_posix, PosixError};
use langtag::matching::{tag_for_header, AcceptLanguage, AcceptLanguageError, LanguageRange};
use langtag::unicode::SetKeywordError;
use langtag::*;

thread_local! {
    /// The number of requests that are granted before all others are refused. `None` grants all requests.
    static GRANTED: Cell<Option<usize>> = const { Cell::new(None) };
    static REFUSED: Cell<usize> = const { Cell::new(0) };
    static BYTES: Cell<usize> = const { Cell::new(0) };
}

struct Refusing;

impl Refusing {
    /// Counts a request, and returns whether it is refused.
    fn refuses(size: usize) -> bool {
        match GRANTED.get() {
            Some(0) => {
                REFUSED.set(REFUSED.get() + 1);
                return true;
            }
            Some(left) => GRANTED.set(Some(left - 1)),
            None => {}
        }
        BYTES.set(BYTES.get() + size);
        false
    }
}

// SAFETY: each request is refused, or passed to the system's allocator.
unsafe impl GlobalAlloc for Refusing {
    unsafe fn alloc(&self, layout: Layout) -> *mut u8 {
        if Refusing::refuses(layout.size()) {
            return std::ptr::null_mut();
        }
        unsafe { System.alloc(layout) }
    }

    unsafe fn dealloc(&self, at: *mut u8, layout: Layout) {
        unsafe { System.dealloc(at, layout) }
    }

    unsafe fn realloc(&self, at: *mut u8, layout: Layout, size: usize) -> *mut u8 {
        if Refusing::refuses(size) {
            return std::ptr::null_mut();
        }
        unsafe { System.realloc(at, layout, size) }
    }
}

#[global_allocator]
static ALLOCATOR: Refusing = Refusing;

/// Lets each panic have memory for its message. Otherwise a test that fails while memory is refused may wait for ever.
fn grant_to_panics() {
    static HOOK: Once = Once::new();
    HOOK.call_once(|| {
        let hook = panic::take_hook();
        panic::set_hook(Box::new(move |info| {
            GRANTED.set(None);
            hook(info);
        }));
    });
}

/// Repeats a call with one more request granted each time, until no request is refused. `call` returns whether memory
/// was refused. Returns the number of requests.
fn refuse_each(name: &str, call: impl Fn() -> bool) -> usize {
    grant_to_panics();
    for granted in 0.. {
        GRANTED.set(Some(granted));
        REFUSED.set(0);
        let told = call();
        GRANTED.set(None);
        assert_eq!(told, REFUSED.get() > 0, "{name}, after {granted} requests");
        if !told {
            assert!(granted > 0, "{name} makes no request");
            return granted;
        }
    }
    unreachable!()
}

/// Does the same with a call that makes one request, such as a copy or a setter.
fn refuse_one(name: &str, call: impl Fn() -> bool) {
    assert_eq!(refuse_each(name, call), 1, "{name}");
}

fn is_memory<T>(result: Result<T, AllocError>) -> bool {
    result.is_err()
}

#[test]
fn copies() {
    macro_rules! copied {
        ($($name:ident $text:literal)+) => {$(
            let value = $name::new($text).unwrap();
            refuse_one(stringify!($name), || is_memory(value.try_to_owned()));
        )+};
    }
    copied! {
        PrimaryLanguage "fr" ExtendedLangTag "yue" LanguageExtension "min-nan" Language "zh-yue" Script "Latn" Region "FR"
        Variant "rozaj" Variants "rozaj-1994" ExtensionSubtag "co" Extension "u-co" Extensions "a-bb-u-co"
        PrivateUseSubtag "a" PrivateUse "x-a" NormalLangTag "zh-TW" LangTag "zh-TW" LanguageRange "zh-*"
    }
}

#[test]
fn tags_in_another_form() {
    const TEXTS: &str = "iw-BU zh-yue-hk sl-rozaj-1994-u-co-phonebk-x-mine x-a i-klingon yue zh";
    for text in TEXTS.split(' ') {
        let tag = LangTag::new(text).unwrap();
        macro_rules! refused {
            ($($form:path)+) => {$(
                refuse_each(stringify!($form), || is_memory($form(tag)));
            )+};
        }
        refused! { registry::canonical registry::extlang_form likely::maximized likely::minimized unicode::extensions_form }
        // A tag without a form, such as x-a, requests no memory.
        if locale::locale_form(tag).unwrap().is_some() {
            refuse_each("form as a locale", || is_memory(locale::locale_form(tag)));
        }
        let call = || is_memory(locale::resolved_locale(b"de-AT-u-nu-latn", tag));
        refuse_each("locale to format with", call);
        let call = || is_memory(tag.try_to_recommended_case());
        refuse_each("recommended case", call);
        if let Some(normal) = tag.as_normal() {
            let call = || is_memory(normal.try_to_recommended_case());
            refuse_each("recommended case", call);
        }
    }
}

#[test]
fn tags_from_parts_and_names() {
    let (script, region) = (Script::new("Hant").ok(), Region::new("TW").ok());
    let language = Language::new("zh").unwrap();
    refuse_each("from_parts", || {
        is_memory(NormalLangTagBuf::try_from_parts(language, script, region))
    });
    refuse_each("from_posix", || {
        matches!(from_posix("de_CH.UTF-8@euro"), Err(PosixError::Memory(_)))
    });
    let serbian = LangTag::new("sr-Latn-RS").unwrap();
    refuse_each("to_posix", || posix::to_posix(serbian).is_err());
}

#[test]
fn headers() {
    let header = "de;q=0.5, fr, en;q=0.9, it, *;q=0.1, zh-TW;q=0.3";
    let tag = LangTag::new("en").unwrap();
    let is_refused = |error| matches!(error, AcceptLanguageError::Memory(_));
    refuse_each("AcceptLanguage::new", || {
        AcceptLanguage::new(header).is_err_and(is_refused)
    });
    refuse_each("AcceptLanguage::lenient", || {
        is_memory(AcceptLanguage::try_lenient(header))
    });
    refuse_each("tag_for_header", || {
        tag_for_header(header, &[tag], &tag).is_err_and(is_refused)
    });
}

/// A header takes at most 320 bytes of memory an element.
#[test]
fn memory_of_headers() {
    for number in [1, 2, 3, 7, 64, 1000, 4097, 100_000] {
        for header in [format!("{}de", " ".repeat(number)), "de,".repeat(number)] {
            let elements = header.split(',').count();
            BYTES.set(0);
            assert!(AcceptLanguage::new(&header).is_ok());
            let bytes = BYTES.get();
            assert!(bytes <= 320 * elements, "{bytes} bytes");
        }
    }
}

#[test]
fn sites() {
    let tags = ["en", "fr-FR", "de"].map(|text| LangTag::new(text).unwrap());
    refuse_each("Site::try_new", || {
        let granted = GRANTED.take();
        let owned = tags.to_vec();
        GRANTED.set(granted);
        is_memory(Site::try_new(owned))
    });
    refuse_each("suitable", || {
        is_memory(suitable_for_header(b"fr, de;q=0.5", &tags))
    });
}

/// Calls a setter on a copy of a tag, and returns whether memory was refused. The copy must then be unchanged.
fn set<E: PartialEq + core::fmt::Debug>(
    text: &str,
    refused: E,
    setter: impl Fn(&mut Held) -> Result<(), E>,
) -> bool {
    let granted = GRANTED.take();
    let mut held = Held::of(text);
    GRANTED.set(granted);
    let result = setter(&mut held);
    GRANTED.set(None);
    if let Err(error) = result {
        assert_eq!(error, refused);
        assert_eq!(held.normal.as_str(), text);
        assert_eq!(held.any.as_str(), text);
        return true;
    }
    false
}

struct Held {
    normal: NormalLangTagBuf,
    any: LangTagBuf,
}

impl Held {
    fn of(text: &str) -> Held {
        let tag = NormalLangTag::new(text).unwrap();
        Held {
            normal: tag.try_to_owned().unwrap(),
            any: tag.as_lang_tag().try_to_owned().unwrap(),
        }
    }
}

#[test]
fn setters() {
    let text = "sl-IT-rozaj-a-bb-x-mine";
    macro_rules! set_each {
        ($($setter:ident $part:expr;)+) => {$(
            let part = $part;
            refuse_one(stringify!($setter), || set(text, AllocError, |held| held.normal.$setter(part)));
            refuse_one(stringify!($setter), || set(text, EditError::Memory(AllocError), |held| held.any.$setter(part)));
        )+};
    }
    set_each! {
        set_language Language::new("zh-yue").unwrap();
        set_script Script::new("Latn").ok();
        set_region Region::new("419").ok();
        set_variants Variants::new("rozaj-1994-biske").unwrap();
        set_extensions Extensions::new("u-co-phonebk").unwrap();
        set_private_use PrivateUse::new("x-longer-than-it-was").ok();
    }
}

#[test]
fn setters_of_keywords() {
    let text = "sl-IT-u-ca-roc-nu-latn-x-mine";
    let refused = || SetKeywordError::Memory(AllocError);
    refuse_each("set_keyword", || {
        set(text, refused(), |held| held.any.set_keyword("kn", ""))
    });
    refuse_each("remove_keyword", || {
        set(text, refused(), |held| held.any.remove_keyword("ca"))
    });
}

#[test]
fn taking_a_part_out_needs_no_memory() {
    let mut held = Held::of("sl-Latn-IT-rozaj-a-bb-x-mine");
    grant_to_panics();
    GRANTED.set(Some(0));
    let results = [
        held.normal.set_script(None),
        held.normal.set_region(None),
        held.normal.set_variants(Variants::EMPTY),
        held.normal.set_extensions(Extensions::EMPTY),
        held.normal.set_private_use(None),
    ];
    GRANTED.set(None);
    assert_eq!(results, [Ok(()); 5]);
    assert_eq!(held.normal.as_str(), "sl");
}
