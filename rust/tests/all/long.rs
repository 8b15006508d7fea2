//! Long texts and long lists, of which owned forms are made.
#![cfg(all(feature = "alloc", feature = "data"))]
use langtag::matching::AcceptLanguage;
use langtag::LangTag;

#[test]
fn ranges_of_one_weight_keep_their_order() {
    let weight = |n: &usize| n * 7919 % 5 + 1;
    let mut numbers: Vec<usize> = (0..200).collect();
    let elements = numbers
        .iter()
        .map(|n| format!("aa-x-{n};q=0.{}", weight(n)));
    let header = elements.collect::<Vec<_>>().join(",");
    let accepted = AcceptLanguage::new(&header).unwrap();
    numbers.sort_by_key(|n| std::cmp::Reverse(weight(n)));
    let wanted = numbers.iter().map(|n| format!("aa-x-{n}"));
    assert!(wanted.eq(accepted.ranges().iter().map(|it| it.range.to_string())));
}

#[test]
#[cfg(feature = "names")]
fn a_tag_beyond_the_limit_is_named_by_its_canonical_form() {
    use langtag::names::{autonym, describe};
    use langtag::LangTagBuf;
    let long = format!("ger-x{}", "-abcdefgh".repeat(30_000));
    let cut = |count: usize| LangTagBuf::new(format!("{}a", &long[..count - 1])).unwrap();
    let (named, longer) = (cut(262_144), cut(262_145));
    assert_eq!(
        (describe(&named), autonym(&named)),
        ("German".into(), Some("Deutsch"))
    );
    assert_eq!((describe(&longer), autonym(&longer)), ("ger".into(), None));
}

/// Returns an extension with each key once, and then with each key again, in the other order and with another value; and its form.
fn repeated_keys(start: &str, firsts: &str, seconds: &str) -> (String, String) {
    let keys = firsts.chars().flat_map(|first| {
        seconds
            .chars()
            .map(move |second| format!("{first}{second}"))
    });
    let keys: Vec<String> = keys.collect();
    let form: String = keys.iter().map(|key| format!("-{key}-foo")).collect();
    let text: String = keys.iter().rev().map(|key| format!("-{key}-foo")).collect();
    let again: String = keys.iter().map(|key| format!("-{key}-bar-baz")).collect();
    (format!("{start}{text}{again}"), format!("{start}{form}"))
}

#[test]
fn first_values_of_all_keys() {
    let (digits, letters) = ("0123456789", "abcdefghijklmnopqrstuvwxyz");
    let all = &format!("{digits}{letters}");
    for (start, firsts, seconds) in [("de-t", letters, digits), ("de-u", all, all)] {
        let (text, form) = repeated_keys(start, firsts, seconds);
        assert_eq!(LangTag::new(&text).unwrap().extensions_form(), form);
    }
}
