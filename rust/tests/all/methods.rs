//! Methods of tags, conversions, and lists with entries that are not tags or ranges.
#![cfg(all(feature = "alloc", feature = "data"))]
#![allow(clippy::needless_borrows_for_generic_args)] // references are taken, too
use langtag::choice::{best_for_header, best_for_ranges, match_for_header, Site, TagEntry};
use langtag::matching::{
    look_up, tag_for_header, AcceptLanguage, LanguageRange, LanguageRangeBuf, WeightedRange,
};
use langtag::registry::{is_canonical, validate};
use langtag::*;

const TEXTS: [&str; 9] = [
    "iw-BU",
    "zh-TW",
    "de-Latn-AT-1996-u-ca-roc-foo-x-a",
    "en-u-foo-bar-nu-thai-ca-gregory-t-ja-m0-hepburn",
    "ar",
    "qt-FR",
    "x-mine",
    "i-klingon",
    "zh-min-nan",
];

/// A method of an owned tag returns what that of the tag returns, and takes a tag, an owned tag and a reference.
#[test]
fn methods_of_owned_tags() {
    for text in TEXTS {
        let tag = LangTag::new(text).unwrap();
        let owned = tag.to_owned();
        assert_eq!(owned.canonical(), tag.canonical());
        assert_eq!(owned.transform(), tag.transform());
        let valid = validate(tag);
        assert_eq!(
            [tag.validate(), validate(&tag), validate(&owned)],
            [valid; 3]
        );
        assert_eq!([tag.is_valid(), owned.is_valid()], [valid.is_ok(); 2]);
        assert_eq!(owned.validate(), valid.map_err(Into::into));
        assert_eq!(owned.keyword("ca"), tag.keyword("CA"));
        assert_eq!(is_canonical(&owned), tag == tag.canonical());
        for other in TEXTS {
            let other = LangTag::new(other).unwrap();
            let found = [owned.distance(other), tag.distance(&other.to_owned())];
            assert_eq!(found, [tag.distance(other); 2]);
        }
        let recommended = tag.try_to_recommended_case().unwrap();
        assert_eq!(tag.to_recommended_case(), recommended);
    }
}

#[test]
fn valid_and_matching() {
    let tag = |text| LangTag::new(text).unwrap();
    assert!(tag("de-CH-1996").is_valid() && !tag("qt").is_valid());
    let range = |text| LanguageRange::new(text).unwrap();
    assert!(tag("de-Latn-DE").matches(range("de-DE")) && tag("de-Latn-DE").matches(tag("de-DE")));
    assert!(!tag("de-x-DE").to_owned().matches(range("de-DE")) && !tag("de").matches("d*"));
    let kinds = [Kind::Normal, Kind::PrivateUse, Kind::Grandfathered].map(|kind| kind.to_string());
    assert_eq!(kinds, ["normal", "private-use", "grandfathered"]);
}

#[test]
fn conversions() {
    let tag = LangTag::new("DE-a-bb-U-co-phonebk").unwrap();
    let (extensions, singleton) = (tag.extensions(), Singleton::new(b'U').unwrap());
    let found = extensions.get('u').unwrap();
    assert_eq!(found.as_str(), "U-co-phonebk");
    assert_eq!(extensions.get(b'U'), Some(found));
    assert_eq!(extensions.to_owned().get('U'), Some(found));
    assert_eq!(extensions.get(singleton), Some(found));
    assert_eq!(['x', '\u{e9}', 't'].map(|it| extensions.get(it)), [None; 3]);
    assert_eq!(char::from(singleton), 'U');
    let range = LanguageRangeBuf::from(tag.to_owned());
    assert_eq!(range.as_str(), tag.as_str());
    assert_eq!(&*Box::<str>::from(tag.to_owned()), tag.as_str());
    const UND: LangTag<'static> = LangTag::UND;
    assert_eq!(UND.as_str(), "und");
    assert_eq!(UND.as_typed(), LangTag::new("und").unwrap().as_typed());
    assert_eq!(LangTag::default(), UND);
}

/// Entries that are not tags are never chosen, and strings that are not ranges are skipped.
#[test]
fn lists_with_other_texts() {
    let site = ["not a tag", "en_US", "de", ""];
    assert_eq!(best_for_header("en-US, de;q=0.5", &site), Some(2));
    assert_eq!(best_for_header("fr", &site), None);
    let strings = Vec::from(site.map(String::from));
    assert_eq!(best_for_header(&String::from("de"), &strings), Some(2));
    assert_eq!(best_for_header("*", &["en_US"]), None);
    assert_eq!(best_for_ranges(&["d!", "de"], &["en", "de"]), Some(1));
    let ranges = ["de;q=0", "zh_TW.UTF-8"];
    assert_eq!(best_for_ranges(&ranges, &["de", "zh-Hant"]), Some(1));
    assert_eq!(best_for_ranges(&[""; 0], &["en", "de"]), None);
    assert_eq!(look_up(&["d!", "en_US", "de-CH"], &site, &"none"), &"de");
    assert_eq!(look_up(&["en"], &site, &"none"), &"none");
    assert_eq!(look_up(&["d!", "de"], &["en", "de"], &"none"), &"de");
    assert_eq!(tag_for_header("de-CH", &site, &"none").unwrap(), &"de");
    let none: [LangTagBuf; 0] = [];
    assert_eq!(best_for_header("de", &none), None);
}

/// In a list of weighted ranges as in a header, the longest range that matches a tag decides if it is excluded.
#[test]
fn weighted_ranges_of_weight_0() {
    let wanted = [("de", 1000), ("de-CH", 0), ("de-CH-1996", 500)];
    let ranges = wanted.map(|(text, weight)| WeightedRange {
        range: LanguageRange::new(text).unwrap(),
        weight,
    });
    for (tags, index) in [
        (["de-CH-1901", "de-CH-1996"], Some(1)),
        (["de-CH", "fr"], None),
        (["de-CH", "de-AT"], Some(1)),
    ] {
        assert_eq!(best_for_ranges(&ranges[..], &tags), index, "{tags:?}");
        let found = best_for_header("de, de-CH;q=0, de-CH-1996;q=0.5", &tags);
        assert_eq!(found, index, "{tags:?}");
    }
}

/// The second ways to a call, and texts longer than usual: a `Site` made in each way, bytes that are not UTF-8, blanks and NUL.
#[test]
fn second_ways() {
    let many: Vec<String> = (0..100)
        .map(|k| format!("de-x-a{k}"))
        .chain([String::from("fr"), String::new()])
        .collect();
    for site in [
        Site::new(many.clone()),
        many.iter().cloned().collect(),
        Site::from(many.clone()),
    ] {
        assert_eq!(
            (
                site.len(),
                site.best_for_header(b"\xff, fr").map(String::as_str)
            ),
            (102, Some("fr"))
        );
    }
    let blanks = [String::from(" de"), String::from("de ")];
    assert_eq!(best_for_header("de", &blanks.each_ref()), None);
    assert!(blanks.iter().all(|it| it.tag().is_none()));
    let long = format!("de-{}-CH", "Latn");
    let long = [format!(
        "{long}-1996-u-co-phonebk-x-{}",
        ["abcdefgh"; 40].join("-")
    )];
    let lent: Vec<&String> = long.iter().collect();
    assert_eq!(best_for_header(&long[0], &lent), Some(0));
    assert_eq!(
        match_for_header(&long[0], &lent).map(|found| found.distance),
        Some(0)
    );
    assert_eq!(look_up(&[&long[0]], &lent, &&String::new()), &&long[0]);
    assert_eq!(look_up(&["de\0"], &["de"], &"none"), &"none");
    #[cfg(feature = "names")]
    assert_eq!(
        names::describe(LangTag::new("de-a-bbb-u-co-phonebk-A-ccc").unwrap()),
        "German"
    );
    assert!(LangTag::new(&long[0]).unwrap().matches("de-CH"));
    let repeated: LangTagBuf = "de-a-aaa-b-bbb-c-ccc-d-ddd-A-aaa".parse().unwrap();
    assert_eq!(repeated.validate().unwrap_err().start(), 27);
    assert_eq!(
        AcceptLanguage::new("de,\td\0_e\t")
            .unwrap_err()
            .to_string()
            .split(": ")
            .last(),
        Some("`d\\u{0}_e`")
    );
    let error = LangTagBuf::from(LangTag::UND)
        .set_keyword("ca", "islamic-civil-b")
        .unwrap_err();
    assert_eq!(
        error,
        langtag::unicode::SetKeywordError::Value("islamic-civil-b".into(), 14)
    );
}
