//! The choice for a reader: all suitable tags are those that a program gets which removes each tag that was chosen, and asks again. The
//! rows show that a prepared site chooses as the calls over its tags do.
#![cfg(all(feature = "alloc", feature = "data"))]
use crate::numbers::Numbers;
use langtag::choice::{
    best_for_header, best_for_ranges, match_for_header, suitable_for_header, suitable_for_ranges,
    write_suitable, Site, TagList,
};
use langtag::LangTag;
use std::cell::Cell;

/// Ranges, tags and other texts.
const PIECES: &str = "\
    en de-CH gsw zh-TW zh und * sr-Latn sh nb no en-GB pt es-MX fr_FR zh-*-Hant x-a i-klingon \
    tlh iw cmn-Hans yue en-x-a de-DE-1996 und-DE und-Latn mo in ar-MA pt-AO en-AU bh bho tl fil \
    tw ak yu yue-HK nn-NO ceb id ms jw ji zh-yue ger en-GB-oed de de-AT es-419 es pt-PT zh-Hant \
    zh-Hans en-US da";

fn piece(numbers: &mut Numbers) -> &'static str {
    let pieces: Vec<&str> = PIECES.split_whitespace().collect();
    pieces[numbers.below(pieces.len())]
}

fn element(numbers: &mut Numbers) -> String {
    let range = piece(numbers);
    match numbers.below(4) {
        0 => range.to_string(),
        1 => format!("{range};q=0"),
        _ => format!("{range};q=0.{}", numbers.below(10)),
    }
}

#[test]
fn sites_of_each_kind_of_entry() {
    let texts = ["en", "zh-Hant"];
    let borrowed = texts.map(|text| LangTag::new(text).unwrap());
    let strings = texts.map(String::from);
    let site = Site::new(&borrowed[..]);
    assert_eq!(site.best_for_header("zh-TW"), Some(&borrowed[1]));
    assert_eq!(site.tags(), borrowed);
    let site = Site::new(&strings[..]);
    assert_eq!(site.best_for_header(b"zh-TW"), Some(&strings[1]));
    let none: [&str; 0] = [];
    assert_eq!(Site::new(&none[..]).best_for_header("en"), None);
    assert_eq!(Site::new(["not a tag"]).best_for_header("en"), None);
    assert_eq!(format!("{:?}", Site::new(["en"])), "Site([\"en\"])");
}

/// Removes each tag that is chosen, and asks again. Returns the indices in the whole list.
fn removed_in_turn(tags: &[&str], best: impl Fn(&[&str]) -> Option<usize>) -> Vec<usize> {
    let (mut left, mut indices) = (tags.to_vec(), (0..tags.len()).collect::<Vec<_>>());
    let mut found = Vec::new();
    while let Some(index) = best(&left) {
        left.remove(index);
        found.push(indices.remove(index));
    }
    found
}

#[test]
fn random_tags_in_turn() {
    let cases = std::env::var("LANGTAG_CASES").map_or(4_000_usize, |text| text.parse().unwrap());
    let mut numbers = Numbers(11);
    for case in 0..cases {
        let header = numbers.list(6, element).join(",");
        let tags = numbers.list([6, 12, 80][case % 3], piece);
        let found = removed_in_turn(&tags, |left| best_for_header(&header, left));
        let suitable = suitable_for_header(&header, &tags);
        assert_eq!(suitable, found, "{header} {tags:?}");
        let most = numbers.below(6);
        let mut some = vec![usize::MAX; most];
        let result = write_suitable(&header, &tags, &mut some).map(<[usize]>::len);
        assert_eq!(result.is_ok(), most >= found.len());
        let written = result.unwrap_or(most);
        assert_eq!(some[..written], found[..most.min(found.len())]);
        assert!(some[written..].iter().all(|index| *index == usize::MAX));
        let site = Site::new(&tags[..]);
        let best = found.first().map(|index| &tags[*index]);
        assert_eq!(site.best_for_header(&header), best, "{header} {tags:?}");
        let found_match = match_for_header(&header, &tags);
        assert_eq!(site.match_for_header(&header), found_match);
        let names: Vec<&&str> = found.iter().map(|index| &tags[*index]).collect();
        assert_eq!(site.suitable_for_header(&header), names);
        let ranges = numbers.list(4, piece);
        let found = removed_in_turn(&tags, |left| best_for_ranges(&ranges, left));
        let suitable = suitable_for_ranges(&ranges, &tags);
        assert_eq!(suitable, found, "{ranges:?} {tags:?}");
        let names: Vec<&&str> = found.iter().map(|index| &tags[*index]).collect();
        assert_eq!(site.best_for_ranges(&ranges), names.first().copied());
        assert_eq!(site.suitable_for_ranges(&ranges), names);
    }
}

#[test]
fn the_best_come_last() {
    let mut tags = vec!["de"; 64];
    tags.extend(["en", "en"]);
    let found = [64, 65].into_iter().chain(0..64).collect::<Vec<_>>();
    assert_eq!(suitable_for_header("de;q=0.5,en", &tags), found);
}

/// Tags that count how often one of them is read.
struct Counted<'t>(&'t [LangTag<'t>], Cell<usize>);

impl TagList for Counted<'_> {
    fn count(&self) -> usize {
        self.0.len()
    }

    fn tag_at(&self, index: usize) -> Option<LangTag<'_>> {
        self.1.set(self.1.get() + 1);
        Some(self.0[index])
    }

    fn bytes_at(&self, index: usize) -> &[u8] {
        self.1.set(self.1.get() + 1);
        self.0[index].as_bytes()
    }
}

/// Headers of 8,192 bytes and 1,000 tags: with weights in ascending order, so that each range is better than all before it, and
/// with 740 ranges of weight 0. Each pair of a range and a tag is read a few times. If each answer repeated the whole choice, it
/// would be read 1,000 times.
#[test]
fn a_long_header_and_many_tags() {
    let numbered = |count: usize, before: &str, after: &str| {
        let ranges = (1..=count).map(|n| format!("{before}{n:03}{after}"));
        ranges.collect::<Vec<_>>().join(",")
    };
    let headers = [
        numbered(744, "en;q=0.", ""),
        numbered(740, "de-", ";q=0") + ",en",
    ];
    let texts = (0..1000).map(|n| format!("en-{n:03}")).collect::<Vec<_>>();
    let tags = texts
        .iter()
        .map(|tag| LangTag::new(tag).unwrap())
        .collect::<Vec<_>>();
    for header in headers {
        let tags = Counted(&tags, Cell::new(0));
        assert_eq!(suitable_for_header(&header, &tags).len(), 1000);
        let (reads, pairs) = (tags.1.get(), 744 * 1000);
        assert!(reads < 50 * pairs, "{reads}");
    }
}
