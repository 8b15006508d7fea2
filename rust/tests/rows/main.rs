//! Compares the answers of this crate with the rows of the tests. If `LANGTAG_ANSWERS` names a file, it also compares them with the answers of the proved C library in that file.
#![cfg(all(feature = "alloc", feature = "data"))]
mod edits;
mod likely;
#[allow(dead_code)] // the example is a program
#[path = "../../examples/literals.rs"]
mod literals;
mod matching;
mod reader;
mod registry;
mod tags;
mod types;
mod unicode;
mod walks;

use langtag::likely::{unknown_modifier, CLDR_VERSION};
#[cfg(feature = "names")]
use langtag::names::{autonym, describe};
use langtag::registry::misplaced_extlang;
use langtag::unicode::is_locale;
use literals::Literal;
#[cfg(feature = "names")]
use reader::escaped_text;
use reader::{ask, escaped, list, word, yes, Row};

fn answer(row: &Row) -> String {
    match row.call.as_str() {
        "tag" => tags::tag(&row.arguments[0]),
        "grandfathered" => tags::grandfathered(&row.arguments[0]),
        "viable" => tags::viable(&row.arguments[0]),
        "scan" => tags::scan(&row.arguments[0]),
        "recommended" => tags::recommended(&row.arguments[0]),
        "refused" => tags::refused(&row.arguments[0]),
        "message" => tags::message(&row.arguments[0]),
        "range-message" => tags::range_message(row.str(0)),
        "order" => tags::order(&row.arguments[0], &row.arguments[1]),
        "class" => types::class(&row.arguments[0]),
        "types" => types::types(row.str(0)),
        "new" => types::new(row.str(0), row.str(1)),
        "fronts" => types::fronts(row.str(0), row.str(1)),
        "spelling" => types::spelling(row.str(0)),
        "extension" => types::extension(row.str(0), row.str(1)),
        "walk" => walks::walk(row.str(0), row.str(1), row.str(2)),
        "edit" => edits::edit(row.str(0), row.str(1), row.str(2)),
        "validity" => row.tag(0).map_or("none".into(), registry::validity),
        "suggestion" => row.of_tag(registry::suggestion),
        "canonical" => row.of_tag(registry::canonical_form),
        "extlang-form" => row.of_tag(|tag| tag.extlang_form().into_string()),
        "fault" => row.of_tag(registry::fault),
        "misplaced" => registry::misplaced(row.str(0)),
        "misplaced-extlang" => row.of_tag(|tag| word(tag.as_normal().and_then(misplaced_extlang))),
        "subtag" => registry::subtag(row.str(0)),
        "registered" => row.of_tag(registry::registered),
        "range" => matching::range(row.text(0)),
        "match" => matching::matches(row.text(0), row.tag(1)),
        "same-term" => {
            let [one, other] = [0, 1].map(|index| Literal::read(row.str(index)).unwrap());
            yes(one == other)
        }
        "header" => matching::header(row.str(0), row.str(1)),
        "ranges" => matching::ranges(row.str(0), row.str(1)),
        "elements" => matching::elements(row.str(0)),
        "fallbacks" => matching::fallbacks(row.str(0)),
        "filter" => matching::filter(row.str(0), row.str(1), row.str(2)),
        "maximized" => row.of_tag(likely::maximal),
        "minimized" => row.of_tag(likely::minimal),
        "distance" => row.of_tag(|it| word(row.tag(1).map(|other| it.distance(other).to_string()))),
        "right-to-left" => row.of_tag(|tag| yes(tag.is_right_to_left())),
        // A name is a string in Rust, so other bytes cannot be asked.
        "posix" => row.text(0).map_or(row.wanted.clone(), likely::posix),
        "posix-name" => row.of_tag(likely::posix_name),
        "unknown-modifier" => word(unknown_modifier(&row.arguments[0]).map(escaped)),
        "parents" => row.of_tag(likely::chain),
        #[cfg(feature = "names")]
        "describe" => row.of_tag(|tag| escaped_text(&describe(tag))),
        #[cfg(feature = "names")]
        "autonym" => row.of_tag(|tag| word(autonym(tag).map(escaped_text))),
        // Names need the feature.
        #[cfg(not(feature = "names"))]
        "describe" | "autonym" => row.wanted.clone(),
        "best" => likely::best(&row.arguments[0], row.str(1)),
        "best-match" => likely::best_match(&row.arguments[0], row.str(1)),
        "best-accepted" => likely::best_accepted(row.str(0), row.str(1)),
        "best-ranges" => likely::best_ranges(row.str(0), row.str(1)),
        "suitable" => likely::suitable(&row.arguments[0], row.str(1)),
        "suitable-ranges" => likely::suitable_ranges(row.str(0), row.str(1)),
        "keyword" => row.of_tag(|tag| word(tag.keyword(row.str(1)))),
        "keywords" => row.of_tag(unicode::pairs),
        "attributes" => row.of_tag(|tag| list(tag.attributes())),
        "transform" => row.of_tag(unicode::transformed),
        "extensions-form" => row.of_tag(unicode::form),
        "with-keyword" => row.of_tag(|tag| unicode::edited(tag, row.str(1), row.str(2))),
        "base" => row.of_tag(tags::base),
        "is-locale" => row.tag(0).map_or("no".into(), |tag| yes(is_locale(tag))),
        "locale-form" => row.of_tag(unicode::whole_form),
        "resolved-locale" => word(
            row.tag(1)
                .map(|tag| likely::resolved(&row.arguments[0], tag)),
        ),
        "cldr-version" => CLDR_VERSION.into(),
        call => panic!("no call: {call}"),
    }
}

/// Writes a test for each file, and one that each call stands in a file.
macro_rules! files {
    ($($(#[$feature:meta])? $test:ident: $file:literal;)+) => {
        $(
            $(#[$feature])?
            #[test]
            fn $test() {
                ask($file, answer);
            }
        )+

        #[test]
        fn each_call_is_asked() {
            assert_eq!(reader::never_asked(&[$($file),+]), [""; 0]);
        }
    };
}

files! {
    table: "table.txt";
    texts: "texts.txt";
    prefixes: "prefixes.txt";
    lists: "walks.txt";
    parts: "edits.txt";
    subtags: "registry.txt";
    headers: "negotiation.txt";
    ranges: "ranges.txt";
    literal_strings: "rdf.txt";
    refusals: "refused.txt";
    forms: "likely.txt";
    distances: "distance.txt";
    directions: "direction.txt";
    names: "posix.txt";
    parents: "parents.txt";
    choices: "choices.txt";
    preferences: "lists.txt";
    suitable: "suitable.txt";
    lengths: "lengths.txt";
    extensions: "extensions.txt";
    setters: "keywords.txt";
    locales: "locale.txt";
    cases: "cldr.txt";
    keywords: "unicode.txt";
    #[cfg(feature = "names")] display_names: "names.txt";
}

/// Random rows, with the answers of the C library, of its oracles, or of a second implementation of the RFCs.
#[test]
fn as_c_answers() {
    if let Ok(path) = std::env::var("LANGTAG_ANSWERS") {
        ask(&path, answer);
    }
}
