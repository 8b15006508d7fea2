#!/usr/bin/env python3
"""Writes the tables and the lists of the crates langtag_cldr, langtag_parent and langtag_choice from Unicode's CLDR. Its likely
subtags, its parent locales and its data for language matching are in cldr/ (from_cldr.py writes them).

Newer data in which a language has lost its row are refused, unless --accept names the language, or another language replaces it
(language-alias.txt).
"""
from __future__ import annotations

import itertools
import pathlib
import re
import sys

sys.path.append(str(pathlib.Path(__file__).resolve().parent.parent))
import common  # noqa: E402
from common import (Generator, Refused, bits, cldr_version, codes, files_of, folded_number, head, joined, keys, letter_number, lists, rows_of, run,  # noqa: E402
                    table, word_list)
from matching import Matching  # noqa: E402

DATA = "data/likely/cldr"
MODULE = "bindings/postgresql/cldr_version.mk"

# The variants of Arab and Syrc that have codes of their own (ISO 15924). The data do not name them.
SCRIPT_VARIANTS = ["Aran", "Syre", "Syrj", "Syrn"]

# A column of a table has one byte, so at most 256 values. A key of other_rows also has a byte for the script. There 0 means that
# there is no script, and the number after the last script means a script that is not in the list.
MOST_NAMES, MOST_SCRIPTS = 256, 254

# The languages of three letters that begin tags that the registry replaces as a whole, and the language that is unknown.
CHANGED = ["art", "sgn", "und"]

EMPTY = "-"


def read(name):
    return rows_of(f"{DATA}/{name}")


def version():
    return cldr_version(files_of(DATA))


def given(text):
    return "" if text == EMPTY else text


def read_all():
    likely = Likely(read("likely.txt"), {row[i] for row in read("script-distance.txt") for i in (1, 3)})
    return likely, Matching(read, likely)


class Likely:
    """The likely subtags: the rows with only a language on the left, and the other rows, both in the order of their keys."""

    def __init__(self, rows, scripts):
        rows = [tuple(map(given, row)) for row in rows]
        self.scripts = sorted({row[i] for row in rows for i in (1, 4)} - {""} | scripts, key=folded_number)
        self.regions = sorted({row[i] for row in rows for i in (2, 5)} - {""}, key=folded_number)
        self.of_languages = sorted((row for row in rows if row[0] and not row[1] and not row[2]), key=lambda row: letter_number(row[0]))
        others = [row for row in rows if not (row[0] and not row[1] and not row[2])]
        self.others = sorted(others, key=self.key)
        self.languages = [""] + sorted({row[3] for row in others} - {""}, key=letter_number)
        self.test(rows)

    def key(self, row):
        """Returns the language, script and region of the left side as one number above 0. Indices are counted from 1, and an empty
        field has the index 0."""
        script = self.scripts.index(row[1]) + 1 if row[1] else 0
        region = self.regions.index(row[2]) + 1 if row[2] else 0
        return letter_number(row[0]) * 131072 + script * 512 + region + 1

    def test(self, rows):
        def each(premise, holds):
            common.each("likely.txt", premise, holds, rows)

        seen = set()
        each("a left side once", lambda row: not (row[:3] in seen or seen.add(row[:3])))
        each("a language has at most three letters", lambda row: all(not text or len(text) in (2, 3) and text.isalpha() and text.islower() for text in (row[0], row[3])))
        each("no language is und", lambda row: "und" not in (row[0], row[3]))
        each("a script has four letters", lambda row: all(not text or len(text) == 4 and text.isalpha() for text in (row[1], row[4])))
        each("a region has two letters or three digits", lambda row: all(not text or len(text) == 2 and text.isalpha() or len(text) == 3 and text.isdigit() for text in (row[2], row[5])))
        each("the right side has a script other than Zzzz", lambda row: row[4] not in ("", "Zzzz"))
        each("the right side has a region other than ZZ", lambda row: row[5] not in ("", "ZZ"))
        each("the left side has no Zzzz and no ZZ", lambda row: row[1] != "Zzzz" and row[2] != "ZZ")
        each("the right side keeps the language", lambda row: row[0] in ("", row[3]))
        alone = {row[0] for row in self.of_languages}
        each("the language of a right side is a left side", lambda row: not row[3] or row[3] in alone)
        each("a row without a language has a script on the left side", lambda row: row[3] or row[1])
        keys = {row[:3] for row in rows}
        each("a right side without a language is its own", lambda row: row[3] or row[3:] == row[:3] or not {("", row[4], row[5]), ("", row[4], "")} & (keys - {row[:3]})
             or row[3:] in [other[3:] for other in rows if other[:3] == ("", row[4], row[5])])
        for what, names, most, remedy in (
            ("scripts", self.scripts, MOST_SCRIPTS, "give the script more than a byte in key_number, and OTHER_KEYS more than 32 bits"),
            ("regions", self.regions, MOST_NAMES, "make LANGUAGE_REGIONS, OTHER_REGIONS and name_in's column u16"),
            ("languages of right sides", self.languages, MOST_NAMES, "make OTHER_LANGUAGES, and a twin of name_in for it, u16"),
        ):
            if len(names) > most:
                raise Refused(f"likely.txt: {len(names)} {what}, and the tables have room for {most}: {remedy}")


def counts(name, doc, bits, items):
    return table(name, doc, f"u{bits}", items)


def bit_table(name, doc, words):
    return table(name, f"A bit for each text of two letters, and then of three, in alphabetical order: it is set if {doc}. The first text has the lowest bit of the first word.",
                 "u64", [f"0x{word:016X}" for word in words])


def names(name, doc, texts):
    return table(name, doc, "[u8; 4]", ['*b"' + text + "\\0" * (4 - len(text)) + '"' for text in texts])


def right_to_left_scripts():
    return sorted([row[0] for row in read("right-to-left.txt")] + SCRIPT_VARIANTS, key=folded_number)


def tables(likely):
    language_bits = bits(row[0] for row in likely.of_languages)
    script = lambda row: likely.scripts.index(row[4])
    region = lambda row: likely.regions.index(row[5])
    return "\n".join([
        head("//!", f"Unicode's CLDR {version()} in tables", "likely"),
        f"/// The version of Unicode's CLDR in this crate.\n" f'pub const CLDR_VERSION: &str = "{version()}";\n',
        keys("SCRIPT_KEYS", "The keys of the scripts, in ascending order: each key is the number whose base-256 digits are the lowercase bytes.", 32, map(folded_number, likely.scripts)),
        names("SCRIPT_NAMES", "The same scripts as text, in the same order.", likely.scripts),
        keys("REGION_KEYS", "The keys of the regions, in ascending order: each key is the number whose base-256 digits are the lowercase bytes.", 32, map(folded_number, likely.regions)),
        names("REGION_NAMES", "The same regions as text, in the same order.", likely.regions),
        names("LANGUAGE_NAMES", "An empty entry for no language, and then the languages on the right sides of the rows of `OTHER_KEYS`.", likely.languages),
        bit_table("LANGUAGE_BITS", "the language has likely\n/// subtags", language_bits),
        counts("LANGUAGE_ENDS", "The number of bits that are set in each word and all words before it.", 16,
                itertools.accumulate(word.bit_count() for word in language_bits)),
        counts("LANGUAGE_SCRIPTS", "The index of the likely script of each language of `LANGUAGE_BITS`, among the scripts.", 8, map(script, likely.of_languages)),
        counts("LANGUAGE_REGIONS", "The index of the likely region of each language of `LANGUAGE_BITS`, among the regions.", 8, map(region, likely.of_languages)),
        keys("OTHER_KEYS", "The left sides that are not only a language, in ascending order: language, script and region as one number.", 32, map(likely.key, likely.others)),
        counts("OTHER_LANGUAGES", "The index of the language on the right side of each row of `OTHER_KEYS`.", 8, [likely.languages.index(row[3]) for row in likely.others]),
        counts("OTHER_SCRIPTS", "The index of the script on the right side of each row of `OTHER_KEYS`.", 8, map(script, likely.others)),
        counts("OTHER_REGIONS", "The index of the region on the right side of each row of `OTHER_KEYS`.", 8, map(region, likely.others)),
        keys("RIGHT_TO_LEFT_KEYS", "The keys, in ascending order, of the scripts that are written from right to left, with variants of scripts that have codes of\n"
                "/// their own (ISO 15924).", 32, map(folded_number, right_to_left_scripts())),
    ])


def head_of(comment, what, form=""):
    return head(comment, f"{what} of Unicode's CLDR {version()}{form}", "likely")


def head_of_lists(what, names, *uses):
    """Returns the head of a page of lists, which uses these names of the Prelude, and these pages."""
    pages = ["Rattle.std.specs.List.{flat_map}"] * ("◌∷◌" in names) + ["Rattle.langtag_text.specs.Words.{words}", *uses]
    return head_of("--", what) + "".join(f"use {page}\n" for page in [f"Rattle.std.specs.Prelude.{{{names}}}", *pages])


def alias_tables(matching):
    scripts, regions = (sorted({""} | {row[i] for row in matching.aliases}, key=folded_number) for i in (2, 3))
    return "\n".join([
        head_of("//!", "The deprecated languages and regions", ", in tables"),
        keys("ALIAS_KEYS", "The keys of the languages that are replaced, in ascending order: each key is the number whose base-26 digits are the letters.", 16, [letter_number(row[0]) for row in matching.aliases]),
        names("ALIAS_LANGUAGES", "The language that replaces each language of `ALIAS_KEYS`.", [row[1] for row in matching.aliases]),
        names("ALIAS_SCRIPT_NAMES", "An empty entry for no script, and then the scripts that come with a replacement.", scripts),
        counts("ALIAS_SCRIPTS", "The index of the script that comes with each replacement.", 8, [scripts.index(row[2]) for row in matching.aliases]),
        names("ALIAS_REGION_NAMES", "An empty entry for no region, and then the regions that come with a replacement.", regions),
        counts("ALIAS_REGIONS", "The index of the region that comes with each replacement.", 8, [regions.index(row[3]) for row in matching.aliases]),
        keys("REGION_ALIAS_KEYS", "The keys of the regions that are replaced, in ascending order: each key is the number whose base-256 digits are the lowercase bytes.", 32,
                [folded_number(row[0]) for row in matching.region_aliases]),
        names("REGION_ALIAS_NAMES", "The region that replaces each region of `REGION_ALIAS_KEYS`, or the first of several.", [row[1] for row in matching.region_aliases]),
        keys("REPLACEMENT_KEYS", "The keys, in ascending order, of the regions that another region replaces, including codes of three digits.", 32,
                [folded_number(row[0]) for row in matching.replacements]),
        names("REPLACEMENT_NAMES", "The region that replaces each region of `REPLACEMENT_KEYS`.", [row[1] for row in matching.replacements]),
    ])


def matching_tables(matching):
    return "\n".join([
        head_of("//!", "The rules of language matching", ", in tables"),
        keys("LANGUAGE_RULE_KEYS", "The desired and the supported language of each rule, as one number, in ascending order.", 32, map(matching.language_key, matching.languages)),
        counts("LANGUAGE_RULE_DISTANCES", "The distance that each rule of `LANGUAGE_RULE_KEYS` gives.", 8, [row[2] for row in matching.languages]),
        bit_table("CHANGED_BITS", "the language is\n/// replaced, is `und`, or begins tags that are replaced (`art`, `sgn`)", bits([row[0] for row in matching.aliases] + CHANGED)),
        keys("SCRIPT_RULE_KEYS", "The desired and the supported language of each rule, both with their scripts, as one number, in ascending order.", 64, map(matching.script_key, matching.scripts)),
        counts("SCRIPT_RULE_DISTANCES", "The distance that each rule of `SCRIPT_RULE_KEYS` gives.", 8, [row[2] for row in matching.scripts]),
        keys("GROUP_KEYS", "The keys of the groups of regions, in ascending order.", 32, [folded_number(group) for group, _ in matching.groups]),
        lists("GROUP_REGIONS", "The keys of the regions of each group of `GROUP_KEYS`, in ascending order.", 32, [map(folded_number, regions) for _, regions in matching.groups]),
    ] + [
        keys(f"{const}_{part.upper()}", f"The keys, in ascending order, of the regions that are {'wholly' if part == 'inside' else 'partly'} in {name}.", 32, map(folded_number, texts))
        for name, const in SETS for part, texts in zip(("inside", "partly"), matching.sets[name])
    ])


class Parents:
    """The parent locales, in the order of their keys: each language, script and region, with those of its parent, which are empty if it has
    none."""

    def __init__(self, rows):
        self.rows = sorted(((fields_of(tag), fields_of(given(parent))) for tag, parent in rows), key=lambda row: self.key(row[0]))
        self.parents = sorted({parent for _, parent in self.rows})
        common.once("parents.txt", [tag for tag, _ in self.rows])

    def key(self, fields):
        """Returns the language, script and region as one number."""
        return letter_number(fields[0]) << 56 | folded_number(fields[1]) << 24 | folded_number(fields[2])


def fields_of(tag):
    """Returns the language, script and region of a tag, or empty texts for no tag."""
    found = re.fullmatch(r"([a-z]{2,3})(?:-([A-Z][a-z]{3}))?(?:-([A-Z]{2}|[0-9]{3}))?", tag)
    if tag and not found:
        raise Refused(f"parents.txt: a language with a script and a region at most: {tag}")
    return found.groups("") if found else ("", "", "")


def parent_tables(parents):
    return "\n".join([
        head_of("//!", "The parent locales", ", in tables"),
        keys("PARENT_KEYS", "The tags whose parent is not the tag without its last subtag, in ascending order: language, script and region as one number.", 128,
                [parents.key(tag) for tag, _ in parents.rows]),
        counts("PARENT_INDICES", "The index of the parent of each tag of `PARENT_KEYS` in the tables below.", 8, [parents.parents.index(parent) for _, parent in parents.rows]),
    ] + [
        table(f"PARENT_{name.upper()}S", f"The {name} of each parent, which is empty if there is none.", "&[u8]", [f'b"{parent[at]}"' for parent in parents.parents])
        for at, name in enumerate(("language", "script", "region"))
    ])


def parent_lists(parents):
    return "\n".join([
        head_of_lists("The parent locales", "[], ◌∷◌, List, codes", "Rattle.langtag_cldr.specs.Likely.{Likely, likely_of_fields}"),
        row_list("parent_locales", "the tags whose parent is not the tag without its last subtag: language, script and region of the tag, and then of its parent, or hyphens if it has none",
                  "Likely", "likely_of_fields", [[fields(*tag, *parent)] for tag, parent in parents.rows]),
    ])


SETS = [("maghreb", "MAGHREB"), ("enUS", "EN_US"), ("americas", "AMERICAS"), ("cnsar", "CNSAR")]


def row_list(name, doc, kind, reader, rows):
    read = f"(λ text. {reader} (words text))" if reader else "words"
    return word_list(name, doc, kind, read, rows, 24)


def fields(*texts):
    return " ".join(text or EMPTY for text in texts)


def alias_lists(matching):
    return "\n".join([
        head_of_lists("The deprecated languages and regions", "[], ◌∷◌, List, codes", "Rattle.langtag_cldr.specs.Likely.{Likely, likely_of_fields}"),
        row_list("language_aliases", "the languages that are replaced, each with its replacement: language, script and region", "Likely", "likely_of_fields",
                  [[fields(row[0], "", "", *row[1:])] for row in matching.aliases]),
        row_list("region_aliases", "the regions that are replaced, including codes of three digits, each with the first of its replacements", "Likely", "likely_of_fields",
                  [[fields("", "", row[0], "", "", row[1])] for row in matching.region_aliases]),
        row_list("region_replacements", "the regions that another region replaces, including codes of three digits, each with its replacement", "Likely", "likely_of_fields",
                  [[fields("", "", row[0], "", "", row[1])] for row in matching.replacements]),
    ])


def matching_lists(matching):
    return "\n".join([
        head_of_lists("The rules of language matching", "ℕ, [], ◌∷◌, List, codes",
                      "Rattle.langtag_choice.specs.Rules.{Rule, rules_of_languages, rules_of_scripts}", "Rattle.langtag_choice.specs.RegionGroup.{RegionGroup, groups_of_words}"),
        row_list("language_rules", "the rules for languages: a desired language, a supported language, and their distance. A rule that holds in both directions is listed twice", "Rule", "rules_of_languages",
                  [[row[0], row[1], str(row[2])] for row in matching.languages]),
        row_list("script_rules", "the rules for scripts: a desired language with its script, a supported language with its script, and the distance of the scripts. A rule that holds in both directions is listed twice", "Rule",
                  "rules_of_scripts", [[*row[0], *row[1], str(row[2])] for row in matching.scripts]),
        word_list("region_groups", "the groups of regions other than the world, each before its regions: countries, and smaller groups", "RegionGroup",
                  "(λ text. groups_of_words (words text))", [[group, *regions] for group, regions in matching.groups], 1),
    ] + [
        row_list(f"{const.lower()}_{part}", f"the regions of ${name}: countries, and groups of countries that are all in it" if part == "inside" else f"groups of countries of which some are in ${name}, but not all",
                  "(List ℕ)", "", [[text] for text in texts])
        for name, const in SETS for part, texts in zip(("inside", "partly"), matching.sets[name])
    ])


def likely_list(name, doc, reader, rows):
    """Returns a list of rows, with one literal for each first letter."""
    groups = {}
    for row in rows:
        groups.setdefault((len(row[0]), row[0][:1]), []).append(fields(*row))
    return joined(name, doc, "Likely", f"(λ text. {reader} (words text))", map(codes, groups.values()))


def likely_lists(likely):
    return "\n".join([
        head_of_lists("The likely subtags", "[], ◌∷◌, ◌++◌, List, codes", "Rattle.langtag_cldr.specs.Likely.{Likely, likely_of_languages, likely_of_fields}"),
        likely_list("language_rows", "the rows whose left side is only a language: this language, and its likely script and region", "likely_of_languages",
                    [(row[0], row[4], row[5]) for row in likely.of_languages]),
        likely_list("other_rows", "the rows whose left side is not only a language: language, script and region of the left side, and then of the right side", "likely_of_fields", likely.others),
        "-- all rows of likely subtags\nunfoldable pub likely_subtags : List Likely\nlikely_subtags = language_rows ++ other_rows\n",
    ])


def script_list():
    return "\n".join([
        head_of("--", "The scripts", " that are written from right to left") +
        "use Rattle.std.specs.Prelude.{ℕ, List, codes}\nuse Rattle.langtag_text.specs.Words.{words}\n",
        "-- the scripts whose field 'RTL?' in scriptMetadata is YES, and the variants of Arab (Aran) and Syrc (Syre, Syrj and Syrn), which have codes of their own in ISO 15924\n"
        f"unfoldable pub right_to_left_scripts : List (List ℕ)\nright_to_left_scripts = words ({codes(right_to_left_scripts())})\n",
    ])


def code_list(likely):
    return (head_of_lists("The codes of the scripts in the likely subtags", "ℕ, List, codes") +
            f"\n-- the codes of the scripts on both sides of the rows, in alphabetical order\nunfoldable pub script_codes : List (List ℕ)\nscript_codes = words ({codes(likely.scripts)})\n")


def module_version():
    """Returns the Makefile's line with the version that is in the name of PostgreSQL's module."""
    return f"# The version of CLDR in the library. Written by data/likely/generate.py. Do not edit.\nCLDR_VERSION = {version()}\n"


class OfLikely(Generator):
    checksums = f"{DATA}.sha256"

    def data(self):
        return files_of(DATA)

    def written(self):
        likely, matching = read_all()
        parents = Parents(read("parents.txt"))
        crates = {
            "langtag_cldr/src/tables.rt": tables(likely), "langtag_cldr/src/alias_tables.rt": alias_tables(matching),
            "langtag_cldr/specs/LikelySubtags.antt": likely_lists(likely), "langtag_cldr/specs/Aliases.antt": alias_lists(matching),
            "langtag_cldr/specs/RightToLeft.antt": script_list(), "langtag_cldr/specs/Scripts.antt": code_list(likely),
            "langtag_choice/src/matching_tables.rt": matching_tables(matching), "langtag_choice/specs/MatchingData.antt": matching_lists(matching),
            "langtag_parent/src/tables.rt": parent_tables(parents), "langtag_parent/specs/ParentLocales.antt": parent_lists(parents),
        }
        return {f"crates/{path}": text for path, text in crates.items()} | {MODULE: module_version()}

    def lost(self, named):
        """Returns the languages that lost their row, or lost their rule and have no row. The results for their tags change."""
        likely, matching = read_all()
        standing = common.lists_of("crates/langtag_cldr/specs/LikelySubtags.antt") | common.lists_of("crates/langtag_choice/specs/MatchingData.antt")
        rows = {row[0] for row in likely.of_languages}
        rules = {text for row in matching.languages for text in row[:2]}
        had_row, had_rule = {*standing["language_rows"][::3]}, {*standing["language_rules"][::3], *standing["language_rules"][1::3]}
        for language in sorted((had_row - rows | had_rule - rows - rules) - {row[0] for row in matching.aliases} - set(named)):
            yield f"{language}: it had a {'row' if language in had_row else 'rule'}, and has none now"


if __name__ == "__main__":
    sys.exit(run(OfLikely(), sys.argv[1:]))
