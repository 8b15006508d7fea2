#!/usr/bin/env python3
"""Writes the files of cldr/ from Unicode's CLDR, in the form of Unicode's release or of Debian's package unicode-cldr-core.

usage: from_cldr.py COMMON VERSION SOURCE   COMMON is CLDR's folder `common`, which has supplemental/ and properties/; VERSION is
                                            like 48.2; SOURCE says for the head of each file where it came from
       from_cldr.py --test QUESTIONS        asks oracle.py CLDR's own questions: QUESTIONS is the file
                                            common/testData/localeIdentifiers/likelySubtags.txt

If the form of a row is unknown, it is refused, and nothing is written. The following are left out: aliases of whole tags and of
regions of three letters, deprecated groups of regions, and the likely subtags of languages that are aliases.
"""
from __future__ import annotations

import pathlib
import re
import sys
import xml.etree.ElementTree as XML
from collections.abc import Iterable, Iterator

sys.path.append(str(pathlib.Path(__file__).resolve().parent.parent))
from common import Refused, write_cldr  # noqa: E402

DATA = pathlib.Path(__file__).resolve().parent / "cldr"
LOCALE = re.compile(r"([a-z]{2,3})(?:_([A-Z][a-z]{3}))?(?:_([A-Z]{2}|[0-9]{3}))?")
EMPTY = "-"

# The distances of all pairs that no rule names: of languages, of languages with scripts, and with regions. specs/ states the same
# numbers.
OTHERWISE = [(1, "80"), (2, "50"), (3, "4")]


def fields(locale: str) -> tuple[str, str, str]:
    """Returns language, script and region of `zh_Hant_TW`, with a hyphen for an absent subtag and for `und`."""
    found = LOCALE.fullmatch(locale)
    if not found:
        raise Refused(f"not a locale of language, script and region: {locale}")
    language, script, region = (EMPTY if text in (None, "und") else text for text in found.groups())
    return language, script, region


class Cldr:
    """The data of a release that the library needs: likely subtags, aliases, the rules of language matching, groups of regions,
    directions."""

    def __init__(self, common: pathlib.Path):
        def root(name):
            return XML.parse(common / "supplemental" / name).getroot()

        self.read_aliases(root("supplementalMetadata.xml").find(".//alias"))
        self.likely = [(fields(row.get("from")), fields(row.get("to"))) for row in root("likelySubtags.xml").iter("likelySubtag")]
        data = root("supplementalData.xml")
        self.read_groups(data.find("territoryContainment"))
        self.read_parents(row for block in data.iter("parentLocales") if block.get("component") is None for row in block)
        self.read_rules(root("languageInfo.xml").find(".//languageMatches"))
        rows = [line.split(";") for line in (common / "properties/scriptMetadata.txt").read_text(encoding="utf-8").splitlines()]
        self.right_to_left = [row[0].strip() for row in rows if len(row) > 6 and not row[0].startswith("#") and row[6].strip() == "YES"]

    def read_aliases(self, aliases: XML.Element) -> None:
        self.languages = {row.get("type"): fields(row.get("replacement")) for row in aliases.iter("languageAlias")
                          if re.fullmatch("[a-z]{2,3}", row.get("type")) and LOCALE.fullmatch(row.get("replacement"))}
        self.regions = {row.get("type"): row.get("replacement").split() for row in aliases.iter("territoryAlias")
                        if len(row.get("type")) == 2 or row.get("type").isdigit()}

    def read_groups(self, containment: XML.Element) -> None:
        contains: dict[str, set[str]] = {}
        for row in containment:
            if row.get("status") != "deprecated":
                contains.setdefault(row.get("type"), set()).update(row.get("contains").split())

        def countries(region: str) -> set[str]:
            return set().union(*map(countries, contains[region])) if region in contains else {region}

        self.groups = {group: countries(group) for group in contains}

    def read_parents(self, rows: Iterable[XML.Element]) -> None:
        """Reads the locales whose parent is not the locale without its last subtag; that of the root is a hyphen."""
        def tag(locale: str) -> str:
            return EMPTY if locale == "root" else "-".join(text for text in fields(locale) if text != EMPTY)
        self.parents = [(tag(locale), tag(row.get("parent", ""))) for row in rows for locale in row.get("locales", "").split()]

    def read_rules(self, matches: XML.Element) -> None:
        if unknown := {row.tag for row in matches} - {"paradigmLocales", "matchVariable", "languageMatch"}:
            raise Refused(f"languageMatches has {unknown}")
        self.paradigms = matches.find("paradigmLocales").get("locales").replace("_", "-").split()
        self.sets = {row.get("id"): set().union(*({region} | self.groups.get(region, set()) for region in row.get("value").split("+")))
                     for row in matches.iter("matchVariable")}
        self.rules = [(row.get("desired").split("_"), row.get("supported").split("_"), row.get("distance"), int(row.get("oneway") == "true"))
                      for row in matches.iter("languageMatch")]
        otherwise = [(len(desired), far) for desired, supported, far, _ in self.rules if set(desired + supported) == {"*"}]
        if otherwise != OTHERWISE:
            raise Refused(f"the distances of all other pairs are {otherwise}, and not {OTHERWISE}")

    def files(self) -> Iterator[tuple[str, str, str, list[str]]]:
        """Returns for each file its name, its title, the files of CLDR from which it is made, and its lines."""
        info, metadata, data = (f"supplemental/{name}.xml" for name in ("languageInfo", "supplementalMetadata", "supplementalData"))
        of_scripts = [rule for rule in self.rules if len(rule[0]) == 2 and rule[0][0] != "*"]
        yield ("likely", "Likely subtags: language script region -> language script region", "supplemental/likelySubtags.xml",
               sorted(line(old, new) for old, new in self.likely if old[0] not in self.languages))
        yield ("language-distance", "desired supported distance, `1` where it holds in this direction only (all other pairs: 80)", info,
               sorted(line(*rule) for rule in self.rules if len(rule[0]) == 1 and rule[0] != ["*"]))
        yield ("script-distance", "desired language, script, supported language, script, distance, `1` where in this direction only"
               " (all other pairs: 50)", info, sorted(line(*rule) for rule in of_scripts))
        yield ("region-distance", "in this order, the first that fits: language script region-set supported-region-set distance"
               " (both directions; last: all)", info, [line(desired, supported[2], far) for desired, supported, far, _ in self.rules if len(desired) == 3])
        yield ("region-sets", "the region sets of region-distance.txt: countries, and the groups that lie wholly inside",
               f"{info}, supplementalData.xml", [line(name, sorted(inside)) for name, inside in sorted(self.sets.items())])
        yield ("region-groups", "each group of regions (not deprecated) and its countries", data,
               [line(group, sorted(its)) for group, its in sorted(self.groups.items())])
        yield "paradigms", "paradigm tags", info, self.paradigms
        yield ("language-alias", "a language subtag and its replacement: language script region", metadata,
               sorted(line(old, new) for old, new in self.languages.items()))
        yield ("region-alias", "a region subtag and its replacements", metadata, sorted(line(old, new) for old, new in self.regions.items()))
        yield ("parents", "each tag whose parent is not the tag without its last subtag, and its parent, or a hyphen for none", data,
               sorted(line(*row) for row in self.parents))
        yield "right-to-left", "The scripts that are written from right to left", "properties/scriptMetadata.txt", sorted(self.right_to_left)


def line(*words) -> str:
    return " ".join(" ".join(word) if isinstance(word, (tuple, list)) else str(word) for word in words)


def write(common: pathlib.Path, version: str, source: str, folder: pathlib.Path = DATA) -> None:
    write_cldr(common, version, source, folder, Cldr(common).files())


def questions(text: str) -> Iterator[tuple[str, str]]:
    """Returns CLDR's own questions: a tag, and its maximal and minimal form as oracle.py prints them. FAIL means that the tag
    stays."""
    for row in text.splitlines():
        tag, most, by_script, by_region = ([word.strip() for word in row.partition("#")[0].split(";")] + ["", "", ""])[:4]
        if tag:
            yield tag, f"{tag}\t{tag}" if most == "FAIL" else f"{most}\t{by_region or by_script or most}"


def test(path: pathlib.Path) -> bool:
    """Returns whether oracle.py has another answer to a question than CLDR."""
    import oracle
    asked = list(questions(path.read_text(encoding="utf-8")))
    wrong = [(tag, oracle.forms(tag), answer) for tag, answer in asked if oracle.forms(tag) != answer]
    for tag, told, answer in wrong:
        print(f"{tag}: {told.split()}, and not {answer.split()}")
    print(f"{len(asked)} questions, {len(wrong)} answered otherwise")
    return bool(wrong) or not asked


def main(words: list[str]) -> int:
    try:
        if len(words) == 2 and words[0] == "--test":
            return test(pathlib.Path(words[1]))
        if len(words) == 3:
            write(pathlib.Path(words[0]), words[1], words[2])
            return 0
    except (Refused, OSError, XML.ParseError) as error:
        sys.exit(f"from_cldr.py: {error}")
    sys.exit(__doc__)


if __name__ == "__main__":
    sys.exit(main(sys.argv[1:]))
