#!/usr/bin/env python3
"""Writes the files of cldr/ from Unicode's CLDR, in the form of Unicode's release or of Debian's package unicode-cldr-core.

usage: from_cldr.py COMMON VERSION SOURCE   COMMON is CLDR's folder `common`, which has main/ and supplemental/; VERSION is like 48.2;
                                            SOURCE says for the head of each file where it came from
"""
from __future__ import annotations

import pathlib
import re
import sys
import xml.etree.ElementTree as XML
from collections.abc import Iterator

sys.path.append(str(pathlib.Path(__file__).resolve().parent.parent))
from common import write_cldr  # noqa: E402

DATA = pathlib.Path(__file__).resolve().parent / "cldr"

# The elements with names: the element around each kind, the file, and its title.
KINDS = {
    "language": ("languages", "english-languages", "each language and its English name"),
    "script": ("scripts", "english-scripts", "each script and its English name after a language"),
    "territory": ("territories", "english-regions", "each region and its English name"),
    "variant": ("variants", "english-variants", "each variant and its English name"),
}


def tag_of(locale: str) -> str:
    """Returns a locale of CLDR as a tag in its recommended case: `el-polyton` for `el_POLYTON`."""
    return "-".join(subtag.lower() if len(subtag) > 4 else subtag for subtag in locale.split("_"))


def names_of(root: XML.Element, kind: str) -> dict[str, str]:
    """Returns the names of a kind in a file of main/, without alternatives, the two halves for menus, and inherited names."""
    rows = root.findall(f"localeDisplayNames/{KINDS[kind][0]}/{kind}")
    plain = [row for row in rows if row.get("alt") is None and row.get("menu") is None]
    return {tag_of(row.get("type", "")): row.text for row in plain if row.text and row.text != "↑↑↑"}


class Autonyms:
    """Each language's own name, from all files of main/."""

    def __init__(self, common: pathlib.Path):
        self.parents: dict[str, str] = {}
        blocks = XML.parse(common / "supplemental/supplementalData.xml").getroot().iter("parentLocales")
        for row in next(block for block in blocks if block.get("component") is None):
            for child in row.get("locales", "").split():
                self.parents[tag_of(child)] = "" if row.get("parent") == "root" else tag_of(row.get("parent", ""))
        self.names = {tag_of(path.stem): names_of(XML.parse(path).getroot(), "language") for path in sorted((common / "main").glob("*.xml"))}

    def chain(self, tag: str) -> Iterator[str]:
        while tag:
            yield tag
            tag = self.parents.get(tag, tag.rpartition("-")[0])

    def of(self, tag: str) -> str | None:
        """Returns the name of a tag, or of its longest beginning with a name, in the nearest locale that has it."""
        subtags = tag.split("-")
        for asked in ("-".join(subtags[:count]) for count in range(len(subtags), 0, -1)):
            for locale in self.chain(tag):
                if asked in self.names.get(locale, {}):
                    return self.names[locale][asked]
        return None

    def rows(self) -> Iterator[tuple[str, str]]:
        """Returns the tags whose name is not that of the tag without its last subtag."""
        for tag in sorted({tag for names in self.names.values() for tag in names} | set(self.names)):
            shorter = tag.rpartition("-")[0]
            if (name := self.of(tag)) and name != (self.of(shorter) if shorter else None):
                yield tag, name


def files(common: pathlib.Path) -> Iterator[tuple[str, str, str, list[str]]]:
    """Returns for each file its name, its title, the files of CLDR from which it is made, and its lines."""
    title = "each language, or language with a script, a region or a variant, and its name in itself"
    yield "autonyms", title, "main/*.xml", [f"{tag} {name}" for tag, name in sorted(Autonyms(common).rows())]
    english = XML.parse(common / "main/en.xml").getroot()
    for kind, (_, file, title) in KINDS.items():
        yield file, title, "main/en.xml", [f"{tag} {name}" for tag, name in sorted(names_of(english, kind).items()) if "-" not in tag]


if __name__ == "__main__":
    if len(sys.argv) != 4:
        sys.exit(__doc__)
    write_cldr(folder := pathlib.Path(sys.argv[1]), *sys.argv[2:], DATA, files(folder))
