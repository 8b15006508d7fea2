#!/usr/bin/env python3
"""Writes the files of cldr/, and vectors/cldr.txt, from Unicode's CLDR, in the form of Unicode's release or of Debian's package unicode-cldr-core.

usage: from_cldr.py COMMON VERSION SOURCE   COMMON is CLDR's folder `common`, which has bcp47/, supplemental/ and testData/; VERSION is
                                            like 48.2; SOURCE says for the head of each file where it came from

Aliases of types that no tag can contain are left out. So are aliases of languages and regions, which data/likely/from_cldr.py writes, and of
tags that are no language identifiers. CLDR's own cases become rows.
"""
from __future__ import annotations

import pathlib
import re
import sys
import xml.etree.ElementTree as XML
from collections.abc import Iterator

sys.path.append(str(pathlib.Path(__file__).resolve().parent.parent))
import cases  # noqa: E402
from common import Refused, write_cldr  # noqa: E402
from identifiers import IDENTIFIER  # noqa: E402

DATA = pathlib.Path(__file__).resolve().parent / "cldr"
ROWS = DATA.parent.parent.parent / "vectors"
TYPE = re.compile(r"[a-z0-9]{3,8}(-[a-z0-9]{3,8})*")


def type_aliases(common: pathlib.Path) -> Iterator[str]:
    """Returns the aliases of each type. A type with a preferred type is an alias of that type, and has no aliases of its own."""
    for path in sorted((common / "bcp47").glob("*.xml")):
        for key in XML.parse(path).getroot().iter("key"):
            for it in key.iter("type"):
                name, preferred = it.get("name"), it.get("preferred")
                aliases = [] if preferred else [alias.lower() for alias in (it.get("alias") or "").split()]
                pairs = [(name, preferred)] if preferred else [(alias, name) for alias in aliases if TYPE.fullmatch(alias) and alias != name]
                yield from (f"{key.get('extension', 'u')} {key.get('name')} {old} {new}" for old, new in pairs)


def subdivision_aliases(common: pathlib.Path) -> Iterator[str]:
    """Returns the aliases of subdivisions, each with its reason and its replacements."""
    for alias in XML.parse(common / "supplemental/supplementalMetadata.xml").getroot().iter("subdivisionAlias"):
        yield f"{alias.get('type')} {alias.get('reason')} {alias.get('replacement')}"


def identifier_aliases(common: pathlib.Path) -> Iterator[str]:
    """Returns the aliases of language identifiers that are neither a language nor a region."""
    aliases = XML.parse(common / "supplemental/supplementalMetadata.xml").getroot()
    for kind, before in (("languageAlias", ""), ("scriptAlias", "und-"), ("variantAlias", "und-")):
        for alias in aliases.iter(kind):
            old, new = (before + alias.get(name).replace("_", "-") for name in ("type", "replacement"))
            if "-" in old and IDENTIFIER.fullmatch(old.lower()):
                yield f"{old} {new}"


def main(common: pathlib.Path, version: str, source: str) -> None:
    metadata = "supplemental/supplementalMetadata.xml"
    write_cldr(common, version, source, DATA, [
        (name, title, of, sorted(set(rows))) for name, title, of, rows in (
            ("type-alias", "Aliases of types that a tag can hold: extension, key, alias, type", "bcp47/*.xml", type_aliases(common)),
            ("language-alias", "Aliases of language identifiers that are neither a language nor a region: identifier, replacement", metadata,
             identifier_aliases(common)),
            ("subdivision-alias", "Aliases of subdivisions: code, reason, replacements, of which the first is taken", metadata, subdivision_aliases(common)),
        )])
    rows = cases.rows(common / "testData/localeIdentifiers" / cases.NAME, version, source)
    (ROWS / "cldr.txt").write_text(rows, encoding="utf-8")


if __name__ == "__main__":
    if len(sys.argv) != 4:
        sys.exit(__doc__)
    try:
        main(pathlib.Path(sys.argv[1]), *sys.argv[2:])
    except Refused as refused:
        sys.exit(str(refused))
