"""CLDR's own cases of the canonical form of locale identifiers, as rows that the tests of every language run."""
from __future__ import annotations

import pathlib
from collections.abc import Iterator

from common import Refused
from identifiers import BETTER, fields

NAME = "localeCanonicalization.txt"

HEAD = """# Unicode's cases of the canonical form of a locale identifier (UTS #35, part 1, Annex C), in CLDR's order and with its headings.
# From Unicode CLDR {version} (testData/localeIdentifiers/{name}; {source}), Copyright (c) 1991-2025 Unicode, Inc.
# SPDX-License-Identifier: Unicode-3.0 (the notice: LICENSE-UNICODE). Written by data/unicode/from_cldr.py. Do not edit.
#
# CLDR writes `_` for the hyphen. The language in {count} rows differs from CLDR's. For Norwegian Sign Language, `sgn-NO`, CLDR has `nsi`,
# which is Nigerian, and IANA's registry has `nsl`. The rows are those of {better}.
#
#     cldr-version       the version of CLDR whose data the library has
#     locale-form TAG    the canonical form of a Unicode locale identifier

cldr-version | {version}
"""


def read(path: pathlib.Path) -> Iterator[tuple[str, str | None]]:
    """Returns each heading, with None, and each case, with its form. The lines before the first row of hashes are about the file."""
    _, _, body = path.read_text(encoding="utf-8").partition("\n######\n")
    for line in filter(None, body.splitlines()):
        if line.startswith("#"):
            yield line.lstrip("# "), None
            continue
        case, _, form = (text.strip().replace("_", "-") for text in line.partition(";"))
        if not fields(case.lower()) or not fields(form.lower()):
            raise Refused(f"{path.name}: two language identifiers: {line}")
        yield case, form


def better(case: str, form: str) -> str:
    """Returns the form, with the language of IANA's registry where CLDR has another sign language."""
    for tag, language, registered in BETTER:
        if case.split("-")[0] == tag.split("-")[0] and form.split("-")[0] == language:
            return registered + form.removeprefix(language)
    return form


def rows(path: pathlib.Path, version: str, source: str) -> str:
    """Returns the content of vectors/cldr.txt, made from CLDR's file of cases."""
    lines, differing = [], []
    for case, form in read(path):
        if form is None:
            lines.append(f"\n# {case}")
        else:
            lines.append(f"locale-form | {case} | {better(case, form)}")
            differing += [f"`{case}`"] if better(case, form) != form else []
    head = HEAD.format(name=path.name, version=version, source=source, count=len(differing), better=", ".join(differing))
    return head + "\n".join(lines) + "\n"
