"""Reads the record-jar file of IANA's language subtag registry (RFC 5646 section 3.1.1), and refuses any other file."""
from __future__ import annotations

import datetime
import re
from typing import NamedTuple

from common import Refused

# The Types of records (section 3.1.2): the Types of subtags, and the Types of whole tags.
SUBTAG_TYPES = ["language", "extlang", "script", "region", "variant"]
TAG_TYPES = ["grandfathered", "redundant"]
REQUIRED = ["Type", "Description", "Added"]
AT_MOST_ONCE = ["Type", "Subtag", "Tag", "Added", "Deprecated", "Preferred-Value", "Suppress-Script", "Macrolanguage", "Scope"]


class Record(NamedTuple):
    kind: str
    text: str
    fields: dict[str, list[str]]

    def __str__(self) -> str:
        return f"{self.kind} {self.text}"

    def values(self, field: str) -> list[str]:
        return self.fields.get(field, [])

    def value(self, field: str) -> str | None:
        return next(iter(self.values(field)), None)


class Registry:
    """A registry: its date, and the records of each Type by their lowercase texts. A range is expanded to one record for each
    subtag."""

    def __init__(self, source: str):
        if not source.endswith("\n"):
            raise Refused(f"the file ends inside a line: {source.splitlines()[-1] if source else 'it is empty'}")
        head, *bodies = re.split(r"(?m)^%%[ \t]*\n", source)
        self.date = file_date(fields_of(head))
        self.kinds: dict[str, dict[str, Record]] = {kind: {} for kind in SUBTAG_TYPES + TAG_TYPES}
        for body in bodies:
            for record in records_of(body):
                of_kind = self.kinds[record.kind]
                if record.text.lower() in of_kind:
                    raise Refused(f"{record}: registered twice")
                of_kind[record.text.lower()] = record
        lacking = [kind for kind, of_kind in self.kinds.items() if not of_kind]
        if lacking:
            raise Refused(f"no record of Type {', '.join(lacking)}")

    def all(self, *kinds: str, having: str | None = None) -> list[Record]:
        """Returns the records of some Types, or only the records that have a field."""
        found = [record for kind in kinds for record in self.kinds[kind].values()]
        return [record for record in found if having is None or record.values(having)]

    def get(self, kind: str, text: str) -> Record | None:
        return self.kinds[kind].get(text.lower())

    def preferred(self, kind: str, text: str) -> str | None:
        record = self.get(kind, text)
        return record.value("Preferred-Value") if record else None


def fields_of(block: str) -> dict[str, list[str]]:
    """Returns the fields of a record, each with its values. A line that begins with a space continues the line before it."""
    fields: dict[str, list[str]] = {}
    for line in filter(str.strip, re.sub(r"\n[ \t]+", " ", block).split("\n")):
        found = re.fullmatch(r"([A-Za-z][A-Za-z0-9-]*)[ \t]*:[ \t]*(.*?)[ \t]*", line)
        if not found:
            raise Refused(f"a line without a field: {line!r}, in {block.splitlines()[:2]}")
        fields.setdefault(found[1], []).append(found[2])
    return fields


def is_date(text: str) -> bool:
    try:
        return bool(re.fullmatch(r"[0-9]{4}-[0-9]{2}-[0-9]{2}", text)) and bool(datetime.date.fromisoformat(text))
    except ValueError:
        return False


def file_date(head: dict[str, list[str]]) -> str:
    if list(head) != ["File-Date"] or len(head["File-Date"]) > 1:
        raise Refused(f"the first record is not a File-Date: {head}")
    if not is_date(head["File-Date"][0]):
        raise Refused(f"the File-Date is not a date: {head['File-Date'][0]}")
    return head["File-Date"][0]


def records_of(body: str) -> list[Record]:
    """Returns the record, or the records of a range."""
    fields = fields_of(body)
    name = " ".join(body.splitlines()[:2]) or "an empty record"
    for field in REQUIRED:
        if not fields.get(field):
            raise Refused(f"{name}: no {field}")
    for field in AT_MOST_ONCE:
        if len(fields.get(field, [])) > 1:
            raise Refused(f"{name}: {field} twice")
    kind = fields["Type"][0]
    if kind not in SUBTAG_TYPES + TAG_TYPES:
        raise Refused(f"{name}: an unknown Type")
    wanted, other = ("Subtag", "Tag") if kind in SUBTAG_TYPES else ("Tag", "Subtag")
    if not fields.get(wanted) or other in fields:
        raise Refused(f"{name}: not a {wanted} alone")
    return [Record(kind, text, fields) for text in written_out(fields[wanted][0], name)]


def written_out(field: str, name: str) -> list[str]:
    """Returns the subtags of a Subtag field, which may be a range: `qaa..qtz` (section 3.1.2)."""
    first, dots, last = field.partition("..")
    if not dots:
        return [field]
    if not (re.fullmatch(r"[A-Za-z]{2,4}\.\.[A-Za-z]{2,4}", field) and len(first) == len(last) and first.lower() <= last.lower()):
        raise Refused(f"{name}: not a range of letters")
    found = [first]
    while found[-1].lower() != last.lower():
        found.append(next_text(found[-1]))
    return found


def next_text(text: str) -> str:
    """Returns the next text of the same length in alphabetical order."""
    kept = text.rstrip("zZ")
    turned = "".join("A" if letter == "Z" else "a" for letter in text[len(kept):])
    return kept[:-1] + chr(ord(kept[-1]) + 1) + turned
