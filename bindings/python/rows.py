"""Reads the rows that the tests of all languages run: a call, its arguments and its result. They are in vectors/, whose README
describes their form."""
from __future__ import annotations

import collections
import os
import pathlib
import re
import traceback
from typing import Callable, Iterator, Mapping, NamedTuple

FOLDER = pathlib.Path(__file__).resolve().parent.parent.parent / "vectors"

#: The number of arguments of each call.
CALLS = {name: int(count) for name, count in re.findall(r"(?m)^([\w-]+) (\d)$", (FOLDER / "calls.txt").read_text("ascii"))}

#: The one file of rows to run, if LANGTAG_ROWS names one.
ALONE = os.environ.get("LANGTAG_ROWS")

Answer = Callable[..., "str | None"]


class Row(NamedTuple):
    """A row: its file and line, its text, the call, the arguments as bytes, and the answer. A row without an answer is a question.
    Further lines of a row are in its answer, each after a line feed."""

    place: str
    text: str
    call: str
    arguments: list[bytes]
    wanted: str


def floors(language: str) -> dict[str, int]:
    """Returns the files of rows to run, each with the least number of rows that have to be run."""
    head, *lines = [line.split() for line in (FOLDER / "floors.txt").read_text("ascii").splitlines()[1:]]
    found = {line[0]: line[head.index(language)] for line in lines}
    return {name: int(floor) for name, floor in found.items() if floor != "-" and name == (ALONE or name)}


def expand(line: str) -> str:
    return re.sub(r"\{(\d+):([^}]*)\}", lambda found: int(found[1]) * found[2], line)


def unescape(word: str) -> bytes:
    return b"" if word == "''" else re.sub(rb"\\x(..)", lambda found: bytes([int(found[1], 16)]), word.encode())


def read(path: pathlib.Path) -> Iterator[Row]:
    """Reads the rows of a file."""
    lines = path.read_text("ascii").splitlines()
    for at, line in enumerate(lines):
        if not line or line[0] in "# ":
            continue
        text = expand(line)
        words = text.split(" | ")
        end = CALLS[words[0]] + 1
        wanted = " | ".join(words[end:])
        for more in range(at + 1, len(lines)):  # a slice for each row would be quadratic
            if not lines[more].startswith(" "):
                break
            wanted += "\n" + expand(lines[more])
        yield Row(f"{path.name}:{at + 1}", text, words[0], [unescape(word) for word in words[1:end]], wanted)


def escaped(text: str) -> str:
    """Returns a text as the rows have it: bytes beyond ASCII as \\xNN."""
    return "".join(it if it < "\x80" else "".join(f"\\x{byte:02x}" for byte in it.encode("utf-8", "surrogatepass")) for it in text)


class Asker:
    """Runs the rows in a language: `answers` has the language's answer to a call with its arguments, or None if it has no such
    call, and `adapted` changes a row's answer to the form of the language."""

    def __init__(self, answers: Mapping[str, Answer], adapted: Callable[[Row], str] = lambda row: row.wanted):
        self.answers, self.adapted = answers, adapted
        self.asked: collections.Counter[str] = collections.Counter()
        self.differing: list[str] = []
        self.lacking: list[str] = []

    def ask(self, path: pathlib.Path, floor: int) -> None:
        """Runs the rows of a file, which has to have at least `floor` rows. Writes the answers to questions."""
        before = sum(self.asked.values())
        for row in read(path):
            found = self.answer(row)
            if found is None:
                continue
            self.asked[row.call] += 1
            wanted = self.adapted(row)
            if not row.wanted:
                print(f"{row.text} | {found}")
            elif found != wanted:
                self.differing.append(f"{row.place}: {row.text:.300}\n  wanted {wanted:.300}\n  found  {found:.300}")
        asked = sum(self.asked.values()) - before
        print(f"{path.name}: {asked} rows")
        if asked < floor:
            self.lacking.append(f"{path.name}: at least {floor} rows were to be asked, and {asked} were")

    def answer(self, row: Row) -> str | None:
        """Returns the language's answer, or the test that failed."""
        try:
            found = self.answers[row.call](*row.arguments) if row.call in self.answers else None
            return None if found is None else escaped(found)
        except Exception as error:
            at = traceback.extract_tb(error.__traceback__)[-1]
            return f"{type(error).__name__} {error}, line {at.lineno}: {at.line}"

    def failures(self) -> str:
        """Returns what went wrong: the first three rows that differ."""
        never = [f"no row asks {call}" for call in self.answers if not self.asked[call] and not ALONE]
        count = [f"{len(self.differing)} differ"] if self.differing else []
        return "\n".join(self.differing[:3] + count + self.lacking + never)
