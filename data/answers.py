"""What the oracles share: the form of rows, their command line, and a comparison with the answers of a program."""
from __future__ import annotations

import functools
import importlib.util
import itertools
import pathlib
import random
import re
import sys
import types
from collections.abc import Callable, Iterable


@functools.lru_cache(None)
def registry_oracle() -> types.ModuleType:
    """Returns the module registry/oracle.py, which has the grammar and the registry. Other folders also have a module of that name."""
    spec = importlib.util.spec_from_file_location("registry_oracle", pathlib.Path(__file__).resolve().parent / "registry/oracle.py")
    module = importlib.util.module_from_spec(spec)
    spec.loader.exec_module(module)
    return module


def plain(word: str) -> str:
    """Returns the text for a word of a row, without its escapes."""
    return "" if word == "''" else re.sub(r"\\x(..)", lambda found: chr(int(found[1], 16)), word)


def escaped(text: str) -> str:
    return "".join(letter if " " < letter < "\x7f" and letter not in "\\{}" else f"\\x{ord(letter):02x}" for letter in text) or "''"


def main(words: list[str], usage: str | None, answer: Callable[[str], str] | None = None, each: Callable[[], Iterable[str]] = list,
         random_row: Callable[[random.Random], str] | None = None) -> bool:
    """Does what a command line asks: `rows` answers the rows of standard input, or with `--compare ANSWERS` compares the answers with those
    of a program; `each` prints questions about everything in the data; and `random COUNT SEED` prints random questions. Returns whether
    answers differ."""
    rows = (line.rstrip("\n") for line in sys.stdin)
    if words == ["each"]:
        print("\n".join(dict.fromkeys(each())))
    elif words[:1] == ["random"] and len(words) == 3 and random_row:
        rng = random.Random(int(words[2]))
        for _ in range(int(words[1])):
            print(random_row(rng))
    elif words[:2] == ["rows", "--compare"] and len(words) == 3 and answer:
        return compare(rows, words[2], answer)
    elif words == ["rows"] and answer:
        for row in rows:
            print(f"{row} | {answer(row)}")
    else:
        sys.exit(usage)
    return False


def compare(rows: Iterable[str], answers: str, answer: Callable[[str], str]) -> bool:
    """Prints the first rows whose answers differ, and how many do. Returns whether there are any."""
    count = wrong = 0
    with open(answers, encoding="utf-8") as given:
        for row, told in itertools.zip_longest(rows, given):
            count += 1
            wanted = row and f"{row} | {answer(row)}"
            if told is None or wanted != told.rstrip("\n"):
                wrong += 1
                if wrong <= 20:
                    print(f"differs: {told and told.rstrip()}, and not {wanted}")
    print(f"{count} rows, {wrong} differ")
    return wrong > 0
