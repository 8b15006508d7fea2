#!/usr/bin/env python3
"""Writes the states of the recogniser (RFC 5646 section 2.1): the tables of the crate langtag_scan, and the page of definitions
that says which state represents which position.

The grammar is given by subtags (`stage_after`) and by the irregular tags. A position is what is known about the bytes that were
read. There are as few states as possible: positions with the same continuations and the same ends of parts share a state.

A step for each byte is the fastest form that was tried: a recogniser over the shapes of subtags took a third more instructions, and fast
paths for common shapes were slower on real lists.
"""
from __future__ import annotations

import pathlib
import sys
from typing import NamedTuple

sys.path.append(str(pathlib.Path(__file__).resolve().parent.parent))
from common import IRREGULAR, Generator, in_lines, run  # noqa: E402

# One byte of each class: a lowercase letter for both of its cases, 0 for all digits, the hyphen, and NUL for every byte that no tag
# contains.
CLASSES = [*"abcdefghijklmnopqrstuvwxyz", "0", "-", "\0"]

STAGES = ["Start", "Language 0", "Language 3", "Extended 1", "Extended 2", "Extended 3", "AfterScript", "AfterRegion", "AfterVariant",
          "AfterSingleton", "InExtension", "AfterMark", "InPrivate", "AfterFirstMark", "InPrivateTag"]
KINDS = ["Empty", "Mark", "Letters", "Digits", "LetterFirst", "DigitFirst"]
LONGEST = 8

# The index of the part that ends with a stage, among the ends of the parts. The last index keeps no end, since private use ends
# with the text.
PARTS = {"Start": 5, "Language": 0, "Extended": 0, "AfterScript": 1, "AfterRegion": 2, "AfterVariant": 3, "AfterSingleton": 4, "InExtension": 4,
         "AfterMark": 5, "InPrivate": 5, "AfterFirstMark": 5, "InPrivateTag": 5}
NO_PART = 5

# The kind of a text that ends in a state: a normal tag, by the index of its last part, or one of these. An irregular tag has its
# index after these.
NO_TAG, PRIVATE_USE, FIRST_IRREGULAR = 6, 7, 8

WIDTH = 120


class Begun(NamedTuple):
    """The subtag that is being read: the stage before it, the kind of its bytes, and their number."""
    stage: str
    kind: str
    size: int


class Position(NamedTuple):
    """The subtag that is being read, if a normal tag or a private use tag is possible, and the bytes of a possible irregular
    tag."""
    begun: Begun | None
    irregular: str | None


NOWHERE, START = Position(None, None), Position(Begun("Start", "Empty", 0), "")


def stage_after(begun):
    """Returns the stage after a subtag, or None if no such subtag is allowed here: the rules `langtag` and `privateuse`."""
    stage, kind, size = begun
    name, _, taken = stage.partition(" ")
    letters, mark = kind in ("Mark", "Letters"), kind == "Mark"
    opened = ("AfterMark" if mark else "AfterSingleton") if size == 1 else None
    variant = "AfterVariant" if size >= 5 or size == 4 and kind in ("Digits", "DigitFirst") else opened
    region = "AfterRegion" if size == 2 and letters or size == 3 and kind == "Digits" else variant
    if name == "Start":
        return f"Language {0 if size <= 3 else 3}" if letters and size >= 2 else "AfterFirstMark" if mark else None
    if name in ("Language", "Extended"):
        if size == 3 and letters:
            return f"Extended {int(taken) + 1}" if int(taken) < 3 else None
        return "AfterScript" if size == 4 and letters else region
    if name == "AfterScript":
        return region
    if name in ("AfterRegion", "AfterVariant"):
        return variant
    if name in ("AfterSingleton", "InExtension"):
        return "InExtension" if size >= 2 else opened if name == "InExtension" else None
    private = {"AfterMark": "InPrivate", "InPrivate": "InPrivate", "AfterFirstMark": "InPrivateTag", "InPrivateTag": "InPrivateTag"}
    return private[name] if size >= 1 else None


def kind_after(kind, byte):
    """Returns the kind of a subtag after one more letter or digit."""
    if byte == "0":
        return {"Empty": "Digits", "Mark": "LetterFirst", "Letters": "LetterFirst"}.get(kind, kind)
    return {"Empty": "Mark" if byte == "x" else "Letters", "Mark": "Letters", "Digits": "DigitFirst"}.get(kind, kind)


def begun_after(begun, byte):
    if byte == "-":
        stage = stage_after(begun)
        return stage and Begun(stage, "Empty", 0)
    if byte == "\0" or begun.size == LONGEST or byte == "0" and begun.stage == "Start":
        return None
    return Begun(begun.stage, kind_after(begun.kind, byte), begun.size + 1)


def position_after(position, byte):
    begun = position.begun and begun_after(position.begun, byte)
    irregular = None if position.irregular is None else position.irregular + byte
    return Position(begun, irregular if irregular is not None and any(text.startswith(irregular) for text in IRREGULAR) else None)


def part_before(position):
    """Returns the index of the part that ended before the hyphen that was read last, or NO_PART."""
    begun = position.begun
    return PARTS[begun.stage.split()[0]] if begun and begun.size == 0 else NO_PART


def ending(position):
    """Returns what a text is if it ends at a position."""
    stage = position.begun and stage_after(position.begun)
    if stage and stage not in ("AfterSingleton", "AfterMark", "AfterFirstMark"):
        return PRIVATE_USE if stage == "InPrivateTag" else PARTS[stage.split()[0]]
    return FIRST_IRREGULAR + IRREGULAR.index(position.irregular) if position.irregular in IRREGULAR else NO_TAG


def reached():
    """Returns the positions that can be reached, and where each class of bytes leads from them."""
    found, steps = [NOWHERE, START], {}
    for position in found:
        for byte in CLASSES:
            after = steps[position, byte] = position_after(position, byte)
            if after not in found:
                found.append(after)
    return found, steps


class States:
    """The positions in as few groups as possible: two positions are in the same group if no further bytes distinguish them."""

    def __init__(self):
        positions, steps = reached()
        group = {position: (ending(position), part_before(position), position == NOWHERE) for position in positions}
        while True:
            signs = {position: (group[position], *(group[steps[position, byte]] for byte in CLASSES)) for position in positions}
            if len(set(signs.values())) == len(set(group.values())):
                break
            numbers = {}
            group = {position: numbers.setdefault(signs[position], len(numbers)) for position in positions}
        first = {}
        for position in positions:
            first.setdefault(group[position], position)
        # A text with which no tag begins has no state. Its number is the number after the last state.
        self.firsts = [position for position in first.values() if position != NOWHERE]
        self.none = len(self.firsts)
        number = {group[position]: k for k, position in enumerate([*self.firsts, NOWHERE])}
        self.numbers = {position: number[group[position]] for position in positions}
        self.steps = steps

    def after(self, byte):
        """Returns where a byte of this class leads from each state."""
        return [self.numbers[self.steps[position, byte]] for position in self.firsts]

    def of_begun(self, stage, kind):
        """Returns the states for subtags of a kind, by their size, if no irregular tag is possible. A size that cannot occur has no
        state."""
        sizes = [self.numbers.get(Position(Begun(stage, kind, size), None), self.none) for size in range(LONGEST + 1)]
        while sizes and sizes[-1] == self.none:
            sizes.pop()
        return sizes

    def along(self, text):
        """Returns the states along an irregular tag: before its first byte, and after each byte."""
        states, position = [self.numbers[START]], START
        for byte in text:
            position = self.steps[position, byte]
            states.append(self.numbers[position])
        return states


def class_of(byte):
    char = chr(byte).lower() if byte < 128 else "\0"
    return CLASSES.index("0" if char.isdigit() else char if char in CLASSES else "\0")


def wrapped(numbers, margin):
    return in_lines(map(str, numbers), WIDTH, margin[1:]).split("\n")


def constant(doc, name, kind, rows):
    return "\n".join([f"/// {doc}", "#[rattlefmt::skip]", f"pub(crate) const {name}: {kind}[", *rows, "];", ""])


def tables(states):
    count, classes, margin = states.none, len(CLASSES), " " * 8
    following = [line for byte in CLASSES for line in (f"{margin}[", *wrapped(states.after(byte), " " * 12), f"{margin}],")]
    return "\n".join([
        "//! The states of the recogniser, in tables (RFC 5646 section 2.1). Written by data/scan/generate.py. Do not edit.\n",
        f"/// The state before the first byte.\npub(crate) const START: usize = {states.numbers[START]};\n",
        f"/// The number that means that no tag begins with the bytes. All states have smaller numbers.\npub(crate) const NONE: usize = {count};\n",
        constant(f"The class of each byte: 0 to 25 for the letters, {class_of(48)} for a digit, {class_of(45)} for the hyphen, and {classes - 1} for a byte that no tag contains.",
                 "CLASSES", "&[u8; 256] = &", wrapped(map(class_of, range(256)), "    ")),
        constant(f"The index, in the order of `Ends`, of the part that ended before the hyphen that led to a state, or {NO_PART} if no part ended there.",
                 "PARTS", f"[u8; {count}] = ", wrapped(map(part_before, states.firsts), "    ")),
        "/// Tables that have an element for each state, as one struct, so that the recogniser needs only one address for them.",
        "#[allow(dead_code)]",
        "pub(crate) struct Tables {",
        f"    /// The state after one more byte, indexed by the class of the byte and then by the state before it, or {count} if no tag begins with the bytes.",
        f"    pub(crate) next: [[u8; {count}]; {classes}],",
        "    /// The same as [`PARTS`], where the Rust crate reads them.",
        f"    pub(crate) parts: [u8; {count}],",
        f"    /// What a text is if it ends in a state. The numbers 0 to {NO_TAG - 1} mean a normal tag, and are the index of its last part in the order of `Ends`. "
        f"{NO_TAG} means no tag, {PRIVATE_USE} means a private use tag, and {FIRST_IRREGULAR} or more an irregular tag.",
        f"    pub(crate) kinds: [u8; {count}],",
        "}\n",
        "/// The tables of all states.",
        "#[rattlefmt::skip]",
        "pub(crate) const TABLES: &Tables = &Tables {",
        *("    next: [", *following, "    ],"),
        "    parts: PARTS,",
        *("    kinds: [", *wrapped(map(ending, states.firsts), margin), "    ],"),
        "};",
        "",
    ])


def numbers_list(numbers):
    return " ∷ ".join([*map(str, numbers), "[]"])


def begun_rows(states):
    """Yields an equation for each stage and kind. If the stage counts extended subtags, its rows are in a list, by that count."""
    for name in dict.fromkeys(stage.split()[0] for stage in STAGES):
        counts = [int(stage.split()[1]) for stage in STAGES if stage.startswith(name + " ")]
        for kind in KINDS:
            if counts:
                rows = [states.of_begun(f"{name} {taken}", kind) if taken in counts else [] for taken in range(4)]
                listed = " ∷ ".join([f"({numbers_list(row)})" if row else "[]" for row in rows] + ["[]"])
                yield f"states_of ({name} taken) {kind} = slice_index_or ({listed}) taken []"
            else:
                yield f"states_of {name} {kind} = {numbers_list(states.of_begun(name, kind))}"


def page(states):
    stages = dict.fromkeys(stage.split()[0] for stage in STAGES)
    along = "\n    ∷ ".join(f"({numbers_list(states.along(text))})" for text in IRREGULAR)
    return "\n".join([
        "-- The number of the state for each position of the recogniser. Written by data/scan/generate.py. Do not edit.",
        "-- Only contracts of private functions cite this page.",
        "use Rattle.std.specs.Prelude.{ℕ, List, [], ◌∷◌, slice_index_or}",
        f"use Rattle.langtag_scan.specs.Stage.{{Stage, {', '.join(stages)}}}",
        f"use Rattle.langtag_scan.specs.Kind.{{Kind, {', '.join(KINDS)}}}\n",
        "-- the states while a subtag of this kind is read after this stage, one state for each number of bytes, if no irregular tag is possible",
        "unfoldable pub states_of : Stage → Kind → List ℕ",
        *begun_rows(states),
        "",
        "-- the states along each irregular tag, in the order of the table: one before its first byte, and one after each byte",
        "unfoldable pub states_along : List (List ℕ)",
        f"states_along =\n    {along}\n    ∷ []",
        "",
    ])


class Scan(Generator):
    def written(self):
        states = States()
        return {"crates/langtag_scan/src/states.rt": tables(states), "crates/langtag_scan/specs/States.antt": page(states)}


if __name__ == "__main__":
    sys.exit(run(Scan(), sys.argv[1:]))
