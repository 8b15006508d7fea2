#!/usr/bin/env python3
"""Fails if the instructions of a function grow faster than its text, if a choice takes more than CHOICES says, or if a call takes more of
the stack than rule 5 of the header says.

    growth.py PROGRAM FILE..

The program runs under valgrind. The files, such as a header, declare the functions that the program has to call. Twice the
text may take at most MOST times the instructions, or more if SQUARES says so."""
from __future__ import annotations

import glob
import pathlib
import re
import subprocess
import sys
import tempfile
from collections.abc import Iterator

FEW = 5000  # instructions that a call may take for a text of any length
MOST = 2.2
# The cases that are known and documented to be quadratic. They have more than 1,152 repeated variants, or variants, attributes of u or
# variants of t, which are sorted. Or many ranges of a header would find a tag that a range of weight 0 excludes.
SQUARES = {(name, shape): most for names, shapes, most in (
    ("repeats repeated_variant is_locale resolved_locale", "variants", 3),
    ("repeats repeated_variant is_locale resolved_locale", "many_variants", 4.4),
    ("locale_form", "few_variants variants many_variants", 4.4),
    ("extensions_form locale_form", "attributes transformed", 4.4),
    ("is_locale resolved_locale", "transformed", 4.4),
    ("best_for_header", "refused", 4.4),
) for name in names.split() for shape in shapes.split()}
# The millions of instructions of a choice for 8 kB of a header that names one range again and again, by the number of tags.
CHOICES = {"best_of_list": {"40": 18, "1000": 340}, "best_of_site": {"40": 6, "1000": 60}, "best_of_long_languages": {"40": 18, "1000": 340},
           "best_of_replaced": {"40": 140}}
# The functions that a header declares, and those that may take 16 KiB of the stack. Any other call may take 4 KiB.
DECLARED = re.compile(r"(?m)^[A-Za-z].* \**langtag_(\w+)\(.*[,;]$")
DEEP = re.compile(r"(?s)16 KiB for (.*?)\.\n")
# By function and shape, the instructions by the times of the text, or by the number of tags.
Counts = dict[tuple[str, str], dict[str, int]]


def counted(program: str) -> tuple[Counts, dict[str, int], int]:
    """Runs the program. Returns its counts, the most bytes of stack that each function took, and its exit status."""
    counts: Counts = {}
    with tempfile.TemporaryDirectory() as room:
        ended = subprocess.run(["valgrind", "-q", "--tool=callgrind", f"--callgrind-out-file={room}/out", program], stdout=subprocess.PIPE, text=True)
        for path in glob.glob(f"{room}/out*"):
            text = pathlib.Path(path).read_text(encoding="utf-8")
            label = re.search(r"Client Request: (\w+) (\w+) (\d+)", text)
            total = re.search(r"(?m)^(?:summary|totals): (\d+)", text)
            if label and total:
                counts.setdefault((label[1], label[2]), {})[label[3]] = int(total[1])
    stacks = sorted((name, int(size)) for name, size in map(str.split, ended.stdout.splitlines()))
    return counts, dict(stacks), ended.returncode


def faults_of(counts: Counts) -> Iterator[str]:
    for (function, shape), count in sorted(counts.items()):
        for tags, most in CHOICES.get(function, {}).items():
            if count[tags] > most * 1_000_000:
                yield f"{function} of {shape}: {count[tags]} instructions among {tags} tags"
        if function not in CHOICES and count["2"] > max(SQUARES.get((function, shape), MOST) * count["1"], FEW):
            yield f"{function} of {shape}: {count['1']} instructions, and {count['2']} of twice the text"


def main(program: str, *declaring: str) -> int:
    counts, stacks, ended = counted(program)
    headers = "".join(pathlib.Path(path).read_text(encoding="utf-8") for path in declaring)
    declared, deep = set(DECLARED.findall(headers)), set(re.findall(r"langtag_(\w+)", "".join(DEEP.findall(headers))))
    called = {function for function, _ in counts}
    faults = [f"{it} is not called" for it in sorted((declared | set(CHOICES)) - called)]
    faults += [f"{program} ended with {ended}"] * (ended != 0)
    faults += faults_of(counts)
    faults += [f"{it} takes {most} bytes of stack" for it, most in stacks.items() if most > (4096 if it in declared - deep else 16384)]
    print(*faults, f"{len(counts)} pairs of counts, {len(faults)} faults", sep="\n")
    return 1 if faults else 0


if __name__ == "__main__":
    sys.exit(main(*sys.argv[1:]))
