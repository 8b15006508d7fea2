#!/usr/bin/env python3
"""Prints the rows of sweep.txt for each number N, for `test --answer`, and says to standard error how many rows there are."""
import pathlib
import re
import sys
from typing import Iterator

EACH, MOST = 4200, 2_000_000


def filled(row: str, n: int) -> str:
    """Returns a row for a number."""
    row = re.sub(r"\{N#([^}]*)\}", lambda it: "".join(f"{it[1]}{k:06}" for k in range(n)), row)
    row = re.sub(r"\[(\d*)N\+(\d+)\]", lambda it: str(int(it[1] or 1) * n + int(it[2])), row)
    return row.replace("{N:", f"{{{n}:")


def numbers(row: str) -> Iterator[int]:
    """Yields the numbers for a row. The pieces of its arguments are at most as long as the text in the row."""
    piece = max(len(it) + 6 * (sign == "#") for sign, it in re.findall(r"\{N([:#])([^}]*)\}", row))
    n = 1
    while n * piece <= MOST:
        yield n
        n += 1 if n * piece <= EACH else n // 2


def rows(lines: "list[str]") -> Iterator[str]:
    for line in lines:
        bound = re.match(r"N(<=|>)(\d+) ", line)
        call, first, *others = (line[bound.end() if bound else 0 :] + " | ").split(" | ")
        for row in [" | ".join([call, one, *others[:-1]]) for one in first.split(" / ")] if line and line[0] != "#" else ():
            yield from (filled(row, n) for n in numbers(row) if not bound or (n <= int(bound[2])) == (bound[1] == "<="))


def main() -> None:
    count = 0
    for row in rows(pathlib.Path(__file__).with_name("sweep.txt").read_text(encoding="ascii").splitlines()):
        count += 1
        print(row)
    print(f"sweep: {count} rows", file=sys.stderr)


if __name__ == "__main__":
    main()
