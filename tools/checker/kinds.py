"""The list of kinds of differences, kinds.txt: each has a name or several, forms in Rattle and in Rust, and a reason."""
import pathlib
import re
from typing import NamedTuple

from words import words_of

HERE = pathlib.Path(__file__).resolve().parent
RUST = HERE.parents[1] / "rust"
LIMIT = 120


class Kind(NamedTuple):
    form: str
    old: list  # the words in Rattle; a word after `$` means any words with balanced brackets
    new: list
    alike: int  # the number of words with which both begin


def read_kinds():
    """Returns the forms of the kinds, the longest first, and the name of each form. A kind without a form stands for itself."""
    kinds, names = [], {}
    for block in re.split(r"\n\s*\n", (RUST / "kinds.txt").read_text(encoding="utf-8")):
        lines = [line for line in block.splitlines() if line and not line.startswith("#")]
        here = [line for line in lines if not line.startswith("    ")]
        forms = [line.strip() for line in lines if line.startswith("    ") and "=>" in line]
        if lines and (not here or forms and len(here) > 1 or len(lines) == len(here) + len(forms)):
            raise SystemExit(f"kinds.txt: no name, no reason, or forms of several names: {lines[0]}")
        if again := names.keys() & {*here, *forms}:
            raise SystemExit(f"kinds.txt: there are two: {', '.join(again)}")
        names |= dict.fromkeys(forms, here[0]) if forms else {name: name for name in here}
        kinds += [kind_of(form) for form in forms]
    if len(names) > LIMIT:
        raise SystemExit(f"kinds.txt: {len(names)} forms, of at most {LIMIT}")
    return sorted(kinds, key=lambda kind: -len(kind.old)), names


def kind_of(form):
    old, _, new = form.partition("=>")
    old, new, alike = words_of(old), words_of(new), 0
    while alike < min(len(old), len(new)) and old[alike] == new[alike]:
        alike += 1
    return Kind(form, old, new, alike)
