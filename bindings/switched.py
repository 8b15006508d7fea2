"""Plants many faults in one source, so that it is built once for all of them. A function with a fault gets a second body, which
contains the fault. If the environment variable PLANTED is the number of a fault, the body with that fault runs."""
from __future__ import annotations

import re
from typing import Iterator, NamedTuple, Sequence

# Text that may contain braces that are not code: lines of the preprocessor, comments, strings and characters (not Rust's
# lifetimes).
HIDDEN = r"^[ \t]*#(?:\\\n|[^\n])*|//[^\n]*|/\*.*?\*/|\"(?:\\.|[^\"\\])*\"|'(?:\\[^']+|[^'\\])'"
TOKEN = re.compile(rf"({HIDDEN})|[{{}};]", re.DOTALL | re.MULTILINE)

# The switch in C and C++, and in the root of a Rust crate. In Rust, the variable is read before `main`, because reading it allocates,
# and some tests count allocations.
C = """#ifndef PLANTED_FAULTS
#define PLANTED_FAULTS
#include <stdlib.h>
static inline int planted(int fault) { return getenv("PLANTED") && atoi(getenv("PLANTED")) == fault; }
#endif
"""
# The switch in PostgreSQL is an option of the session, which PGOPTIONS sets.
POSTGRESQL = """#include "utils/guc.h"
static bool planted(int fault) {
    const char *it = GetConfigOption("langtag.planted", true, false);
    return it != NULL && atoi(it) == fault;
}

"""
RUST = """
extern crate std as std_of_planted;
static PLANTED: core::sync::atomic::AtomicU32 = core::sync::atomic::AtomicU32::new(0);
extern "C" fn read_planted() {
    let fault = std_of_planted::env::var("PLANTED").ok().and_then(|fault| fault.parse().ok());
    PLANTED.store(fault.unwrap_or(0), core::sync::atomic::Ordering::Relaxed);
}
#[used]
#[unsafe(link_section = ".init_array")]
static READ_PLANTED: extern "C" fn() = read_planted;
pub fn planted(fault: u32) -> bool {
    PLANTED.load(core::sync::atomic::Ordering::Relaxed) == fault
}
"""
FORBIDDEN = "#![forbid(unsafe_code)]"  # in that root, where the constructor needs it


class Change(NamedTuple):
    """A fault: its number, the range of the old text, and the new text."""

    number: int
    start: int
    end: int
    new: str


def bodies(text: str, suffix: str) -> Iterator[tuple[int, int]]:
    """Yields the range of the body of each function, with its braces. An inner function belongs to the outer one."""
    head = r"\bfn \$?\w+" if suffix == ".rs" else r"[()]"  # what is before a body: `fn` in Rust, and arguments in C and C++
    opened: list[str] = []  # for each open brace, what it begins
    begin = passed = 0
    before = ""
    for token in TOKEN.finditer(text):
        before, passed = before + text[passed : token.start()], token.end()
        if token[1]:
            continue
        if token[0] == "{":
            inside = opened[-1] if opened else ""
            is_value = re.search(r"[=,(]\s*$", before)  # `= {` begins an initializer
            opened.append(inside or ("value" if is_value else "function" if re.search(head, before) else ""))
            if not inside and opened[-1] == "function":
                begin = token.start()
        elif token[0] == "}" and opened and opened.pop() == "function" and "function" not in opened:
            yield begin, token.end()
        before = ""


def switched(text: str, suffix: str, changes: Sequence[Change]) -> tuple[str, set[int]]:
    """Returns the source with each fault that is in the body of one function, and the numbers of these faults."""
    condition = "if crate::planted({}) " if suffix == ".rs" else "if (planted({})) "
    made, passed, done = "", 0, set()
    for begin, end in bodies(text, suffix):
        here = [it for it in changes if begin < it.start and it.end < end]
        if not here:
            continue
        wrong = "".join(f"{condition.format(it.number)}{text[begin:it.start]}{it.new}{text[it.end:end]} else " for it in here)
        made += f"{text[passed:begin]}{{ {wrong}{text[begin:end]} }}"
        passed = end
        done |= {it.number for it in here}
    return made + text[passed:], done
