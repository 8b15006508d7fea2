#!/usr/bin/env python3
"""Writes the declarations of the C interface that follow from the signatures in crates/langtag_c:

    bindings/include/langtag.h                the header: langtag.h.in, with the functions, the structs and their documentation
    rust/c/src/exports.rs                     the functions that cargo exports to C
    bindings/c/langtag_verified.map           what the shared library exports
    bindings/python/native/calls.c            the functions for Python, in C
    bindings/python/langtag/_native.pyi       their types
    bindings/js/calls.js                      the functions in JavaScript, over the memory of the WebAssembly module
    bindings/postgresql/langtag.sql           the SQL of the extension, from langtag.sql.in, type.sql.in and order.sql.in
    docs/CALLS.md                             the calls of each language, by task, from bindings/calls.txt
    the rule of TIES in the references of Rust, Python and JavaScript, which is that of langtag.h

It also compares the numbers that stand in several files (check_numbers.py).
A function must have LANGTAG_PURE if its result is its only effect.

    bindings/generate.py            writes the files
    bindings/generate.py --check    compares the files with what it would write, and fails if one differs
"""
from __future__ import annotations

import pathlib
import re
import sys
import textwrap

import calls_page
import check_numbers
import interface
import python_calls
import sql
from interface import Function, Interface, Parameter, Struct
from javascript import javascript

ROOT = pathlib.Path(__file__).resolve().parent.parent
WRITTEN = "Written by bindings/generate.py from crates/langtag_c. Do not edit."
HEADER = "bindings/include/langtag.h"

# ---- rust/c/src/exports.rs

EXPORTS = f"""\
// {WRITTEN}

//! The functions of `bindings/include/langtag.h`, in the order of the header. Each function turns its pointers into slices and
//! references, and calls the function of the same name in `calls`.
//!
//! The rules of the header make these calls safe. A pointer with a length after it points to that many bytes, which are
//! writable if the pointer is not const. A pointer to a struct is valid for writing. Written memory does not overlap
//! the memory of another argument. An empty text may have any pointer, even NULL.
//!
//! An argument that is only written may be uninitialised. So its function gets a value of its own, which is then copied.
#![allow(unsafe_code, unsafe_op_in_unsafe_fn)]
#![warn(clippy::all)]
#![allow(clippy::missing_safety_doc)]

use crate::calls;
%s
use core::mem::zeroed;
use core::slice;

/// Returns the slice at a pointer, for reading.
unsafe fn lent<'a, T>(start: *const T, len: usize) -> &'a [T] {{
    if len == 0 {{
        return &[];
    }}
    slice::from_raw_parts(start, len)
}}

/// Returns the slice at a pointer, for writing.
unsafe fn taken<'a, T>(start: *mut T, len: usize) -> &'a mut [T] {{
    if len == 0 {{
        return &mut [];
    }}
    slice::from_raw_parts_mut(start, len)
}}
"""


def argument_of_rust(it: Parameter) -> str:
    if it.is_slice():
        return f"{'taken' if it.is_writable() else 'lent'}({it.name}, {it.length()})"
    if it.is_writable():
        return f"&mut *{it.name}" if it.is_read else f"&mut new_{it.name}"
    return it.name


def taken_by_rust(it: Parameter) -> list[str]:
    if not it.kind.startswith("&"):
        return [f"{it.name}: {it.kind}"]
    pointer = f"{it.name}: *{'mut' if it.is_writable() else 'const'} {it.target()}"
    return [pointer, f"{it.length()}: usize"] if it.is_slice() else [pointer]


def export(function: Function) -> str:
    """Returns the function for C in rust/c. It copies what was written to the caller's memory, unless the contract leaves it unchanged."""
    out = [it for it in function.parameters if it.is_writable() and not it.is_slice() and not it.is_read]
    taken = [text for it in function.parameters for text in taken_by_rust(it)]
    inside = f"calls::{function.module}::{function.name}({', '.join(map(argument_of_rust, function.parameters))})"
    lines = [f"let mut new_{it.name}: {it.target()} = zeroed();" for it in out]
    lines += [f"let answer = {inside};"] if out else [inside + ("" if function.result else ";")]
    kept = [f"{it.name}.write(new_{it.name});" for it in out if it.is_kept]
    lines += [f"{it.name}.write(new_{it.name});" for it in out if not it.is_kept]
    if kept:
        lines += [f"if answer{'' if function.result == 'bool' else ' != 0'} {{", *(f"    {line}" for line in kept), "}"]
    lines += ["answer"] if out else []
    result = f" -> {function.result}" if function.result else ""
    body = "".join(f"    {line}\n" for line in lines)
    return f'\n#[no_mangle]\npub unsafe extern "C" fn {function.name}({", ".join(taken)}){result} {{\n{body}}}\n'


def exports(it: Interface) -> str:
    uses = "\n".join(sorted(f"use {struct.path};" for struct in it.structs.values()))
    return EXPORTS % uses + "".join(map(export, it.functions))


# ---- bindings/c


def script(it: Interface) -> str:
    names = "".join(f"    {function.name};\n" for function in it.functions)
    return f"# {WRITTEN}\nLANGTAG_VERIFIED_1 {{\nglobal:\n{names}local:\n    *;\n}};\n"


# ---- bindings/include/langtag.h


def in_c(text: str) -> str:
    """Returns a text without the backticks of C's own names."""
    return re.sub(r"`((?:langtag|LANGTAG)_\w+)`", r"\1", text)


def comment_of(documentation: list[str]) -> str:
    """Returns some documentation as a comment of C, in which code is indented."""
    lines, indent = [], ""
    for line in documentation:
        if line.startswith("```"):
            indent = "" if indent else "    " if line == "```c" else "  "
        else:
            lines.append(indent + in_c(line))
    return f"/* {lines[0]} */" if len(lines) == 1 else "/*\n" + "".join(f" * {line}".rstrip() + "\n" for line in lines) + " */"


def declaration(it: Interface, function: Function) -> str:
    """Returns the declaration of a function, in lines of at most 120 columns."""
    first, *others = it.prototype(function).split(", ")
    lines = [first]
    for word in others:
        if len(lines[-1]) + len(word) > 117:
            lines.append(" " * (first.index("(") + 1) + word)
        else:
            lines[-1] += f", {word}"
    return "\n".join(f"{line}," if at < len(lines) else line for at, line in enumerate(lines, 1))


def definition(it: Interface, struct: Struct) -> str:
    """Returns the definition of a struct, with the documentation of each field beside it."""
    fields = [(" ".join(it.field_in_c(name, kind)) + ";", in_c(struct.notes.get(name, ""))) for name, kind in struct.fields]
    width = max(len(field) for field, _ in fields)
    lines = "".join(f"    {field:{width}} /* {note} */\n" if note else f"    {field}\n" for field, note in fields)
    return f"typedef struct {struct.in_c()} {{\n{lines}}} {struct.in_c()};"


def header(it: Interface, template: str) -> str:
    made: dict[str, str] = {}
    for one, code in [(struct, definition(it, struct)) for struct in it.structs.values()] + [(function, declaration(it, function)) for function in it.functions]:
        made[one.module] = made.get(one.module, "") + f"{comment_of(one.comment)}\n{code}\n\n"
    text = re.sub(r"(?m)^@(.*)@$", lambda names: "".join(made.get(name, "") for name in names[1].split()), template)
    return f"/* {WRITTEN.replace('from', 'from langtag.h.in and')} */\n" + re.sub(r"\n{3,}", "\n\n", text)


def wrong_template(it: Interface, template: str) -> list[str]:
    """Returns the modules with functions or structs that only the template has, or only the crate."""
    ours = {one.module for one in [*it.functions, *it.structs.values()]}
    return [f"{interface.TEMPLATE}: {name}" for name in sorted({*interface.modules(template)} ^ ours)]


# ---- which of several tags is chosen

TIES = re.compile(r"(?m)^(/// | \* |    )Among tags at the same distance,(?s:.*?)that you prefer\.\n")
REFERENCES = {"rust/src/choice.rs": 100, "bindings/python/langtag/__init__.py": 140, "bindings/js/index.ts": 140, "bindings/js/index.d.ts": 140}


def with_ties(root: pathlib.Path) -> dict[str, str]:
    """Returns the references of other languages with the rule that the crate states."""
    rule = TIES.search((root / "crates/langtag_c/src/choice.rt").read_text(encoding="utf-8"))
    words = " ".join(rule[0].replace(rule[1], "").split()) if rule else ""
    wrap = lambda found, width: textwrap.fill(words, width, initial_indent=found[1], subsequent_indent=found[1], break_on_hyphens=False) + "\n"
    return {name: TIES.sub(lambda found: wrap(found, width), (root / name).read_text(encoding="utf-8")) for name, width in REFERENCES.items()}


FILES = {
    "rust/c/src/exports.rs": exports,
    "bindings/c/langtag_verified.map": script,
    "bindings/python/native/calls.c": lambda it: python_calls.in_c(it, WRITTEN),
    "bindings/python/langtag/_native.pyi": lambda it: python_calls.types(it, WRITTEN),
    "bindings/js/calls.js": lambda it: javascript(it, WRITTEN),
}


def put(root: pathlib.Path, files: dict[str, str], is_check: bool) -> list[str]:
    """Writes files, or returns a line for each that differs."""
    if is_check:
        return [f"{name} is not what bindings/generate.py writes" for name, text in files.items()
                if not (root / name).is_file() or (root / name).read_text(encoding="utf-8") != text]
    for name, text in files.items():
        (root / name).write_text(text, encoding="utf-8")
    return []


def main(root: pathlib.Path, is_check: bool) -> int:
    it, template = interface.read(root), (root / interface.TEMPLATE).read_text(encoding="utf-8")
    faults = wrong_template(it, template)
    if not it.functions or not it.structs:
        faults.append("crates/langtag_c has no functions, or no structs")
    files = {HEADER: header(it, template), sql.WRITTEN: sql.extension(root)} | {name: written(it) for name, written in FILES.items()} | with_ties(root)
    faults += put(root, files, is_check)
    faults += put(root, calls_page.pages(root), is_check)  # they read what was written
    faults += calls_page.faults(it, root) + check_numbers.wrong_numbers(root)
    print("\n".join(faults) or f"{len(it.functions)} functions and {len(it.structs)} structs: all declarations agree")
    return 1 if faults else 0


if __name__ == "__main__":
    sys.exit(main(ROOT, "--check" in sys.argv[1:]))
