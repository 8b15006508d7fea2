"""Reads the C interface: the functions of crates/langtag_c, and its structs.

A slice is passed to C as a pointer and a length. The length is named after the slice, except for `bytes`. The contract shows how a
function uses a reference to a struct or number: it reads the old value only if a clause other than `nothing` names it, and it leaves
the value unchanged if the clause `nothing` says so.
"""
from __future__ import annotations

import pathlib
import re
from typing import NamedTuple

INTEGERS = {"usize": "size_t", "u64": "uint64_t", "u32": "uint32_t", "i32": "int32_t", "bool": "bool", "": "void"}
OPAQUE = {"PreparedForm": ("uint64_t", 2)}  # the fields of a type of another crate, as C has them: numbers, and how many
TEMPLATE = "bindings/include/langtag.h.in"
# Functions for programs that read a stream byte by byte, or that hash without allocating: scripting languages leave them out.
BYTEWISE = {"langtag_viable_len", "langtag_stop_len", "langtag_hash"}
DECLARATION = r'pub extern "C" fn (\w+)\(([^)]*)\)(?:\s*->\s*(\w+))?(.*?)\n\{'


class Parameter(NamedTuple):
    name: str
    kind: str  # in Rattle, such as `&mut Span`
    is_read: bool = True  # whether the function reads the value before it writes it
    is_kept: bool = False  # whether the value stays as it is if the result is false or 0

    def is_slice(self) -> bool:
        return "[" in self.kind

    def is_writable(self) -> bool:
        return self.kind.startswith("&mut ")

    def is_out(self) -> bool:
        """Returns whether it refers to a number or a struct that the function writes."""
        return self.is_writable() and not self.is_slice()

    def target(self) -> str:
        """Returns the type in Rattle of what is referred to."""
        return re.sub(r"^&(mut )?|[\[\]]", "", self.kind)

    def length(self) -> str:
        return "len" if self.name == "bytes" else f"{self.name}_len"


class Function(NamedTuple):
    name: str
    module: str
    result: str
    parameters: list[Parameter]
    comment: list[str]  # the lines of its documentation

    def short(self) -> str:
        return self.name[len("langtag_"):]

    def is_pure(self) -> bool:
        """Returns whether the result is the only effect of a call."""
        return self.result != "" and not any(parameter.is_writable() for parameter in self.parameters)


class Struct(NamedTuple):
    name: str
    module: str
    path: str  # in rust/c
    fields: list[tuple[str, str]]  # names and types
    comment: list[str]
    notes: dict[str, str]  # the documentation of fields

    def in_c(self) -> str:
        return "langtag" + re.sub("[A-Z]", lambda letter: "_" + letter[0].lower(), self.name)


class Interface(NamedTuple):
    functions: list[Function]
    structs: dict[str, Struct]

    def type_in_c(self, kind: str) -> str:
        return "char" if kind == "u8" else self.structs[kind].in_c() if kind in self.structs else INTEGERS[kind]

    def parameters_in_c(self, function: Function) -> list[tuple[str, str]]:
        """Returns the types and names of a function's parameters in C."""
        found = []
        for it in function.parameters:
            pointer = f"{'' if it.is_writable() else 'const '}{self.type_in_c(it.target())} *"
            found.append((pointer if it.kind.startswith("&") else INTEGERS[it.kind], it.name))
            if it.is_slice():
                found.append(("size_t", it.length()))
        return found

    def field_in_c(self, name: str, kind: str) -> tuple[str, str]:
        """Returns the type and the name of a struct's field in C."""
        if kind in OPAQUE:
            return OPAQUE[kind][0], f"opaque[{OPAQUE[kind][1]}]"
        return self.type_in_c(kind), name

    def numbers_of(self, name: str, kind: str) -> list[tuple[str, str]]:
        """Returns the names and types of the numbers in a value, such as range.start."""
        inner = self.structs[kind].fields if kind in self.structs else []
        return [number for field, of in inner for number in self.numbers_of(f"{name}.{field}", of)] or [(name, kind)]

    def prototype(self, function: Function) -> str:
        taken = ", ".join(f"{kind}{'' if kind.endswith('*') else ' '}{name}" for kind, name in self.parameters_in_c(function))
        return f"{'LANGTAG_PURE ' if function.is_pure() else ''}{INTEGERS[function.result]} {function.name}({taken or 'void'}){' LANGTAG_NONNULL' if '*' in taken else ''};"


class Call:
    """A function as a scripting language calls it: without the parameters to which it only writes, and with one parameter for a text and
    the spans in it."""

    def __init__(self, it: Interface, function: Function):
        self.it, self.function = it, function
        out = [of for of in function.parameters if of.is_out()]
        self.state, self.written = [of for of in out if of.is_read], [of for of in out if not of.is_read]
        self.has_buffer = any(of.name == "buffer" for of in function.parameters)
        self.has_array = any(of.kind == "&mut [usize]" for of in function.parameters)
        self.taken: list[tuple[str, str]] = []  # the name of each parameter, and what it is: text, list, site, u32 or u64
        for of in function.parameters:
            if of.kind in ("&[Span]", "&[PreparedTag]"):
                self.taken[-1] = (of.name, "list") if of.kind == "&[Span]" else ("site", "site")
            elif not of.is_out() and of.name != "buffer" and of.kind != "&mut [usize]":
                self.taken.append(("text" if of.name == "bytes" else of.name, "text" if of.is_slice() else of.kind))

    def name(self) -> str:
        return self.function.short().replace("next_", "every_")

    def names(self, kind: str) -> list[str]:
        """Returns the parameters that are such a kind."""
        return [name for name, of in self.taken if of == kind]

    def numbers(self) -> list[tuple[str, str]]:
        """Returns the names and types of the numbers that are written."""
        return [number for of in self.written or self.state for number in self.it.numbers_of(of.name, of.target())]


def calls(it: Interface) -> list[Call]:
    """Returns the functions for a scripting language: not those of BYTEWISE, nor those with a value of another crate's type."""
    opaque = {name for name, struct in it.structs.items() if any(kind in OPAQUE for _, kind in struct.fields)}
    functions = [function for function in it.functions if function.name not in BYTEWISE]
    return [Call(it, function) for function in functions if not any(of.is_out() and of.target() in opaque for of in function.parameters)]


def pairs(text: str) -> list[tuple[str, str]]:
    return [(name, kind.strip()) for name, kind in re.findall(r"(?:pub )?(\w+)\s*:\s*([^,]+)", text)]


def lines_of(comment: str) -> list[str]:
    return re.findall(r"(?m)^/// ?(.*)", comment)


def function_of(module: str, text: str, name: str, parameters: str, result: str, contract: str) -> Function:
    unchanged = re.findall(r"ensures nothing \{ result ≡ (?:false|0) → (.*) \}", contract)
    others = re.sub(r"ensures nothing .*", "", contract)
    documented = re.search(rf'((?:///.*\n)+)(?:#\[.*\]\n)*pub extern "C" fn {name}\(', text)
    return Function(name, module, result, [
        Parameter(it, kind, re.search(rf"\b{it}\.old\b", others) is not None, any(f"{it}.new ≡ {it}.old" in said for said in unchanged))
        for it, kind in pairs(parameters)], lines_of(documented[1]) if documented else [])


def modules(template: str) -> list[str]:
    """Returns the modules whose functions and structs a header has, in order. A line of the template names some of them: `@parse base@`."""
    return " ".join(re.findall(r"(?m)^@(.*)@$", template)).split()


def read(root: pathlib.Path) -> Interface:
    """Reads the interface of the repository. The functions are in the order of the header, and those of a module that it lacks come last."""
    functions, structs = [], {}
    for path in sorted((root / "crates/langtag_c/src").glob("*.rt")):
        text = path.read_text(encoding="utf-8")
        source = re.sub(r"//[^\n]*", "", text)
        functions += [function_of(path.stem, text, *found) for found in re.findall(DECLARATION, source, flags=re.S)]
        for comment, name, body in re.findall(r"((?:///.*\n)+)#\[repr\(C\)\]\n(?:#.*\n)*pub struct (\w+) \{\n((?:.*\n)*?)\}", text):
            notes = {field: note for note, field in re.findall(r"/// (.*)\n *pub (\w+)", body)}
            structs[name] = Struct(name, path.stem, f"crate::calls::{path.stem}::{name}", pairs(re.sub(r"//.*", "", body)), lines_of(comment), notes)
    places = {module: place for place, module in enumerate(modules((root / TEMPLATE).read_text(encoding="utf-8")))}
    return Interface(sorted(functions, key=lambda function: places.get(function.module, len(places))), structs)
