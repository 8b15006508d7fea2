"""Writes the functions of langtag.h for Python, in C, and the file that tells their types to editors and mypy."""
from __future__ import annotations

from interface import Call, Interface, calls

CONVENTIONS = """\
The functions of langtag.h as functions of Python. {written}

A function has the parameters that it has in C, without those to which it only writes. A string is a str or bytes. A list is passed for a
string and the spans in it. A site, which `prepare` returns, is passed for a string and the prepared tags in it. The result is that of C,
with these exceptions:

- If C writes or changes a string, the result is this string, as bytes.
- If C writes numbers, the result is a tuple of C's result and these numbers. If C's result is only true or false, the result is a tuple of
  these numbers, or None.
- If C removes one item after another, the result is the list of all items.
- If C writes numbers to an array, the result is the list of these numbers, and the last parameter is the length of the array.
"""


def numbers(call: Call) -> list[tuple[str, str]]:
    """Returns the names and types of the numbers of the result, of which the first may be the result of C."""
    return ([] if call.function.result == "bool" else [("result", call.function.result)]) + call.numbers()


def given(call: Call) -> list[tuple[str, str]]:
    """Returns the names and kinds of the parameters in Python."""
    return [*call.taken, *([("most", "usize")] if call.has_array else [])]


def arguments(call: Call, forms: dict[str, str], out: str, *more: str) -> str:
    """Returns the arguments of the call, each in the form of its kind."""
    return ", ".join([*(forms.get(kind, "{0}").format(name) for name, kind in call.taken), *(out.format(of.name) for of in call.state + call.written), *more])


def indented(lines: list[str]) -> list[str]:
    return [f"    {line}" for line in lines]


# ---- in C: native/calls.c

BY_HAND = ("prepare", "describe", "autonym")  # functions in list.c and names.c
OBJECTS = {"bool": "PyBool_FromLong", "u32": "PyLong_FromUnsignedLong", "usize": "PyLong_FromSize_t", "i32": "PyLong_FromLong"}
CODES = {"u32": ("I", "(unsigned)"), "usize": ("n", "(Py_ssize_t)")}
DECLARED = {"text": ["Text {0} = {{NULL}};"], "list": ["List {0};", "{0}.spans = NULL;"], "site": ["Site site;"], "u32": ["unsigned {0};"],
            "usize": ["Py_ssize_t {0};"]}
READ = {"text": "!lt_text({0}_from, &{0})", "list": "!lt_{0}({0}_from, &{0})", "site": "!lt_site(site_from, &site)"}
CLOSED = {"text": "Py_XDECREF({0}.owner);", "list": "lt_close(&{0});"}
PASSED = {"text": "{0}.data, {0}.len", "list": "{0}.text, {0}.len, {0}.spans, {0}.count", "site": "site.text, site.len, site.tags, site.count"}


def is_of_one_text(call: Call) -> bool:
    return [kind for _, kind in call.taken] == ["text"]


def tuple_in_c(call: Call) -> str:
    codes = [(*CODES[kind], name) for name, kind in numbers(call)]
    return f'Py_BuildValue("({"".join(code for code, _, _ in codes)})", {", ".join(cast + name for _, cast, name in codes)})'


def made_in_c(call: Call, result: str, *more: str, is_long: bool = True) -> list[str]:
    """Returns the lines of the call. Other threads run during a call on a long text."""
    length = " + ".join(f"{name}.len" for name, kind in call.taken if kind in READ)
    line = f"{result}{call.function.name}({arguments(call, PASSED, '&{0}', *more)});"
    return [f"LET_GO({length});", line, "TAKE_BACK();"] if length and is_long else [line]


def body_in_c(call: Call) -> list[str]:
    """Returns the lines from the call to the object that is returned."""
    kind = call.it.type_in_c(call.function.result) if call.function.result else ""
    if call.state:
        spans = [of for of in call.state if of.target() == "Span"]  # the rest of the text, so each call is short
        begin = [f"{call.it.type_in_c(of.target())} {of.name} = {'{0, text.len}' if of in spans else '0'};" for of in call.state]
        again = made_in_c(call, f"{kind} result = ", is_long=not spans)
        return [*begin, "answer = PyList_New(0);", "while (answer) {", *indented([*again, "if (!result) break;", f"answer = lt_append(answer, {tuple_in_c(call)});"]), "}"]
    if call.has_buffer:
        again = made_in_c(call, "", "data", "len")
        return ["char room[192], *data = room;", *made_in_c(call, "size_t len = ", "room", "sizeof room"),
                "answer = PyBytes_FromStringAndSize(len <= sizeof room ? room : NULL, (Py_ssize_t)len);", "if (answer && len > sizeof room) {",
                *indented(["data = PyBytes_AsString(answer);", *again]), "}"]
    if call.has_array:
        return ["size_t room = most < 0 ? 0 : (size_t)most < tags.count ? (size_t)most : tags.count;",
                "size_t *found = PyMem_Malloc((room + 1) * sizeof *found);", "if (found) {",
                *indented([*made_in_c(call, "size_t count = ", "found", "room"), "answer = lt_numbers(found, count < room ? count : room);"]), "} else PyErr_NoMemory();", "PyMem_Free(found);"]
    if not kind:
        return [f"answer = lt_changed(&text, {call.function.name});"]
    if not call.written:
        return [*made_in_c(call, f"{kind} result = "), f"answer = {OBJECTS[call.function.result]}(result);"]
    said = f"result ? {tuple_in_c(call)} : lt_none()" if call.function.result == "bool" else tuple_in_c(call)
    return [*made_in_c(call, f"{kind} result = "), f"answer = {said};"]


def function_in_c(call: Call) -> str:
    is_one = is_of_one_text(call)
    objects = [f"{name}_from" for name, kind in call.taken if kind in READ and not is_one]
    lines = [f"PyObject {''.join(f'*{name}, ' for name in objects)}*answer = NULL;"]
    taken = given(call)
    lines += [line.format(name) for name, kind in taken for line in DECLARED[kind]]
    lines += [f"{call.it.type_in_c(of.target())} {of.name};" for of in call.written]
    if call.taken and not is_one:
        codes = "".join("O" if kind in READ else CODES[kind][0] for _, kind in taken)
        lines.append(f'if (!PyArg_ParseTuple(arguments, "{codes}", {", ".join(f"&{name}_from" if kind in READ else f"&{name}" for name, kind in taken)})) return NULL;')
    body, read = body_in_c(call), " && ".join(READ[kind].format(name) for name, kind in call.taken if kind in READ)
    lines += [f"if ({read}) {{", *indented(body), "}"] if read else body
    lines += [CLOSED[kind].format(name) for name, kind in call.taken if kind in CLOSED] + ["return answer;"]
    return f"\nstatic PyObject *{call.name()}(PyObject *module, PyObject *{call.taken[0][0] + '_from' if is_one else 'arguments'}) {{\n" + "\n".join(indented(lines)) + "\n}\n"


def in_c(it: Interface, written: str) -> str:
    comment = "".join(f" * {line}".rstrip() + "\n" for line in CONVENTIONS.format(written=written).splitlines())
    ways = [(call.name(), "METH_O" if is_of_one_text(call) else "METH_VARARGS" if call.taken else "METH_NOARGS") for call in calls(it)]
    rows = [(name, name, way) for name, way in ways] + [(name, f"lt_{name}", "METH_O") for name in BY_HAND]
    table = "".join(f'    {{"{name}", {function}, {way}, NULL}},\n' for name, function, way in rows)
    return (f'/*\n{comment} */\n#include "native.h"\n{"".join(function_in_c(call) for call in calls(it))}\n'
            f"PyMethodDef lt_functions[] = {{\n{table}    {{NULL, NULL, 0, NULL}}}};\n")


# ---- their types: langtag/_native.pyi

HEAD = '''\
"""{}"""
from typing import Any

from ._texts import Text

class _Value:
    @property
    def _data(self) -> bytes: ...
    def __lt__(self, other: object) -> bool: ...
    def __le__(self, other: object) -> bool: ...
    def __gt__(self, other: object) -> bool: ...
    def __ge__(self, other: object) -> bool: ...

class TagBase(_Value):
    def __init__(self, text: Text | TagBase) -> None: ...
    @property
    def _kind(self) -> int: ...
    @property
    def language(self) -> str | None: ...
    @property
    def script(self) -> str | None: ...
    @property
    def region(self) -> str | None: ...
    @property
    def _variants(self) -> str | None: ...
    @property
    def _extensions(self) -> str | None: ...
    @property
    def private_use(self) -> str | None: ...
    @property
    def is_valid(self) -> bool: ...

class RangeBase(_Value):
    def __init__(self, text: Text | RangeBase | TagBase) -> None: ...
    @property
    def is_basic(self) -> bool: ...
    def matches_basic(self, tag: TagBase | Text, /) -> bool: ...
    def matches_extended(self, tag: TagBase | Text, /) -> bool: ...

def prepare(tags: list[Any], /) -> tuple[bytes, bytes]: ...
def describe(tag: Text, /) -> bytes: ...
def autonym(tag: Text, /) -> bytes | None: ...
'''
TYPES = {"text": "Text", "list": "list[Any]", "site": "tuple[bytes, bytes]"}


def result_in_python(call: Call) -> str:
    """Returns the type of the result."""
    kind = f"tuple[{', '.join(['int'] * len(numbers(call)))}]"
    if call.state:
        return f"list[{kind}]"
    if call.has_array:
        return "list[int]"
    if call.has_buffer or not call.function.result:
        return "bytes"
    if call.written:
        return f"{kind} | None" if call.function.result == "bool" else kind
    return "bool" if call.function.result == "bool" else "int"


def types(it: Interface, written: str) -> str:
    text = HEAD.format(CONVENTIONS.format(written=written))
    for call in calls(it):
        taken = ", ".join([*(f"{name}: {TYPES.get(of, 'int')}" for name, of in given(call)), *(["/"] if call.taken else [])])
        text += f"def {call.name()}({taken}) -> {result_in_python(call)}: ...\n"
    return text
