"""Writes bindings/js/calls.js: each function of langtag.h as a function of strings and numbers."""
from __future__ import annotations

from interface import Call, Interface, calls

HEAD = """\
/*
 * The functions of langtag.h as functions of strings and numbers. {written}
 *
 * A function has the parameters that it has in C, without those to which it only writes. A list of strings is passed for a string and the
 * spans in it. The result is that of C, with these exceptions:
 *
 * - If C writes a string to a buffer, the string is returned, or "" if C writes nothing. `room` is the length of the buffer. If it is too
 *   short, the function calls itself with the length that C returned.
 * - If C writes numbers, the list of the result and these numbers is returned. If the result is only true or false, the list of the numbers
 *   or undefined is returned.
 * - If C removes one item after another, the list of all items is returned.
 * - If C writes numbers to an array, the list of the numbers that it wrote is returned, at most `room`, the length of the array.
 * - `site`, which prepareSite of memory.js returns, is passed for a string and the prepared tags in it.
 */
import {{ aligned, close, count, lengthOf, module, open, prepare, read, readSizes, SPAN, WORD, write, writeBytes, writeList, written }} from "./memory.js";
"""

RESULTS = {"bool": "{} !== 0", "u32": "{} >>> 0", "usize": "count({})"}
LONGER = 32  # how many bytes longer than its arguments a written string may be before it needs a second call
# The length of a parameter in bytes, what passes it after its address, and what writes it and returns the address after it.
LENGTHS = {"text": "{0}.length", "list": "{0}Length", "site": "site.text.length"}
PASSED = {"text": "{0}.length", "list": "{0}Length, {0}At, {0}.length", "site": "site.text.length, siteAt, site.count"}
STEPS = {"text": "write({0}, at{1})", "list": "writeList({0}, at{1}, {0}At)", "site": "writeBytes(site.text, at{1})"}


def camel(name: str) -> str:
    first, *others = name.split("_")
    return first + "".join(map(str.capitalize, others))


def parameters(call: Call) -> list[tuple[str, str]]:
    return [(camel(name), kind) for name, kind in call.taken]


def arguments(call: Call) -> str:
    """Returns what is passed: strings by the address where they are written, and what C writes by the addresses of its numbers."""
    passed, steps, outs = [], 0, 0
    for name, kind in parameters(call):
        place = f"at{steps}" if steps else "module.begin"
        passed.append(f"{place}, {PASSED[kind].format(name)}" if kind in PASSED else name)
        steps += kind in PASSED
    for of in call.state + call.written:
        passed.append(f"module.outs[{outs}]")
        outs += len(call.it.numbers_of(of.name, of.target()))
    if call.has_buffer:
        passed.append(f"{f'at{steps}' if steps else 'module.begin'}, room")
    if call.has_array:
        passed.append("foundAt, room")
    return ", ".join(passed)


def before(call: Call) -> list[str]:
    """Returns the lines before the call. The spans of lists come after all strings, and an array comes after the spans."""
    strings, lists = [(name, kind) for name, kind in parameters(call) if kind in STEPS], call.names("list")
    found = [f"const {name}Length = lengthOf({name});" for name in lists]
    lengths = [LENGTHS[kind].format(name) for kind in LENGTHS for name, of in strings if of == kind]
    needed = [*lengths, *(f"SPAN * {name}.length" for name in lists), *(["room"] if call.has_buffer else []), *(["WORD * room"] if call.has_array else []),
              *(["site.tags.length"] if call.names("site") else [])]
    opened = f"open({' + '.join(needed) or '0'});"
    found.append(f"const at0 = {opened}" if strings or call.has_buffer else opened)
    place = " + ".join(["at0", *lengths])
    for name in lists:
        found.append(f"const {name}At = aligned({place});")
        place = f"{name}At + SPAN * {name}.length"
    found += [f"const siteAt = aligned({place});", "writeBytes(site.tags, siteAt);"] if call.names("site") else []
    found += [f"const foundAt = {place};"] if call.has_array else []
    for number, (name, kind) in enumerate(strings):
        is_used = number + 1 < len(strings) or call.has_buffer
        found.append(f"{f'const at{number + 1} = ' if is_used else ''}{STEPS[kind].format(name, number)};")
    if call.state:
        found.append("prepare(0);" if call.state[0].target() == "usize" else f"prepare(0, {parameters(call)[0][0]}.length);")
    return found


def ends(call: Call, made: str) -> tuple[str, list[str]]:
    """Returns what a function returns, and the lines of its call."""
    first = sum(len(call.it.numbers_of(of.name, of.target())) for of in call.state) if call.written else 0
    said = ", ".join(camel(name) if "." not in name else name for name, _ in call.numbers())
    numbers = ", ".join(f"written({first + index})" for index in range(len(call.numbers())))
    result, has_result = RESULTS.get(call.function.result, "{}").format(made), call.function.result != "bool"
    if call.state and not has_result:
        return f"a list of [{said}]", ["const items = [];", f"while ({made} !== 0) {{", f"    items.push([{numbers}]);", "}", "return close(items);"]
    if call.state:
        return f"a list of [result, {said}]", ["const items = [];", "for (;;) {", f"    const result = {result};", "    if (result === 0) return close(items);",
                                               f"    items.push([result, {numbers}]);", "}"]
    if call.written and not has_result:
        return f"[{said}] or undefined", [f"return close({made} !== 0 ? [{numbers}] : undefined);"]
    if call.written:
        return f"[result, {said}]", [f"const result = {result};", f"return close([result, {numbers}]);"]
    if call.has_buffer:
        again = f"{camel(call.name())}({', '.join([*(name for name, _ in parameters(call)), 'length'])})"
        place = f"at{sum(kind in STEPS for _, kind in call.taken)}"
        return "the written string", [f"const length = {result};", f"if (length <= room) return close(read({place}, length));", "close();", f"return {again};"]
    if call.has_array:
        return "the numbers that C writes", [f"return close(readSizes(foundAt, Math.min(room, {result})));"]
    if not call.function.result:
        return "the changed string", [f"{made};", f"return close(read(at0, {parameters(call)[0][0]}.length));"]
    return "", [f"return close({result});"]


def function_in_js(call: Call) -> str:
    returned, lines = ends(call, f"module.calls.{call.function.name}({arguments(call)})")
    room = " + ".join([*(f"{camel(text)}.length" for text in call.names("text")), str(LONGER)])
    taken = [name for name, _ in parameters(call)] + ([f"room = {room}"] if call.has_buffer else []) + (["room"] if call.has_array else [])
    comment = f"/** Returns {returned}. */\n" if returned else ""
    body = "".join(f"    {line}\n" for line in [*before(call), *lines])
    return f"\n{comment}export function {camel(call.name())}({', '.join(taken)}) {{\n{body}}}\n"


def javascript(it: Interface, written: str) -> str:
    return HEAD.format(written=written) + "".join(map(function_in_js, calls(it)))
