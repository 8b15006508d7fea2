"""Writes what Rust programmers write shorter: a `match` on an option or a result as a call of it, a table where it is used, and lifetimes that
rustc adds itself."""
import re

LEAVES = {"return", "break", "continue", "?"}
SIMPLE = re.compile(r'(\w+|"[^"]*"|b?\'[^\']*\')((::|\.)\w+)*')
TABLE = re.compile(r"&(\w+::)*[A-Z][A-Z_0-9]*")
CHAIN = re.compile(r"[A-Za-z_]\w*|[.:]")


def shorten(code):
    for place in range(len(code) - 1, -1, -1):
        if code[place] == "match":
            shorten_match(code, place)
        elif code[place] == "fn" and code.at(place + 2, "<") and code[place + 4] == ">":
            leave_lifetime_out(code, place)


def name_tables(code):
    """Names a table where it is used, instead of a private function without documentation that returns `&TABLE`."""
    for place in range(len(code) - 1, -1, -1):
        if code[place] != "fn" or not code.at(place + 2, "(", ")", "-", ">") or code[place - 1] in ("pub", ")"):
            continue
        body = code.next_of(("{",), place)
        end = code.after(body)
        table = code.text_of(body + 1, end - 1)
        if not TABLE.fullmatch(table) or "///" in code.tokens[place].before:
            continue
        name = code[place + 1]
        code.drop(place, end)
        for at in range(len(code) - 1, -1, -1):
            if code.at(at, name, "(", ")"):
                # A walk shortens its slice, so it begins with a slice and not with an array.
                code.replace(at, at + 3, table[1:] if code[at + 3] in (".", "[") else table + "[..]" * (code[at - 1] == "="))


def shorten_match(code, place):
    """Changes `match option { Some(x) => a, None => b }`, if `b` is a value, or `a` is `x`. A reference to an option stays. A result is an
    option with `Ok(x)` and `Err(_)`."""
    body = code.next_of(("{",), place)
    end = code.after(body)
    is_result = code[body + 1] == "Ok"
    if not is_chain(code, place + 1, body) or not code.at(body + 1, "Ok" if is_result else "Some", "(") or code[body + 3] == "_":
        return
    function = max((at for at in range(place) if code[at] == "fn"), default=place)
    if any(code.at(at, code[place + 1], ":", "&") for at in range(function, place)) and body == place + 2:
        return
    arrow = code.after(body + 2)
    comma = code.next_of((",", "}"), arrow)
    absent = [",", "Err", "(", "_", ")", "=", ">"] if is_result else [",", "None", "=", ">"]
    other = comma + len(absent)
    if not code.at(arrow, "=", ">") or not code.at(comma, *absent) or code[arrow + 2] == "{" or code[other] == "{":
        return
    last = code.next_of((",", "}"), other)
    if last + (code[last] == ",") != end - 1 or LEAVES & {code[at] for at in range(arrow, end)}:
        return
    text = lambda start, stop: "".join(token.before + token.text for token in code.tokens[start:stop]).strip()
    some = text(arrow + 4, comma - 1) if code.at(arrow + 2, "Some", "(") and code.after(arrow + 3) == comma else None
    call = call_of(is_result, text(body + 3, arrow - 1), text(arrow + 2, comma), some, text(other, last))
    if call:
        code.replace(place, end, text(place + 1, body) + call)


def is_chain(code, place, end):
    """Returns whether some code is calls and fields of a value."""
    while place < end:
        if not CHAIN.fullmatch(code[place]) and code[place] not in ("(", "["):
            return False
        place = code.after(place)
    return True


def call_of(is_result, name, some, inner, none):
    """Returns the call for `Some(name) => some, None => none`, if one is shorter. `inner` is what `some` has in `Some(..)`."""
    then = some[: -len(name) - 2] if re.fullmatch(rf"[\w:]+\({name}\)", some) else f"|{name}| {some}"
    if none == "false" or none == "true" and not is_result:
        return f".{'is_none_or' if none == 'true' else 'is_ok_and' if is_result else 'is_some_and'}({then})"
    if some == name:
        return f".unwrap_or({none})" if SIMPLE.fullmatch(none) else f".unwrap_or_else(|{'_' if is_result else ''}| {none})"
    if none == "None":
        return (".ok()" if is_result else "") + (f".map(|{name}| {inner})" if inner else f".and_then({then})")
    return f".map_or({none}, {then})" if SIMPLE.fullmatch(none) else None


def leave_lifetime_out(code, place):
    """Changes `fn f<'a>(x: &'a A) -> B<'a>` to `fn f(x: &A) -> B<'_>`, if the lifetime is that of one argument, and rustc knows no other."""
    name, opening = code[place + 3], place + 5
    close = code.after(opening)
    if code.tokens[place + 3].kind != "lifetime" or code[opening] != "(":
        return
    body = next(at for at in range(close, len(code) + 1) if code[at] in ("{", ";", "where"))
    end = code.after(body) if code[body] == "{" else body
    uses = lambda start, stop: [at for at in range(start, stop) if code[at] == name]
    given, returned = uses(opening, close), uses(close, body)
    others = [at for at in range(opening, close) if code[at] == "'_" or code[at] == "self" or (code[at] == "&" and code[at + 1] != name)]
    if len(given) != 1 or code[body] == "where" or uses(body, end) or (returned and others):
        return
    for at in sorted(given + returned, reverse=True):
        code.replace(at, at + 1, "" if code[at - 1] == "&" else "'_")
    code.replace(place + 2, place + 5, "")
