"""Some Rattle code differs from the erased code by more than kinds.txt can express. For such code, this module makes the form that
the erased code must have."""
import re

from words import group_end, skip_to, starts, words_of

# The module of each crate.
CRATES = {f"langtag_{name}": name for name in """
    scan text language place extension private range fields canonical registry cldr likely posix parent choice keyword unicode locale
""".split()} | {"langtag": "tag", "langtag_match": "matching", "langtag_c": "calls"}
# Where the modules are that are made from crates, and the crates whose modules are elsewhere. The C library has these modules and those below src.
MADE = "erased"
ELSEWHERE = {"langtag_c": "../c/src"}
# The folders with other files: the program, and the list of the modules.
BY_HAND = ["bin", "bin/langtag", "erased", "names"]
# The modules that also export what other crates export.
SHOWING = {"langtag_unicode": ["langtag_locale"], "langtag_likely": ["langtag_posix", "langtag_parent"]}
# The errors whose message ends with the refused text, which src/message.rs writes: all whose parameter is a text. That of
# InvalidLangTag also says why.
REFUSED = {"InvalidLangTag": "write_tag"}
NO_TEXT = "InvalidSingleton"
# The arms of the variants whose message contains a part of a refused text.
WITH_PART = {
    "PosixError::NoTag": '(value) => write!(f, "no language in the locale name {}", crate::message::Quoted(value.as_bytes()))',
    "AcceptLanguageError::BadElement":
        "{ header, index, offset, part } => crate::message::write_element(f, header, *index, *offset, part)",
}
IMPLS = """impl{generics} fmt::Display for {type} {{ fn fmt(&self, f: &mut fmt::Formatter<'_>) -> fmt::Result {{ {body} }} }}
impl{bound} core::error::Error for {type} {{}}"""


def with_paths(words, crate, counts):
    """Changes each path to its path in the single Rust crate."""
    out = []
    for at, word in enumerate(words):
        is_first = starts(words, at + 1, ":", ":") and words[at - 1] != ":"
        other = crate if word == "crate" else word
        if is_first and other in CRATES:
            out += words_of(path_of(other))
        else:
            out.append("core" if is_first and word == "std" else word)
        counts["path"] += out[-1] != word
    return out


def path_of(crate):
    return f"crate::{CRATES[crate]}" if crate in ELSEWHERE else f"crate::{MADE}::{CRATES[crate]}"


def with_errors(words, counts):
    """Writes out the impls that thiserror derives: the message of each error, and the trait `Error`."""
    out, at = [], 0
    while at < len(words):
        if not starts(words, at, "#", "[", "derive") or "Error" not in words[at : group_end(words, at + 1)]:
            out.append(words[at])
            at += 1
            continue
        end = item_end(words, at)
        out += with_impls(words[at:end])
        counts["error"] += 1
        at = end
    return out


def item_end(words, at):
    while words[at] not in ("struct", "enum"):
        at = group_end(words, at + 1) if words[at] == "#" else group_end(words, at) if words[at] == "(" else at + 1
    end = group_end(words, skip_to(words, at, ("{", "(")))
    return end + 1 if words[end : end + 1] == [";"] else end


def with_impls(item):
    """Returns an error type without its attributes, and its impls."""
    plain, messages = without_messages(without_error(item))
    name = plain[next(at for at, word in enumerate(plain) if word in ("struct", "enum")) + 1]
    parameter = next((plain[at + 2] for at, word in enumerate(plain) if word == name and plain[at + 1] == "<"), "")
    if not messages[0][0]:
        body = f"f.write_str({messages[0][2]})"
    else:
        body = "match self {" + ",".join(arm(name, *message) for message in messages) + "}"
    lifetime = parameter.startswith("'")
    type_ = f"{name}<'_>" if lifetime else f"{name}<{parameter}>" if parameter else name
    generics, bound = ("", "") if lifetime or not parameter else (f"<{parameter}>", f"<{parameter}: fmt::Debug>")
    if generics and name != NO_TEXT:
        body += f"?; crate::message::{REFUSED.get(name, 'write_text')}(f, self.0.as_ref())"
        generics, bound = f"<{parameter}: AsRef<[u8]>>", f"<{parameter}: fmt::Debug + AsRef<[u8]>>"
    return plain + words_of(IMPLS.format(generics=generics, bound=bound, type=type_, body=body))


def without_error(item):
    """Takes the trait `Error` from the derive that opens an item."""
    end = group_end(item, 1)
    names = [word for word in item[4 : end - 2] if word not in (",", "Error")]
    return item[:4] + [word for name in names for word in (name, ",")][:-1] + item[end - 2 :]


def without_messages(item):
    """Returns an item without `#[error(..)]`, and for each of these attributes the variant after it, the bracket that opens its
    fields, and the message."""
    plain, messages, at = [], [], 0
    while at < len(item):
        if starts(item, at, "#", "[", "error", "("):
            message, at = item[at + 4], group_end(item, at + 1)
            is_variant = item[at] not in ("pub", "struct", "enum", "#")
            messages.append((item[at], item[at + 1], message) if is_variant else ("", "", message))
        else:
            plain.append(item[at])
            at += 1
    return plain, messages


def arm(name, variant, opens, message):
    """Returns the `match` arm that writes the message of a variant: `{0}` is its field, which the pattern names."""
    if f"{name}::{variant}" in WITH_PART:
        return f"{name}::{variant}" + WITH_PART[f"{name}::{variant}"]
    if message == '"{0}"':
        return f"{name}::{variant}(value) => value.fmt(f)"
    fields = re.findall(r"\{(\w+)\}", message)
    if opens == "(":
        pattern = "(value)" if fields else "(_)"
    else:
        pattern = f"{{ {', '.join(fields)}, .. }}" if opens == "{" else ""
    text = message.replace("{0}", "{value}")
    return f"{name}::{variant}{pattern} => " + (f"write!(f, {text})" if fields else f"f.write_str({text})")


def with_nested_chains(words, counts):
    """Writes `if a && let b = c {..}` as one `if` in another."""
    for at in range(len(words) - 1, -1, -1):
        if words[at] == "if":
            body, joints = condition(words, at + 1)
            lets = [joint for joint in (at - 1, *joints) if words[joint + 2] == "let"]
            if joints and words[body] == "{" and lets:
                counts["let chain"] += 1
                end = group_end(words, body)
                words = words[:end] + ["}"] * len(joints) + words[end:]
                for joint in reversed(joints):
                    words = words[:joint] + ["{", "if"] + words[joint + 2 :]
    return words


def condition(words, at):
    """Returns where a condition ends, and where it has `&&` outside of all groups."""
    joints = []
    while words[at] != "{" and not starts(words, at, "=", ">"):
        if starts(words, at, "&", "&"):
            joints.append(at)
            at += 1
        at = group_end(words, at) if words[at] in ("(", "[", "{") else at + 1
    return at, joints


def with_tables(words, source, counts):
    """Names a table where it is used, and leaves out the private function that returns it, if it has no documentation."""
    tables, kept, at = {}, [], 0
    while at < len(words):
        end = group_end(words, skip_to(words, at, ("{", ";"))) if starts(words, at, "fn") and starts(words, at + 2, "(", ")", "-", ">") else at
        body = words[skip_to(words, at, ("{", ";")) + 1 : end - 1] if end > at else []
        is_private = end > at and not re.search(rf"(pub.*|///.*\n(?:#.*\n)*)fn {words[at + 1]}\(\)", source)
        if is_private and body[:1] == ["&"] and body[-1].isupper() and all(re.fullmatch(r"[\w:]+", word) for word in body[1:]):
            tables[words[at + 1]], at = body, end
        else:
            kept.append(words[at])
            at += 1
    counts["table"] += len(tables)
    for at in range(len(kept) - 3, -1, -1):
        if kept[at] in tables and starts(kept, at + 1, "(", ")"):
            table = tables[kept[at]]
            whole = words_of("[..]") if kept[at - 1] == "=" else []
            kept[at : at + 3] = table[1:] if kept[at + 3] in (".", "[") else [*table, *whole]
    return kept


def with_short_forms(words, counts):
    """Writes a `match` on an option as a call of the option, and leaves out a lifetime that rustc adds itself."""
    for at in range(len(words) - 1, -1, -1):
        if words[at] == "match" and (short := short_match(words, at)):
            counts["short match"] += 1
            words = words[:at] + short + words[group_end(words, skip_to(words, at, ("{",))) :]
        elif words[at] == "fn" and words[at + 2] == "<" and words[at + 3].startswith("'") and words[at + 4] == ">":
            words = with_short_signature(words, at, counts)
    return words


def short_match(words, at):
    """Returns the words of the call for `match option { Some(name) => some, None => none }`, or for a result with `Ok(name)` and `Err(_)`."""
    body = skip_to(words, at, ("{",))
    option, arms = words[at + 1 : body], words[body + 1 : group_end(words, body) - 1]
    first = skip_to([*arms, ","], 0, (",",))
    second = arms[first + 1 : len(arms) - (arms[-1] == ",")]
    is_result = arms[:1] == ["Ok"]
    absent = ["Err", "(", "_", ")", "=", ">"] if is_result else ["None", "=", ">"]
    if arms[:2] != ["Ok" if is_result else "Some", "("] or arms[2] == "_" or second[: len(absent)] != absent or not is_reached(option):
        return None
    opens = group_end(arms, 1)
    name, some, none = arms[2 : opens - 1], arms[opens + 2 : first], second[len(absent) :]
    if arms[opens : opens + 2] != ["=", ">"] or "{" in (some[0], none[0]) or skip_to([*none, ","], 0, (",",)) < len(none):
        return None
    if {"return", "break", "continue", "?"} & {*some, *none} or (len(option) == 1 and is_reference(words, at, option[0])):
        return None
    start = len(some) - len(name) - 2
    is_call = start > 0 and some[start:] == ["(", *name, ")"] and all(re.fullmatch(r"\w+|:", word) for word in some[:start])
    closure = some[:start] if is_call and len(name) == 1 else ["|", *name, "|", *some]
    is_plain = re.fullmatch(r"""(\w+|"[^"]*"|b?'[^']*')((::|\.)\w+)*""", "".join(none))
    if none == ["false"] or none == ["true"] and not is_result:
        return [*option, ".", {"true": "is_none_or", "false": "is_ok_and" if is_result else "is_some_and"}[none[0]], "(", *closure, ")"]
    if some == name:
        ignored = ["_"] if is_result else []
        return [*option, ".", *(["unwrap_or", "("] if is_plain else ["unwrap_or_else", "(", "|", *ignored, "|"]), *none, ")"]
    if none == ["None"]:
        option = [*option, ".", "ok", "(", ")"] if is_result else option
        is_some = some[:2] == ["Some", "("] and group_end(some, 1) == len(some)
        return [*option, ".", *(["map", "(", "|", *name, "|", *some[2:-1]] if is_some else ["and_then", "(", *closure]), ")"]
    return [*option, ".", "map_or", "(", *none, ",", *closure, ")"] if is_plain else None


def is_reached(words):
    """Returns whether words are a value, with its fields and calls."""
    at = 0
    while at < len(words) and (words[at] in ("(", "[", ".", ":") or re.fullmatch(r"[A-Za-z_]\w*", words[at])):
        at = group_end(words, at)
    return at == len(words)


def is_reference(words, at, name):
    start = max((place for place in range(at) if words[place] == "fn"), default=at)
    return any(starts(words, place, name, ":", "&") for place in range(start, at))


def with_short_signature(words, at, counts):
    """Leaves out the lifetime of a function if one argument has it, and rustc knows no other for the result."""
    name, close = words[at + 3], group_end(words, at + 5)
    body = next((place for place in range(close, len(words)) if words[place] in ("{", ";", "where")), len(words) - 1)
    arguments, result = words[at + 5 : close], words[close:body]
    others = [place for place, word in enumerate(arguments) if word in ("self", "'_") or (word == "&" and arguments[place + 1] != name)]
    in_body = name in words[body : group_end(words, body)]
    if arguments.count(name) != 1 or words[body] == "where" or in_body or (name in result and others):
        return words
    counts["lifetime"] += 1
    short = [word if word != name else "'_" for place, word in enumerate(words[at + 5 : body], at + 5) if word != name or words[place - 1] != "&"]
    return words[: at + 2] + short + words[body:]
