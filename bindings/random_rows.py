#!/usr/bin/env python3
"""Writes random rows (vectors/README.md). Their results come from a second implementation of RFC 5646 and RFC 4647, which is plain and
slow, and shares nothing with the library.

    random_rows.py rows COUNT SEED    rows about COUNT strings of up to 300 bytes
"""
from __future__ import annotations

import random
import re
import sys
from typing import Iterator, NamedTuple

# ---- tags (RFC 5646 section 2.1)

GRANDFATHERED = (b"en-GB-oed i-ami i-bnn i-default i-enochian i-hak i-klingon i-lux i-mingo i-navajo i-pwn i-tao i-tay i-tsu "
                 b"sgn-BE-FR sgn-BE-NL sgn-CH-DE art-lojban cel-gaulish no-bok no-nyn zh-guoyu zh-hakka zh-min zh-min-nan "
                 b"zh-xiang").split()
IRREGULAR = [tag.lower() for tag in GRANDFATHERED[:17]]
PARTS = ("language", "script", "region", "variants", "extensions", "private_use")
LANGTAG = re.compile(rb"""(?ix)
    (?P<language>         [a-z]{2,3} (?:-[a-z]{3}){0,3} | [a-z]{4} | [a-z]{5,8} )
    (?:- (?P<script>      [a-z]{4} ))?
    (?:- (?P<region>      [a-z]{2} | [0-9]{3} ))?
    (?:- (?P<variants>    (?:[a-z0-9]{5,8} | [0-9][a-z0-9]{3}) (?:- (?:[a-z0-9]{5,8} | [0-9][a-z0-9]{3}))* ))?
    (?:- (?P<extensions>  [0-9a-wyz] (?:-[a-z0-9]{2,8})+ (?:- [0-9a-wyz] (?:-[a-z0-9]{2,8})+)* ))?
    (?:- (?P<private_use> x (?:-[a-z0-9]{1,8})+ ))?""")
PRIVATE_USE = re.compile(rb"(?i)x(?:-[a-z0-9]{1,8})+")
EXTENSION = re.compile(rb"(?i)(?<![a-z0-9])[a-z0-9](?:-[a-z0-9]{2,8})+")


def kind(text: bytes) -> str:
    if text.lower() in IRREGULAR:
        return "irregular"
    return "private" if PRIVATE_USE.fullmatch(text) else "normal" if LANGTAG.fullmatch(text) else "none"


def parts(tag: bytes) -> dict[str, bytes]:
    """Returns the parts of a normal tag. An absent part is empty."""
    found = LANGTAG.fullmatch(tag)
    assert found
    return found.groupdict(b"")


def begins_a_tag(text: bytes) -> bool:
    """Returns whether some tag begins with a text: an irregular tag does, or the text becomes a tag if its last subtag is extended
    to five letters. Such a subtag is allowed almost everywhere, and another subtag may follow each subtag that has to be shorter."""
    last = text.rpartition(b"-")[2]
    return any(tag.startswith(text.lower()) for tag in IRREGULAR) or kind(text + b"a" * (5 - len(last))) != "none"


def viable(text: bytes) -> int:
    """Returns the length of the longest prefix that begins a tag. Each shorter prefix begins one, too."""
    return next((length for length in range(len(text)) if not begins_a_tag(text[: length + 1])), len(text))


def joined(tag: dict[str, bytes]) -> bytes:
    return b"-".join(filter(None, tag.values()))


def edited(tag: bytes, part: str, given: bytes) -> str:
    """Returns the tag with a part set, which has to be read as that part again."""
    if kind(tag) != "normal":
        return "no parts"
    wanted = {**parts(tag), part: given}
    made = joined(wanted)
    return shown(made) if kind(made) == "normal" and parts(made) == wanted else "refused"


def recommended(text: bytes) -> bytes:
    """Returns a text in the case of section 2.1.1."""
    subtags = text.lower().split(b"-")
    single = next((index for index, subtag in enumerate(subtags) if len(subtag) == 1), len(subtags))
    for index in range(1, single):
        if len(subtags[index]) in (2, 4):
            length = 2 if len(subtags[index]) == 2 else 1
            subtags[index] = subtags[index][:length].upper() + subtags[index][length:]
    return b"-".join(subtags)


# ---- the extension u (RFC 6067)


def with_keyword(tag: bytes, key: bytes, value: bytes) -> str:
    if not re.fullmatch(rb"(?i)[a-z0-9][a-z]", key):
        return "bad key"
    if value not in (b"", b"-") and not re.fullmatch(rb"(?i)[a-z0-9]{3,8}(-[a-z0-9]{3,8})*", value):
        return "bad value"
    if kind(tag) != "normal":
        return "no parts"
    made, new = parts(tag), b"-".join(filter(None, [key, value]))
    extensions = EXTENSION.findall(made["extensions"])
    at = next((index for index, it in enumerate(extensions) if it[:1] in b"uU"), None)
    if at is not None:
        extensions[at : at + 1] = changed(extensions[at], key, value)
    elif value != b"-":
        at = next((index for index, it in enumerate(extensions) if it[:1].lower() > b"u"), len(extensions))
        extensions.insert(at, b"u-" + new)
    made["extensions"] = b"-".join(extensions)
    return shown(joined(made))


def changed(extension: bytes, key: bytes, value: bytes) -> list[bytes]:
    """Returns the extension u with a keyword set or, if the value is -, removed. It is left out if nothing is in it."""
    before, *keywords = re.split(rb"(?i)-(?=[a-z0-9]{2}(?:-|$))", extension)
    places = [index for index, it in enumerate(keywords) if it[:2].lower() == key.lower()]
    kept = [it for it in keywords if it[:2].lower() != key.lower()]
    if value != b"-":
        at = places[0] if places else next((index for index, it in enumerate(kept) if it[:2].lower() > key.lower()), len(kept))
        kept.insert(at, b"-".join(filter(None, [keywords[places[0]][:2] if places else key, value])))
    return [b"-".join([before, *kept])] if kept or len(before) > 1 else []


# ---- ranges (RFC 4647) and Accept-Language (RFC 9110 section 12.5.4)


def range_kind(text: bytes) -> str:
    if not re.fullmatch(rb"(?i)([a-z]{1,8}|\*)(-([a-z0-9]{1,8}|\*))*", text):
        return "none"
    return "extended" if b"*" in text and text != b"*" else "basic"


def matches_basic(asked: bytes, tag: bytes) -> bool:
    return asked == b"*" or (tag + b"-").lower().startswith(asked.lower() + b"-")


def matches_extended(asked: bytes, tag: bytes) -> bool:
    """The steps of section 3.3.2."""
    (first, *wanted), (language, *subtags) = asked.lower().split(b"-"), tag.lower().split(b"-")
    if first not in (b"*", language):
        return False
    for subtag in (it for it in wanted if it != b"*"):
        while subtags and subtags[0] != subtag and len(subtags[0]) > 1:
            subtags.pop(0)
        if not subtags or subtags.pop(0) != subtag:
            return False
    return True


def match(asked: bytes, tag: bytes) -> str:
    if range_kind(asked) == "none" or kind(tag) == "none":
        return "neither"
    found = matches_basic(asked, tag), matches_extended(asked, tag)
    return {(True, True): "both", (True, False): "basic", (False, True): "extended", (False, False): "neither"}[found]


def fallbacks(asked: bytes) -> list[bytes]:
    """Returns a range and its fallbacks (section 3.4). A subtag of one character is removed together with the subtag after it."""
    subtags = asked.split(b"-")
    return [asked, *(b"-".join(subtags[:count]) for count in range(len(subtags) - 1, 0, -1) if len(subtags[count - 1]) != 1)]


def look_up(ranges: list[bytes], tags: list[bytes]) -> str:
    found = (tag for asked in ranges for fallback in fallbacks(asked) for tag in tags if tag.lower() == fallback.lower())
    return next(found, b"-").decode()


class Element(NamedTuple):
    """An element of a header: the number of commas before it, its offset, what is malformed, its range, and its weight in
    thousandths."""

    index: int
    offset: int
    wrong: str
    range: bytes
    weight: int


def elements(header: bytes) -> Iterator[Element]:
    """Yields the elements that are not empty."""
    offset = 0
    for index, text in enumerate(header.split(b",")):
        before, semicolon, after = text.partition(b";")
        asked, weight = before.strip(b" \t"), re.fullmatch(rb"(?i)q=(0(?:\.\d{0,3})?|1(?:\.0{0,3})?)", after.strip(b" \t"))
        wrong = "range" if range_kind(asked) != "basic" else "weight" if semicolon and not weight else ""
        if text.strip(b" \t"):
            yield Element(index, offset + len(text) - len(text.lstrip(b" \t")), wrong, asked, round(1000 * float(weight[1])) if weight else 1000)
        offset += len(text) + 1


def wanted_by(header: bytes) -> list[Element]:
    """Returns the elements that are not malformed, by descending weight."""
    return sorted((it for it in elements(header) if not it.wrong and it.weight > 0), key=lambda it: -it.weight)


def first_malformed(header: bytes, message: str) -> str:
    """Returns the message about the first malformed element, or nothing."""
    return next((message.format(**it._asdict()) for it in elements(header) if it.wrong), "")


# ---- the rows


def shown(text: bytes) -> str:
    """Returns a text as the rows have it."""
    return "".join(chr(byte) if 32 < byte < 127 and byte not in b"\\{}" else f"\\x{byte:02x}" for byte in text) or "''"


def repeated(name: str, members: list[bytes], begin: int) -> list[str]:
    """Returns the lines about the first member that equals an earlier one. The singleton of an extension is compared."""
    seen: set[bytes] = set()
    for member in members:
        compared = member[:1] if name == "singleton" else member
        if compared.lower() in seen:
            return [f"  repeated_{name} {compared.decode()}", f"  at_{name} {begin}"]
        seen.add(compared.lower())
        begin += len(member) + 1
    return []


def described(text: bytes) -> str:
    lines, found = [kind(text)], LANGTAG.fullmatch(text)
    if lines[0] == "none":
        return "none"
    if lines[0] == "normal" and found:
        members = {name: it.split(b"-") if it else [] for name, it in parts(text).items()}
        members["extensions"] = EXTENSION.findall(parts(text)["extensions"])
        lines += [f"  {name} {b' '.join(of).decode()}" for name, of in members.items() if of]
        lines += repeated("variant", members["variants"], found.start("variants"))
        lines += repeated("singleton", members["extensions"], found.start("extensions"))
    elif lines[0] == "private":
        lines.append(f"  private_use {text.replace(b'-', b' ').decode()}")
    hash = 0xCBF29CE484222325
    for byte in text.lower():
        hash = (hash ^ byte) * 0x100000001B3 % 2**64
    lines += [f"  recommended {shown(recommended(text))}", f"  folded {shown(text.lower())}", f"  hash {hash:016x}"]
    return "\n".join(lines)


def scanned(text: bytes) -> str:
    what = kind(text)
    if what == "normal":
        end, ends = 0, []
        for part in parts(text).values():
            end += len(part) + (1 if part and end else 0)
            ends.append(str(end))
        what = " ".join([what, *ends])
    elif what == "irregular":
        what += f" {IRREGULAR.index(text.lower())}"
    return f"{min(viable(text) + 1, len(text))} {sum(kind(text[:end]) != 'none' for end in range(len(text) + 1))} {what}"


def order(a: bytes, b: bytes) -> str:
    """Compares bytes ignoring case. A text sorts after each longer text that begins with it."""
    a, b = a.lower() + b"\xff\xff", b.lower() + b"\xff\xff"
    return "equal" if a == b else "before" if a < b else "after"


Rows = Iterator[tuple[str, ...]]


def rows_of_text(text: bytes, near: bytes) -> Rows:
    length, names = viable(text), [tag.lower() for tag in GRANDFATHERED]
    yield "tag", shown(text), described(text)
    yield "scan", shown(text), scanned(text)
    yield "viable", shown(text), f"{length} {min(length + 1, len(text))}"
    yield "recommended", shown(text), shown(recommended(text))
    yield "grandfathered", shown(text), f"{names.index(text.lower()) if text.lower() in names else len(names)} {kind(text)}"
    yield "order", shown(text), shown(near), order(text, near)


def rows_of_range(asked: bytes, text: bytes) -> Rows:
    yield "range", shown(asked), range_kind(asked)
    yield "match", shown(asked), shown(text), match(asked, text)
    if range_kind(asked) != "none":
        yield "fallbacks", shown(asked), " ".join(map(shown, fallbacks(asked)))


def rows_of_header(header: bytes, tags: list[bytes]) -> Rows:
    found = look_up([it.range for it in wanted_by(header)], tags)
    strict = first_malformed(header, "bad {index} {offset} {wrong}") or found
    yield "header", shown(header), " ".join(map(shown, tags)), strict, found
    listed = " ".join(f"{shown(it.range)} {it.weight}" for it in wanted_by(header)) or "-"
    bad = first_malformed(header, "element {index} has a bad {wrong}").replace("bad range", "bad language range")
    yield "elements", shown(header), *([bad] if bad else []), listed


def rows_of_no_tag(text: bytes, near: bytes) -> Rows:
    for call in ("canonical", "maximized", "minimized", "extensions-form", "locale-form", "right-to-left", "suggestion"):
        yield call, shown(text), "-"
    yield "validity", shown(text), "none"
    yield "is-locale", shown(text), "no"
    yield "distance", shown(text), shown(near), "-"


def rows_of_tag(numbers: random.Random, tag: bytes, near: bytes) -> Rows:
    base = {**parts(tag), "extensions": b"", "private_use": b""} if kind(tag) == "normal" else {"": tag}
    yield "base", shown(tag), shown(joined(base))
    part = numbers.choice(PARTS)
    given = numbers.choice([near, *(parts(near).values() if kind(near) == "normal" else [])])
    if given and given.isascii() and b" " not in given:
        yield "edit", shown(tag), part, shown(given), edited(tag, part, given)
    yield "edit", shown(tag), part, "none" if part in ("script", "region", "private_use") else "''", edited(tag, part, b"")
    key = numbers.choice([b"ca", b"nu", b"1a", b"ZZ", b"co", b"a", b"11"])
    value = numbers.choice([b"", b"buddhist", b"islamic-civil", b"ab", b"abc-", b"a_bc", b"-"])
    yield "with-keyword", shown(tag), shown(key), shown(value), with_keyword(tag, key, value)


def rows_of(numbers: random.Random) -> Rows:
    """Yields some rows about one text."""
    text = random_text(numbers)
    near = neighbour(numbers, text)
    tags = [it for it in (*numbers.choices([b"zh", b"DE", b"fr-ch", b"x-a", b"en-be"], k=2), text, near) if kind(it) != "none"]
    yield from rows_of_text(text, near)
    yield from rows_of_range(random_range(numbers), text)
    yield from rows_of_range(near, text)
    yield from rows_of_header(random_header(numbers), tags)
    yield from rows_of_no_tag(text, near) if kind(text) == "none" else rows_of_tag(numbers, text, near)


# ---- random texts

PIECES = (b"en zh yue sgn BE FR NL i klingon Hant 419 1996 rozaj u co x X t a abcdefgh GB oed 1 12 1abc min abcdefghi nan  default "
          b"iw BU heploc guoyu").split(b" ")


def some(numbers: random.Random, most: int) -> int:
    """Returns a number that is mostly small."""
    return numbers.randrange(most) * numbers.randrange(most)


def in_a_row(numbers: random.Random, most: int) -> bytes:
    return b"-".join(numbers.choices(PIECES, k=numbers.randrange(1, most)))[:300]


def normal_tag(numbers: random.Random) -> bytes:
    tag = [numbers.choice([b"de", b"zh", b"sgn", b"abcd", b"klingons", b"iw"])]
    for often, subtags in ((0.2, b"yue min nan abc"), (0.3, b"Latn Hant Cyrl"), (0.5, b"DE TW 419 005 BU BR DD")):
        tag += [numbers.choice(subtags.split())] if numbers.random() < often else []
    tag += numbers.choices(b"1996 rozaj 1abc nedis abcdefgh 12345 heploc".split(), k=some(numbers, 4))
    for _ in range(some(numbers, 3)):
        tag += [numbers.choice([b"u", b"t", b"a", b"1", b"0"])]
        tag += numbers.choices(b"co ca nu phonebk 12 abcdefgh en Latn 419".split(), k=numbers.randrange(1, 6))
    return b"-".join(tag + numbers.choice([[], [], [], [b"x-a"], [b"X-1-x"], [b"x-abcdefgh-de"]]))[:300]


def with_byte(numbers: random.Random, text: bytes, often: float, bytes_: bytes) -> bytes:
    """Returns the text, sometimes with another byte at some place."""
    at = numbers.randrange(len(text)) if text else 0
    return text[:at] + bytes([numbers.choice(bytes_)]) + text[at + 1 :] if text and numbers.random() < often else text


def random_text(numbers: random.Random) -> bytes:
    way = numbers.randrange(13)
    if way < 2:
        text = bytes(numbers.choice(range(256) if way else b"abixeAXZ159---") for _ in range(numbers.randrange(20)))
    elif way < 8:
        text = with_byte(numbers, in_a_row(numbers, 60 if way == 2 else 8), 0.2, b"-x1aZ_\xc3\x00 ")
    elif way < 9:
        text = numbers.choice(GRANDFATHERED) + numbers.choice([b"", b"", b"", b"-x-a", b"-a", b"-1996", b"-"])
        text = with_byte(numbers, text, 0.2, b"-x1aZ")
    else:
        text = with_byte(numbers, normal_tag(numbers), 0.1, b"-x1aZ")
    return numbers.choice([text, text, text.swapcase(), text.upper(), text.lower()])


def neighbour(numbers: random.Random, text: bytes) -> bytes:
    """Returns another text, or the text with another case, byte or length."""
    near = text[: numbers.randrange(len(text) + 1)] if numbers.random() < 0.3 else text.swapcase()
    return numbers.choice([random_text(numbers), near, near, with_byte(numbers, near, 1, bytes(range(256)))])


def random_range(numbers: random.Random) -> bytes:
    if numbers.random() < 0.3:
        return bytes(numbers.choice(b"abx1*-*-") for _ in range(numbers.randrange(1, 12)))
    return b"-".join(numbers.choice([b"*", it, it, it]) for it in in_a_row(numbers, 5).split(b"-"))


def random_header(numbers: random.Random) -> bytes:
    ranges = [b"fr-CH", b"de", b"x-a-b", b"zh", b"en-BE-1996", b"*", b"de-de", b"de_CH", b"*-CH", b""]
    weights = [b"", b"", b";q=0.5", b" ;\tQ=1.000", b";q=0.07", b";q=0", b";q=0.5 ", b";q=1.001", b";q=", b";", b";q=0.1234"]
    most = numbers.choice([7, 7, None])  # the others are malformed
    header = b""
    for _ in range(numbers.randrange(6)):
        header += numbers.choice(ranges[:most]) + numbers.choice(weights[:most]) + numbers.choice([b",", b", ", b",\t,"])
    return with_byte(numbers, header, 0.2, b",; q1-\x01")


def main(count: str, seed: str) -> None:
    numbers = random.Random(seed)
    for _ in range(int(count)):
        for row in rows_of(numbers):
            print(" | ".join(row))


if __name__ == "__main__":
    main(*sys.argv[2:])
