#!/usr/bin/env python3
"""Prints lines with which oracle.py and a program can be compared.

usage: questions.py random COUNT SEED             prints that many random rows as in vectors/
       questions.py each                           prints rows for everything in the data: each side of a row, and each rule
       questions.py aliases                        prints tags with each deprecated language and each deprecated region
"""
import functools
import random
import sys

from oracle import ALIASES, GROUPS, LANGUAGE_RULES, LIKELY, REGION_ALIASES, RIGHT_TO_LEFT, SCRIPT_RULES, Tag, add_likely, element, lower, registry, rows

import answers  # oracle.py adds its folder
from answers import escaped


# ---- tags


@functools.lru_cache(None)
def names_of_fields():
    languages = sorted({row[0] or "und" for row in LIKELY} | set(ALIASES) | {"iw", "sh", "qqq", "qaaaa", "x-a", "zh-yue", "zh-min-nan", "sgn-ase", "ar-arb", "zh-rTW", "es-rUS", "de-fra"})
    scripts = sorted({row[1] for row in LIKELY} | {row[1] for row in LIKELY.values()} | {"Zzzz", "Qaaa"})
    regions = sorted({row[2] for row in LIKELY} | {row[2] for row in LIKELY.values()} | set(REGION_ALIASES) | {"ZZ", "QQ", "999"})
    return languages, scripts, regions


def random_tag(rng):
    languages, scripts, regions = names_of_fields()
    text = rng.choice(languages)
    if rng.random() < 0.5 and rng.choice(scripts):
        text += "-" + (rng.choice(scripts) or "Latn")
    if rng.random() < 0.6:
        text += "-" + (rng.choice(regions) or "US")
    if rng.random() < 0.2:
        text += rng.choice(["-1996", "-x-a", "-u-co-phonebk", "-valencia-x-y", "-a-bb"])
    if rng.random() < 0.2:
        text = "".join(rng.choice((letter.upper(), letter.lower())) for letter in text)
    return text


NEAR = [language for pair, _, _ in LANGUAGE_RULES for language in pair] + ["ar", "en", "es", "pt", "zh", "ja", "sr", "ko"] * 40 + list(ALIASES)
NEAR_REGIONS = (sorted(GROUPS) + sorted(REGION_ALIASES)[-30:] + ["004", "062", "172", "840", "999"] + ["GB", "US", "HK", "MO", "TW", "MA", "BR", "PT", "MX", "ES", "419", "ZZ", "qq"] * 6
                + sorted(GROUPS["001"]))


# The tags that the registry replaces as a whole, and the replacements.
WHOLE = [text for kind in ("grandfathered", "redundant") for name in registry().names[kind] if registry().whole(name) for text in (name, registry().whole(name))]


def near_tag(rng):
    """Returns a tag, often a tag that a rule names."""
    if rng.random() < 0.05:
        return rng.choice(WHOLE) + rng.choice(["", "", "", "-x-a", "-u-co-pinyin", "-t-en-x-b"])
    if rng.random() < 0.3:
        return random_tag(rng)
    text = rng.choice(NEAR)
    if rng.random() < 0.3:
        text += "-" + rng.choice(["Latn", "Cyrl", "Arab", "Hant", "Hans", "Hani", "Kana", "Jpan", "Deva", "zzzz", "Qaaa"])
    if rng.random() < 0.7:
        text += "-" + rng.choice(NEAR_REGIONS)
    return text


def random_pair(rng):
    """Returns two tags, often of languages, scripts and regions that rules name."""
    which = rng.random()
    if which < 0.2:
        pair = rng.choice(rng.choice((LANGUAGE_RULES, SCRIPT_RULES)))[0]
        return " ".join(pair if rng.random() < 0.6 else pair[::-1])
    first = near_tag(rng)
    if which < 0.6:
        language = first.split("-")[0]
        second = "-".join([language] + near_tag(rng).split("-")[1:])
        return first + " " + (second if Tag(second) else near_tag(rng))
    return first + " " + near_tag(rng)


# ---- rows


ODD_WISHES = ["*", "x-a", "i-klingon", "und", "en-a-bbb", "zh-Hant-CN-x-private1", "en-x-a-b", "de-1996", "a", "*-CH", "german", ""]
WEIGHTS = ["", "", ";q=0.%d", "; q=0.%d", ";q=0.%03d", ";q=0", ";q=0", ";q=0.0", ";q=1"]
ODD_WEIGHTS = [";q=", ";q=x", ";q=1.5", ";Q=.%d", ";level=1;q=0.%d", ";q=0.5;q=0.%d", " ;\tq =\t0.%d ", ";", ";q", "; a=b ; c", ";qq=0", ";q=0.0006",
               ";q=0.9996"]


def random_element(rng):
    """Returns an element of a header, which is sometimes malformed."""
    wish = near_tag(rng) if rng.random() < 0.9 else rng.choice(ODD_WISHES)
    if rng.random() < 0.1:
        wish = wish.replace("-", "_") + rng.choice(["", ".UTF-8", "@euro", "@", ".", " .b"])
    weight = rng.choice(WEIGHTS if rng.random() < 0.9 else ODD_WEIGHTS)
    return wish + (weight % rng.randrange(10) if "%" in weight else weight)


def tags_for(wish, rng):
    """Returns tags that a range may find: the same tag, a tag with which the range begins, or tags of its language."""
    language = wish.split("-")[0]
    if rng.random() < 0.5:
        return [rng.choice([wish, wish.swapcase(), wish.rpartition("-")[0] or wish, language, language + "-1996", language + "-x-a"])]
    return [language + rng.choice(["", "", "-Latn", "-Arab", "-Hant"]) + "-" + rng.choice(NEAR_REGIONS) for _ in range(rng.randrange(1, 6))]


def random_choice(rng):
    elements = [random_element(rng) for _ in range(rng.choice([0, 1, 1, 2, 2, 3, 3, 4, 5, 8, 13]))]
    tags = [near_tag(rng) for _ in range(rng.choice([0, 1, 1, 2, 3, 4, 6, 9]))]
    for wish in (found[0] for found in map(element, elements) if found and found[0] != "*"):
        if rng.random() < 0.3:
            place = rng.randrange(len(tags) + 1)
            tags[place:place] = tags_for(wish, rng)
    if rng.random() < 0.1:
        tags.append(rng.choice(["x-a", "i-klingon", "en-GB-oed", "und", "de_CH", "a", "en-", "en"]))
    header = rng.choice([",", ",", ", ", " ,,"]).join(elements)
    call = "best" if rng.random() < 0.7 else "suitable"
    return f"{call} | {escaped_header(header)} | {' '.join(tags) or escaped('')}"


def escaped_header(text):
    """Returns a header with escapes. Spaces are not escaped, since a row is split only at its bars."""
    return " ".join(escaped(word) if word else "" for word in text.split(" ")) or escaped("")


ODD_PLACES = ["C", "POSIX", "posix", "", "i-klingon", "x-a", "en-GB-oed", "de-1996", "ca-valencia-1996-x-a", "zh-yue-HK",
              "en_US_POSIX", "de-1996-posix-x-a", "sr-posix-1996", "en-Posix-u-nu-latn", "zh-yue_HK_POSIX", "de-DE-POSIX-x-posix", "x-posix",
              "deu" + "-a1234567" * 28, "abcd" + "-a1234567" * 28]
MODIFIERS = ["latin", "cyrillic", "devanagari", "valencia", "polyton", "euro", "Latin", "VALENCIA", "latin@euro", "latin.UTF-8", "", "phonebook", "lati", "latinx"]


PLATFORM_NAMES = ["zh-CHS", "zh-CHT", "sr-SP-Latn", "sr-SP-Cyrl", "sr-SP-Arab", "bs-SP-Latn", "sr-SP", "en-CHS", "sgn-rSL", "sgn-rsl", "b+zh+CHT", "b+zh+rTW",
                  "b+", "b", "b+x+a", "b+sr-Latn", "b+sr_Latn", "bb+sr", "sr+Latn", "x-rTW", "x-DE-Latn", "i-rTW", "values-zh-rTW", "zh-r", "zh-rT", "zh-rTWN",
                  "zh-r4", "es-r4199", "zh-rTW-x-a", "zh-yue-rHK", "de-DE-Abcd", "de-DE-Latn-x-a", "b+POSIX", "b+en+US+POSIX", "b+de+1996",
                  "no-NO-NY", "no-NO-NY-x-a", "en-rGB-land", "de-rDE-ldrtl", "b+en+GB-ldrtl", "night", "de-night", "abcde-rTW", "ja-JP-JP", "th-TH-TH", "de-DE-phoneb", "es-ES-tradnl", "zh-TW-pronun", "zh-MO-radstr", "zh-TW-stroke",
                  "art-lojban", "nl-NL-formal"]


def platform_name(rng):
    """Returns a name as Android or .NET writes it, or nearly so."""
    languages, scripts, regions = names_of_fields()
    language, script, region = rng.choice(languages), rng.choice(scripts) or "Latn", rng.choice(NEAR_REGIONS)
    text = rng.choice([f"{language}-r{region}", f"{language}-r{region}", f"{language}-{region}-{script}", f"{language}-{region}-{script}",
                       "b+" + random_tag(rng).replace("-", "+"), "b+" + near_tag(rng).replace("-", "+"), rng.choice(PLATFORM_NAMES)])
    return text if rng.random() < 0.8 else text.swapcase()


def random_name(rng):
    text = near_tag(rng) if rng.random() < 0.6 else platform_name(rng) if rng.random() < 0.8 else rng.choice(ODD_PLACES)
    text = text.replace("-", "_") if rng.random() < 0.8 else text
    text += rng.choice(["", "", "_#Hant", "__#Latn", ".UTF-8", ".utf8", ".ISO-8859-15", ".", ".a.b", ".a_b", ". 5", ".a:b", ".#"])
    if rng.random() < 0.5:
        text += "@" + rng.choice(MODIFIERS)
    return text if rng.random() < 0.95 else mutated(text, rng)


def mutated(text, rng):
    place = rng.randrange(len(text) + 1)
    return text[:place] + rng.choice(["-", "_", "+", "1", "\x80", "@", "a", "r"]) + text[place + rng.choice([0, 1]):]


def random_row(rng):
    how = rng.randrange(7)
    if how < 3:
        text = random_tag(rng) if rng.random() < 0.5 else near_tag(rng)
        return ("maximized", "minimized", "right-to-left")[how] + " | " + escaped(text if rng.random() < 0.95 else mutated(text, rng))
    if how == 3:
        return "distance | " + random_pair(rng).replace(" ", " | ")
    if how == 6:
        return "posix-name | " + near_tag(rng) + rng.choice(["", "", "-valencia", "-tarask", "-polyton", "-IJEKAVSK", "-1996"]) + rng.choice(["", "", "-u-va-posix", "-x-a", "-u-co-eor"])
    return random_choice(rng) if how == 4 else "posix | " + escaped(random_name(rng))


def each():
    """Yields rows for everything in the data."""
    triples = sorted(set(LIKELY) | {lower(row) for row in LIKELY.values()} | {lower(add_likely(key)) for key in LIKELY})
    tags = ["-".join(filter(None, (fields[0] or "und", *fields[1:]))) for fields in triples]
    beside_und = sorted({row[1] for row in LIKELY.values()} | RIGHT_TO_LEFT) + sorted(REGION_ALIASES)
    for tag in tags + sorted(ALIASES) + ["und-" + subtag for subtag in beside_und]:
        yield f"maximized | {tag}\nminimized | {tag}\nright-to-left | {tag}\nparents | {tag}\nposix-name | {tag}"
    for tag in ("sr", "be", "ca", "tt", "zh", "uz", "ks", "sd"):
        for script in ("", "-Latn", "-Cyrl", "-Deva", "-Arab", "-Hant", "-Hans"):
            for region in ("", "-RS", "-TW", "-PK", "-AF", "-ZZ"):
                yield from (f"posix-name | {tag}{script}{region}{more}" for more in ("", "-valencia", "-ijekavsk", "-tarask", "-u-va-POSIX"))
    for name, to in ALIASES.items():
        yield f"distance | {name} | {'-'.join(filter(None, to))}\ndistance | en-{to[0]} | en-{name}\nbest | {name} | {to[0]} en {name}"
        region = (add_likely((to[0], "", "")) or ("", "", "US"))[2]
        yield f"best | {to[0]} | {to[0]}-{region} {name}\nbest | {name} | {name}-{region} {to[0]}\nbest | {to[0]} | {name} {to[0]}"
        yield f"suggestion | {name}\nsuggestion | {name.upper()}-{name}"
    for region in [row[0] for row in rows("region-alias.txt")]:
        yield f"suggestion | en-{region}\nsuggestion | de-Latn-{region}-1996"
    for pair, _, _ in LANGUAGE_RULES + SCRIPT_RULES:
        yield f"distance | {pair[0]} | {pair[1]}\ndistance | {pair[1]} | {pair[0]}"
    regions = sorted(set(GROUPS) | set().union(*GROUPS.values()) | set(REGION_ALIASES))
    for language in ("ar", "en", "es", "pt", "zh-Hant", "de"):
        for region in regions:
            for other in ("GB", "US", "419", "MA", "HK", "150"):
                yield f"distance | {language}-{region} | {language}-{other}\ndistance | {language}-{other} | {language}-{region}"


def aliases():
    """Yields tags of each deprecated language and region."""
    for name in sorted(ALIASES):
        print(f"{name}\n{name}-Latn\n{name}-TW")
    for region in sorted(REGION_ALIASES):
        print(f"und-{region.upper()}\nzh-{region.upper()}\naz-{region.upper()}\nund-Armn-{region.upper()}")


if __name__ == "__main__":
    sys.exit(aliases() if sys.argv[1:] == ["aliases"] else answers.main(sys.argv[1:], __doc__, each=each, random_row=random_row))
