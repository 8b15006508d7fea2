#!/usr/bin/env python3
"""A plain implementation of UTS #35, part 1, sections 'Likely Subtags' and 'Language Matching', over cldr/*.txt, of the choice for
a request, of the names of POSIX locales, and of the parents of a tag.

usage: oracle.py rows < ROWS                       prints each row with its answer, in the form of those in vectors/: of maximized,
                                                   minimized, right-to-left, distance, best, best-match, suitable, posix,
                                                   posix-name, suggestion, parents
       oracle.py rows --compare ANSWERS < ROWS     counts the rows whose answer differs from that of a program

questions.py has lines to ask.
"""
import decimal
import functools
import itertools
import pathlib
import re
import sys

sys.path.append(str(pathlib.Path(__file__).resolve().parent.parent))
import answers  # noqa: E402

DATA = pathlib.Path(__file__).resolve().parent / "cldr"
GRAMMAR, registry = answers.registry_oracle().GRAMMAR, answers.registry_oracle().registry
# a range of a header need not be a tag, so FRONT only matches its beginning
RANGE = re.compile(r"\*|[a-z]{1,8}(-[a-z0-9]{1,8})*", re.I | re.A)
FRONT = re.compile(r"(?P<language>[a-z]{2,8}(-[a-z]{3})*)(?=-|$)(-(?P<script>[a-z]{4})(?=-|$))?(-(?P<region>[a-z]{2}|[0-9]{3})(?=-|$))?(-.*)?",
                   re.I | re.A)
NUMBER = re.compile(r"[0-9]+(\.[0-9]*)?|\.[0-9]+", re.A)


def rows(name):
    for line in (DATA / name).read_text(encoding="utf-8").splitlines():
        if not line.startswith("#"):
            yield ["" if word == "-" else word for word in line.split()]


def lower(texts):
    return tuple(text.lower() for text in texts)


LIKELY = {lower(row[:3]): row[3:] for row in rows("likely.txt")}
ALIASES = {row[0]: row[1:] for row in rows("language-alias.txt")}
REGION_ALIASES = {row[0].lower(): row[1] for row in rows("region-alias.txt")}
REPLACEMENTS = {row[0].lower(): row[1] for row in rows("region-alias.txt") if row[2:] == []}
GROUPS = {row[0]: set(row[1:]) for row in rows("region-groups.txt")}
# the regions of each group, countries and smaller groups
REGIONS = {group: its | {other for other in GROUPS if other != group and GROUPS[other] <= its} for group, its in GROUPS.items()}
SETS = {row[0]: set(row[1:]) for row in rows("region-sets.txt")}
LANGUAGE_RULES = [((d, s), int(far), one_way == "1") for d, s, far, one_way in rows("language-distance.txt")]
SCRIPT_RULES = [((d + "-" + a, s + "-" + b), int(far), one_way == "1") for d, a, s, b, far, one_way in rows("script-distance.txt")]
REGION_RULES = list(rows("region-distance.txt"))
# the scripts of both sides, in lowercase
SCRIPT_CODES = {row[1].lower() for both in LIKELY.items() for row in both if row[1]} | {text.split("-")[1].lower() for pair, _, _ in SCRIPT_RULES for text in pair}
# and the variants of two of them that have codes of their own (ISO 15924)
RIGHT_TO_LEFT = {row[0] for row in rows("right-to-left.txt")} | {"Aran", "Syre", "Syrj", "Syrn"}


class Tag:
    """The parts of a normal tag."""

    def __new__(cls, text):
        return super().__new__(cls) if GRAMMAR.fullmatch(text) else None

    def __init__(self, text):
        found = GRAMMAR.fullmatch(text)
        self.language, self.script, self.region, self.variants = found["language"], found["script"], found["region"], found["variants"]
        self.rest = found["extensions"] + found["private"]
        self.fields = fields_of(found)
        # nobody knows what subtags are likely after an extended language that is not registered
        self.is_read = is_registered(self.language)

    def with_fields(self, fields):
        language = (fields[0] or self.language) if self.language.lower() == "und" else self.language
        return "-".join(filter(None, (language, fields[1], fields[2]))) + self.variants + self.rest


def fields_of(found):
    """Returns language, script and region. The last extended language counts as the language, and a subtag that means "unknown" is
    empty."""
    empty = lambda text, unknown: "" if text is None or text.lower() == unknown else text
    return empty(found["language"], "und").split("-")[-1], empty(found["script"], "zzzz"), empty(found["region"], "zz")


def is_tag(text):
    return registry().validity(text) != "none"


def add_likely(fields):
    language, script, region = fields
    for key in ((language, script, region), (language, script, ""), (language, "", region), (language, "", "")):
        row = LIKELY.get(lower(key))
        if row:
            return tuple(mine if mine else theirs for mine, theirs in zip(fields, row))
    return None


def canonical(fields):
    """Returns the fields with a deprecated language and a deprecated region replaced. A script or a region that comes with the new
    language is added if there is none. ZZ, which replaces 999, means that the region is unknown."""
    language, script, region = fields
    if language.lower() in ALIASES:
        language, more_script, more_region = ALIASES[language.lower()]
        script, region = script or more_script, region or more_region
    region = REGION_ALIASES.get(region.lower(), region)
    return language, script, "" if region == "ZZ" else region


def add_likely_subtags(fields):
    """Returns the fields with likely subtags, which are those of the canonical fields. Deprecated subtags stay."""
    most = add_likely(canonical(fields))
    return most and tuple(mine or theirs for mine, theirs in zip(fields, most))


def remove_likely(fields):
    most = add_likely_subtags(fields)
    if most is None:
        return None
    language, script, region = most
    region = "" if region.lower() == "zz" else region
    for few in ((language, "", ""), (language, "", region), (language, script, "")):
        form = add_likely_subtags(few)
        if form and lower(form) == lower(most):
            return few
    return most


def form(text, find):
    tag = Tag(text)
    fields = find(tag.fields) if tag and tag.is_read else None
    return tag.with_fields(fields) if fields else text


def forms(text):
    return form(text, add_likely_subtags) + "\t" + form(text, remove_likely)


@functools.lru_cache(None)
def matching_form(text):
    """Returns the matching form of a tag, or of a range that begins like a tag, or None. A tag that the registry replaces as a whole
    has the form of its replacement, also with extensions and private use."""
    front = FRONT.fullmatch(registry().whole(re.split("-.(?=-|$)", text)[0]) or text)
    return form_of(front_fields(front)) if front and text.lower() != "und" else None


def front_fields(front):
    """Returns the fields of a tag. It is read without an extended language that is not registered for the language before it. `r`
    with a region at this place is the region, as Android writes it, unless another region follows."""
    language, hyphen, _ = front["language"].partition("-")
    if hyphen and is_registered(front["language"]):
        return fields_of(front)
    marked = re.match("-r([a-z]{2}|[0-9]{3})(?=-|$)", front[0][len(language):], re.I | re.A)
    return fields_of(dict(front.groupdict(), language=language, region=front["region"] or marked and marked[1]))


def is_registered(language):
    """Returns whether no extended language follows a language, or one for which this language is the Prefix (RFC 5646 section 2.2.2)."""
    primary, *extended = language.lower().split("-")
    return not extended or registry().prefixes.get(("extlang", extended[-1])) == [primary]


def form_of(fields):
    # a region in digits stays
    language, script, region = canonical(fields)
    region = region if len(fields[2]) != 3 else fields[2]
    most = add_likely((language, script, region)) or (language,) + add_likely(("", script, region))[1:]
    return most[0].lower(), most[1].title(), most[2].upper()


def by_rule(rules, desired, supported, otherwise):
    for pair, far, one_way in rules:
        if pair == (desired, supported) or not one_way and pair == (supported, desired):
            return far
    return otherwise


def is_in(region, pattern):
    if not pattern.startswith("$"):
        return pattern in ("*", region)
    countries = GROUPS.get(region, {region}) if region != "001" else set("-")  # the world is outside each set
    if pattern.startswith("$!"):
        return not countries & SETS["$" + pattern[2:]]
    return countries <= SETS[pattern]


def region_distance(desired, supported):
    for language, script, a, b, far in REGION_RULES:
        if language != "*" and not language == desired[0] == supported[0] or script not in ("", "*") and not script == desired[1] == supported[1]:
            continue
        if is_in(desired[2], a) and is_in(supported[2], b) or is_in(desired[2], b) and is_in(supported[2], a):
            return int(far)
    raise AssertionError("the last rule fits all")


def distance(desired, supported):
    if not (is_tag(desired) and is_tag(supported)):
        return "-"
    return str(between(desired, supported))


@functools.lru_cache(None)
def between(desired, supported):
    d, s = matching_form(desired), matching_form(supported)
    if d is None or s is None:
        return 0 if desired.lower() == supported.lower() else 255
    total = 0
    if d[0] != s[0]:
        total += by_rule(LANGUAGE_RULES, d[0], s[0], 80)
    if d[1] != s[1]:
        total += by_rule(SCRIPT_RULES, d[0] + "-" + d[1], s[0] + "-" + s[1], 50)
    if d[2] != s[2]:
        total += region_distance(d, s)
    return total


def is_right_to_left(text):
    form = matching_form(text)
    return "-" if not is_tag(text) else "yes" if form and form[1] in RIGHT_TO_LEFT else "no"


# ---- the choice for a request


def place_of(name):
    """Returns the language and the territory of a locale name, without codeset and modifier, and without a script after "_#"."""
    place, hash, _ = re.split("[.@]", name)[0].partition("#")
    return re.sub("_{1,2}$", "", place) if hash else place


def element(text, behind=""):
    """Returns the range of an element of a header and its weight in thousandths, read leniently, or None. Digits after the next
    comma are the fraction of a weight without a point: fr;q=0,8."""
    name, *parameters = text.split(";")
    wish = place_of(name.strip(" \t")).replace("_", "-")
    pairs = [parameter.partition("=") for parameter in parameters]
    values = [value.strip(" \t") for name, equals, value in pairs if equals and name.strip(" \t") in ("q", "Q")]
    value = "".join(values[:1]) + ("." + behind if values and "." not in values[0] and re.fullmatch("[0-9]+", behind, re.A) else "")
    weight = decimal.Decimal(value) if NUMBER.fullmatch(value) else 1
    return (wish, int(min(weight, 1) * 1000)) if RANGE.fullmatch(wish) else None


def begins(wish, tag):
    """Returns whether a range other than "*" matches a tag by basic filtering."""
    return wish != "*" and (tag.lower() + "-").startswith(wish.lower() + "-")


def is_refused(tag, elements):
    longest = lambda weights: max((len(wish) for wish, weight in elements if weight in weights and begins(wish, tag)), default=0)
    return longest(range(1, 1001)) < longest([0])


def look_up(wish, tags):
    """Returns the index of the tag that RFC 4647's look-up finds (section 3.4), which is the first of equal tags."""
    rest = wish.lower().split("-")
    while rest:
        for place, tag in enumerate(tags):
            if tag.lower() == "-".join(rest):
                return place
        rest.pop()
        while rest and len(rest[-1]) == 1:
            rest.pop()
    return None


def unlikely(tag):
    """Returns the order of tags at the same distance: first a tag with the likely region of its language and script, then a
    paradigm locale, then any other."""
    form = matching_form(tag)
    if form is None:
        return 2
    most = add_likely((form[0], form[1], ""))
    return 0 if most and lower(most) == lower(form) else 1 if form in PARADIGMS else 2


def variants(text):
    """Returns the subtags of a tag or of a range, between the first and the next singleton, that have the form of a variant."""
    first, *others = text.lower().split("-")
    until = itertools.takewhile(lambda subtag: len(subtag) > 1, others if len(first) > 1 else [])
    return [subtag for subtag in until if re.fullmatch("[a-z0-9]{5,8}|[0-9][a-z0-9]{3}", subtag, re.A)]


def as_read(text):
    """Returns a tag or a range with its language replaced, if CLDR replaces it by a language alone: `eng-US` becomes `en-US`, and `sh`
    stays."""
    language, hyphen, others = text.partition("-")
    replacement, *more = ALIASES.get(language.lower(), [language])
    return (language if any(more) else replacement) + hyphen + others


def is_transformed(text):
    """Returns whether a tag or a range has the extension t, which begins before private use."""
    return "t" in itertools.takewhile(lambda subtag: subtag != "x", text.lower().split("-"))


def region_width(wish, tag):
    """Returns the number of regions of the tag's group if the range's region is in it, 999 for the world, and else 1000."""
    region, code = (form[2] if form else "" for form in map(matching_form, (wish, tag)))
    return 999 if code == "001" else len(REGIONS[code]) if region in REGIONS.get(code, ()) else 1000


def nearest(wish, near, tags):
    """Returns the best of several indices of tags at the same distance: of those that lack the fewest variants of the range, and that
    have the extension t only if the range has it, the tag that look-up finds if all are read as above, or else the tag of the smallest
    group that has the range's region, or else the most likely tag. Of tags that are read alike, it is the tag that look-up finds as it
    is written."""
    lacking = [sum(variant not in variants(tags[index]) for variant in variants(wish)) for index in near]
    near = [index for index, lack in zip(near, lacking) if lack == min(lacking)]
    near = [index for index in near if is_transformed(wish) or not is_transformed(tags[index])] or near
    read = [as_read(tags[index]).lower() for index in near]
    found = look_up(as_read(wish), read)
    if found is None:
        return min(near, key=lambda index: (region_width(wish, tags[index]), unlikely(tags[index])))
    near = [index for index, text in zip(near, read) if text == read[found]]
    return near[look_up(wish, [tags[index] for index in near]) or 0]


def best_match(header, tags):
    """Returns the index of the best tag, and the index of the range for which it is chosen; or None."""
    items = header.split(",")
    elements = [found for found in map(element, items, items[1:] + [""]) if found]
    order = sorted(range(len(elements)), key=lambda place: -elements[place][1])
    places = [place for place in order if elements[place][1] > 0 and elements[place][0] != "*"]
    have = [index for index, tag in enumerate(tags) if is_tag(tag) and not is_refused(tag, elements)]
    for limit in (16, 50):
        for place in places:
            wish = elements[place][0]
            far = [between(wish, tags[index]) for index in have]
            if min(far, default=limit) < limit:
                return nearest(wish, [index for index, distance in zip(have, far) if distance == min(far)], tags), place
    found = ((look_up(elements[place][0], [tags[index] for index in have]), place) for place in places)
    return next(((have[index], place) for index, place in found if index is not None), None)


def best(header, tags):
    """Returns the index of the best tag, or None."""
    found = best_match(header, tags)
    return found and found[0]


def told_match(header, tags):
    """Returns the index of the best tag, its distance from the range, and the range as it is written in the header."""
    found = best_match(header, tags)
    if found is None:
        return "-"
    index, place = found
    written = [place_of(item.split(";")[0].strip(" \t")) for item in header.split(",") if element(item)]
    return f"{index} {between(written[place].replace('_', '-'), tags[index])} {written[place]}"


PARADIGMS = {tuple(most) for row in rows("paradigms.txt") for most in [add_likely(Tag(row[0]).fields)]}


# ---- the names of POSIX locales


MODIFIER_SCRIPTS = {"latin": "Latn", "iqtelif": "Latn", "ijekavianlatin": "Latn", "cyrillic": "Cyrl", "devanagari": "Deva"}
MODIFIER_VARIANTS = {"ijekavian": "ijekavsk", "ijekavianlatin": "ijekavsk", "polyton": "polyton", "tarask": "tarask", "valencia": "valencia"}
SAYS_NOTHING = "euro preeuro abegede phonebook pinyin radical stroke cjknarrow quot boldquot".split()


def modifier_says(modifier):
    """Returns the script and the variant that a modifier names."""
    script = MODIFIER_SCRIPTS.get(modifier.lower()) or (modifier if modifier.lower() in SCRIPT_CODES else None)
    return script, MODIFIER_VARIANTS.get(modifier.lower())


# The names whose last field is no subtag: those of Java, and those of Windows for other sort orders (Windows Language Code Identifiers,
# "alternate sorts"), with the type of CLDR that has this order.
LAST_FIELDS = {"no-no-ny": "nn-NO", "ja-jp-jp": "ja-JP-u-ca-japanese", "th-th-th": "th-TH-u-nu-thai"}
SORT_ORDERS = {"phoneb": "phonebk", "tradnl": "trad", "pronun": "zhuyin", "stroke": "stroke", "radstr": "unihan"}
for sorted_name in "de-DE-phoneb es-ES-tradnl ja-JP-radstr zh-CN-stroke zh-SG-stroke zh-MO-stroke zh-HK-radstr zh-MO-radstr zh-TW-radstr zh-TW-pronun".split():
    LAST_FIELDS[sorted_name.lower()] = f"{sorted_name[:5]}-u-co-{SORT_ORDERS[sorted_name[6:]]}"

CHINESE_NAMES = {"zh-chs": "Hans", "zh-cht": "Hant"}


def read_place(place):
    """Returns the language and the territory of a name with hyphens, read as Android and .NET write them, too."""
    if place[:2].lower() == "b+" and not place.partition("-")[2]:
        return place[2:].replace("+", "-")
    place = place.replace("_", "-")
    if place.lower() in LAST_FIELDS:
        return LAST_FIELDS[place.lower()]
    if place.lower() in CHINESE_NAMES:
        return place[:3] + CHINESE_NAMES[place.lower()]
    if android := re.fullmatch("(?!sgn)([a-z]{2,3})-r([a-z]{2}|[0-9]{3})", place, re.I | re.A):
        return "-".join(android.groups())
    dot_net = re.fullmatch("([a-z]{2,3})-([a-z]{2}|[0-9]{3})-([a-z]{4})", place, re.I | re.A)
    if dot_net and dot_net[3].lower() in SCRIPT_CODES:
        language, region, script = dot_net.groups()
        return "-".join((language, script, "RS" if (language + region).lower() == "srsp" else region))
    language, _, behind = place.partition("-")
    behind = re.sub("^([a-z]{4}-)?-(?=([a-z0-9]{5,8}|[0-9][a-z0-9]{3})(-|$))", r"\1", behind, flags=re.I | re.A)
    return (language or behind and "und") + ("-" + behind if behind or place.endswith("-") else "")


# The names of keys and types in the keywords of ICU's and Apple's names, from the attribute `alias` of CLDR's common/bcp47. Types
# that fit in a tag as they are stand there as they are.
KEYWORD_KEYS = dict(row.split("=") for row in """calendar=ca collation=co currency=cu hours=hc colAlternate=ka colBackwards=kb colCaseLevel=kc
    colCaseFirst=kf colHiraganaQuaternary=kh colNormalization=kk colNumeric=kn colReorder=kr colStrength=ks measure=ms numbers=nu timezone=tz
    variableTop=vt""".lower().split())
KEYWORD_TYPES = dict(row.split("=") for row in """ca-gregorian=gregory co-dictionary=dict co-gb2312han=gb2312 co-phonebook=phonebk
    co-traditional=trad ka-non-ignorable=noignore kb-no=false kc-no=false kf-no=false kh-no=false kk-no=false kn-no=false
    ks-secondary=level2 ks-quaternary=level4 ks-quarternary=level4 ks-identical=identic nu-traditional=traditio""".split())


def keywords(modifier):
    """Returns the extension u of the keywords of a modifier, `key=type` with semicolons between them, or "" if one of them cannot be read."""
    said = "u"
    for keyword in modifier.split(";"):
        key, _, value = keyword.partition("=")
        key = KEYWORD_KEYS.get(key.lower(), key)
        value = KEYWORD_TYPES.get(f"{key}-{value}".lower(), value)
        if not re.fullmatch("[a-z0-9][a-z]", key, re.I | re.A) or not all(re.fullmatch("[a-z0-9]{3,8}", part, re.I | re.A) for part in value.split("-")):
            return ""
        said += f"-{key}-{value}"
    return said


# The places that Java writes for the extension behind them.
JAVA_PLACES = {("ja-jp-u-ca-japanese", "u-ca-japanese"), ("th-th-u-nu-thai", "u-nu-thai")}


def named_parts(name):
    """Returns the language and the territory of a name, and the extensions that follow, each of them "" or after a singleton."""
    front, _, modifier = re.fullmatch("([^.@]*)([^@]*)@?(.*)", name, re.S).groups()
    written, behind = place_of(name), front.partition("#")[2]
    first, _, others = behind.partition("_")
    extensions = others if re.fullmatch("[A-Za-z]{4}", first) else behind
    place = read_place("und" if written == "" and behind else written)
    if (place.lower(), extensions.lower()) in JAVA_PLACES:
        place = place[:5]
    return place, extensions, keywords(modifier)


def posix(name):
    """Returns the tag for the name of a locale, in the case of RFC 5646 section 2.1.1, or "-" if it has none."""
    tag = named_tag(name)
    return tag if tag == "-" else answers.registry_oracle().recommended(tag)


def named_tag(name):
    modifier, behind = name.partition("@")[2], re.split("[.@]", name)[0].partition("#")[2]
    if not re.fullmatch(r"[^.]*|[^.]*\.[A-Za-z0-9._-]+", name.partition("@")[0], re.S):
        return "-"
    place, *extensions = named_parts(name)
    extended = "-".join(filter(None, (place, *extensions)))
    if len(place_of(name)) > 255 or len(extended) > 260 or not is_tag(place) or not is_tag(extended):
        return "-"
    # a language has two or three letters; behind Android's region, there are other qualifiers of a folder
    if re.match("[^-]{4}|(?!sgn)[a-z]{2,3}-r([a-z]{2}|[0-9]{3})(-|$)", place, re.I | re.A):
        return "-"
    if any(extensions) and any(len(subtag) == 1 for subtag in place.split("-")) or extensions[0] and extensions[0].find("-") != 1 or all(extensions):
        return "-"
    tag = Tag(extended)
    if tag is None:
        return extended
    script, variant = modifier_says(modifier)
    behind = behind.split("_")[0]
    script = script or (behind if re.fullmatch("[A-Za-z]{4}", behind) else tag.script)
    variants, rest = tag.variants, tag.rest
    if variants.lower() == "-posix" and rest[:3].lower() in ("", "-x-"):
        variants, rest = "", "-u-va-posix" + rest
    place = "-".join(filter(None, (tag.language, script, tag.region)))
    if not registry().has("grandfathered", place + variants + rest) and not all(registry().has("variant", it) for it in variants.split("-")[1:]):
        return "-"
    return place + ("-" + variant if variant else variants) + rest


# The modifiers of names that are written, with the script and the variant that each says.
WRITTEN_MODIFIERS = {lower(it or "" for it in modifier_says(name)): name for name in "latin cyrillic devanagari ijekavianlatin".split() + [*MODIFIER_VARIANTS, ""]}


def posix_name(text):
    """Returns the POSIX name of a tag, or "-" if a name cannot say all of it. A likely script is left out, or said by the modifier if the
    language alone has another likely script."""
    tag = Tag(text)
    if tag is None or not re.fullmatch("[a-z]{2,3}", tag.language, re.I | re.A) or tag.language.lower() == "und" or tag.rest.lower() not in ("", "-u-va-posix"):
        return "-"
    language, _, region = tag.fields
    script, variants = (tag.script or "").lower(), tag.variants[1:].lower()
    is_likely, is_usual = (script == ((add_likely_subtags((language, "", area)) or ("", ""))[1]).lower() for area in (region, ""))
    said = ([] if is_likely and is_usual else [(script, variants)]) + ([("", variants)] if is_likely else [])
    modifier = next((WRITTEN_MODIFIERS[it] for it in said if it in WRITTEN_MODIFIERS), None)
    if modifier is None:
        return "-"
    return "_".join(filter(None, (language.lower(), (tag.region or "").upper(), tag.rest and "POSIX"))) + (modifier and "@" + modifier)


def unknown_modifier(name):
    modifier = name.partition("@")[2]
    known = modifier == "" or any(modifier_says(modifier)) or keywords(modifier) or modifier.lower() in SAYS_NOTHING
    return "-" if known else modifier


# ---- the code that is meant by one that is not registered


def suggestion(text):
    """Returns the registered code that replaces the first invalid subtag of a tag, if it is a single language or region."""
    kind, code = (registry().validity(text).split()[at] for at in (0, -1))
    found = {"language": ALIASES.get(code.lower(), [""]), "region": [REPLACEMENTS.get(code.lower(), "")]}.get(kind, [""])
    return found[0] if not any(found[1:]) and registry().has(kind, found[0]) else "-"


# ---- parents

def locale(tag):
    """Returns the language, script and region of a tag of CLDR, which are empty for no tag."""
    found = GRAMMAR.fullmatch(tag)
    return (found["language"], found["script"] or "", found["region"] or "") if found else ("", "", "")


PARENTS = {locale(tag.lower()): locale(parent) for tag, parent in rows("parents.txt")}


def likely_script(language, region):
    """Returns the script of the likely subtags of a language in a region, or of the language; the empty text if there are none."""
    row = LIKELY.get((language.lower(), "", region.lower())) or LIKELY.get((language.lower(), "", ""))
    return row[1] if row and language else ""


def short(language, script, region):
    """Returns the fields without a script that is likely anyway."""
    is_likely = script and script.lower() == likely_script(language, region).lower()
    return language, "" if is_likely else script, region


def parent(language, script, region):
    """Returns the fields of the parent, which are empty if there is none."""
    stated = lambda *fields: PARENTS.get(tuple(map(str.lower, fields)))
    if found := stated(language, script, region):
        return found
    usual, here = likely_script(language, ""), script or likely_script(language, region)
    if region and "" != usual.lower() != here.lower() != "" and not script:
        return stated(language, here, region) or (language, here, "")
    if region or script and not usual:
        return language, script if region else "", ""
    return "", "", ""


def parents(text):
    """Returns a tag and its parents, the nearest first, or a hyphen if the text is no tag. After a tag with `r` before its region, as
    Android writes it, the tag without this letter comes with its parents."""
    tag = Tag(text)
    if tag is None:
        return text if is_tag(text) else "-"
    primary, _, extended = tag.language.partition("-")
    marked = re.match("r([a-z]{2})(?=-|$)", extended, re.I | re.A)
    if marked and not is_registered(tag.language):
        read = "-".join(filter(None, (primary, tag.script, tag.region or marked[1]))) + tag.variants + tag.rest
        return f"{text} {parents(read)}"
    chain = [text]
    language, script, region = fields = tag.language, tag.script or "", tag.region or ""
    usual = script if short(language, script, "")[1] == "" else ""  # the script that the tag names, if the language is usually written in it

    def add(fields, rest):
        if usual and not any(fields[1:]) and fields[0].lower() == language.lower():
            fields = fields[0], usual, ""
        chain.extend(tag for form in (fields, short(*fields)) if (tag := "-".join(filter(None, form)) + rest) not in chain)

    add(fields, tag.variants + tag.rest)
    fields = short(*fields)
    while fields[0]:
        rest = tag.variants
        add(fields, rest)
        while rest:
            rest = rest.rpartition("-")[0]
            add(fields, rest)
        fields = parent(*short(*fields))
    return " ".join(chain)


# ---- rows


def suitable(header, tags):
    """Returns the tags that are chosen if each chosen tag is removed before the next choice."""
    left, found = list(tags), []
    while (index := best(header, left)) is not None:
        found.append(left.pop(index))
    return found


def told_best(header, tags):
    index = best(header, tags)
    return "-" if index is None else tags[index]


def written(find):
    return lambda text: form(text, find) if is_tag(text) else "-"


CALLS = {
    "maximized": written(add_likely_subtags), "minimized": written(remove_likely), "right-to-left": is_right_to_left, "posix": posix,
    "posix-name": posix_name, "unknown-modifier": unknown_modifier, "suggestion": suggestion, "parents": parents, "distance": distance,
    "best": lambda header, tags: told_best(header, tags.split()), "best-match": lambda header, tags: told_match(header, tags.split()),
    "suitable": lambda header, tags: " ".join(suitable(header, tags.split())) or "-",
}
OF_SEVERAL_WORDS = ("best-match", "parents", "suitable")


def answer(row):
    call, *words = row.split(" | ")
    told = CALLS[call](*map(answers.plain, words))
    return told if call in OF_SEVERAL_WORDS else answers.escaped(told)


if __name__ == "__main__":
    sys.exit(answers.main(sys.argv[1:], __doc__, answer))
