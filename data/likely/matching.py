"""The data for language matching: aliases, the distances of languages and scripts, and the sets of regions."""
from common import Refused, each, folded_number, letter_number, once

# the rules of region-distance.txt, as specs/Distance.antt states them: language, script, and the set that divides the regions
SIDES = [("ar", "*", "maghreb"), ("en", "*", "enUS"), ("es", "*", "americas"), ("pt", "*", "americas"), ("zh", "Hant", "cnsar")]
# CLDR's pairs of languages, one of which it replaces, so that the row has no effect: the replacement has no such row
WITHOUT_EFFECT = [("bh", "hi"), ("sh", "bs"), ("sh", "hr")]


def is_language(text):
    return len(text) in (2, 3) and text.isalpha() and text.islower()


def is_region(text):
    return len(text) == 2 and text.isalpha() or len(text) == 3 and text.isdigit()


class Matching:
    """The lists of language matching, each in the order of its key."""

    def __init__(self, read, likely):
        self.likely = likely
        self.aliases = sorted(([row[0]] + [text.strip("-") for text in row[1:]] for row in read("language-alias.txt")), key=lambda row: letter_number(row[0]))
        self.region_aliases = sorted(read("region-alias.txt"), key=lambda row: folded_number(row[0]))
        self.replacements = sorted((row for row in read("region-alias.txt") if len(row) == 2), key=lambda row: folded_number(row[0]))
        self.languages = self.both_ways(((d, s), int(n), one_way) for d, s, n, one_way in read("language-distance.txt"))
        self.languages.sort(key=self.language_key)
        self.scripts = self.both_ways((((d, a), (s, b)), int(n), one_way) for d, a, s, b, n, one_way in read("script-distance.txt"))
        self.scripts.sort(key=self.script_key)
        self.sets = self.region_sets(read("region-sets.txt"), {row[0]: set(row[1:]) for row in read("region-groups.txt")})
        self.groups = self.region_groups({row[0]: set(row[1:]) for row in read("region-groups.txt")})
        self.test(read)

    @staticmethod
    def both_ways(rules):
        """Returns the rules, once for each direction in which a rule holds."""
        rows = []
        for (desired, supported), distance, one_way in rules:
            rows.append((desired, supported, distance))
            if one_way == "0":
                rows.append((supported, desired, distance))
        return rows

    @staticmethod
    def region_sets(rows, groups):
        """Returns for each set the regions inside it, and the groups that are partly inside it. The world, 001, is outside each: en-001 is
        written for readers outside of $enUS, and is the parent of en-AU."""
        sets = {}
        for name, *regions in rows:
            countries = {region for region in regions if region not in groups}
            inside = countries | {group for group, its in groups.items() if its <= countries}
            partly = {group for group, its in groups.items() if group != "001" and its & countries and not its <= countries}
            sets[name.strip("$")] = (sorted(inside, key=folded_number), sorted(partly, key=folded_number))
        return sets

    @staticmethod
    def region_groups(groups):
        """Returns each group with its regions: its countries, and the groups whose countries are all in it. The world is left out, since it
        has all regions."""
        regions = {group: its | {other for other, others in groups.items() if other != group and others <= its} for group, its in groups.items() if group != "001"}
        return [(group, sorted(regions[group], key=folded_number)) for group in sorted(regions, key=folded_number)]

    @staticmethod
    def language_key(row):
        return letter_number(row[0]) * 32768 + letter_number(row[1])

    def half_key(self, language, script):
        """Returns the key that the left side of a row of likely subtags has without its region."""
        return letter_number(language) * 131072 + (self.likely.scripts.index(script) + 1) * 512 + 1

    def script_key(self, row):
        return self.half_key(*row[0]) * 4294967296 + self.half_key(*row[1])

    def distances(self):
        """Returns each distance that two tags can have."""
        languages = {row[:2]: row[2] for row in self.languages}
        scripts = {}
        for (desired, _), (supported, _), distance in self.scripts:
            scripts.setdefault((desired, supported), set()).add(distance)
        found = {language + script + region for language, regions in ((0, (0, 3, 4, 5)), (80, (0, 4))) for script in (0, 50) for region in regions}
        for pair in languages.keys() | scripts.keys():
            language, regions = (0, (0, 3, 4, 5)) if pair[0] == pair[1] else (languages.get(pair, 80), (0, 4))
            found |= {language + script + region for script in {0, 50} | scripts.get(pair, set()) for region in regions}
        return found

    def test(self, read):
        each("language-alias.txt", "a language of two or three letters", lambda row: is_language(row[0]) and is_language(row[1]), self.aliases)
        replaced = {row[0] for row in self.aliases}
        each("language-alias.txt", "no target is an alias", lambda row: row[1] not in replaced, self.aliases)
        each("language-alias.txt", "a script and a region of the likely subtags, if any",
             lambda row: row[2] in ["", *self.likely.scripts] and row[3] in ["", *self.likely.regions], self.aliases)
        each("likely.txt", "no row is of a language that is replaced", lambda row: row[0] not in replaced and row[3] not in replaced, self.likely.of_languages + self.likely.others)
        once("language-alias.txt", [row[0] for row in self.aliases])
        become, known = {row[0]: row[1] for row in self.aliases}, {row[:2]: row[2] for row in self.languages}
        ends = {row[:2]: tuple(become.get(language, language) for language in row[:2]) for row in self.languages}
        each("language-distance.txt", "the distance of the languages by which CLDR replaces these, or a pair of WITHOUT_EFFECT",
             lambda row: len({*ends[row[:2]]}) == 1 or known.get(ends[row[:2]]) == row[2] or row[:2] in WITHOUT_EFFECT or row[1::-1] in WITHOUT_EFFECT, self.languages)
        replaced = {row[0] for row in self.region_aliases}
        each("region-alias.txt", "no target is an alias", lambda row: row[1] not in replaced, self.region_aliases)
        each("likely.txt", "no row is of a region that is replaced", lambda row: row[2] not in replaced and row[5] not in replaced, self.likely.of_languages + self.likely.others)
        each("region-alias.txt", "regions of two letters or three digits", lambda row: all(is_region(text) for text in row), self.region_aliases)
        once("region-alias.txt", [row[0] for row in read("region-alias.txt")])
        once("language-distance.txt", [row[:2] for row in self.languages])
        each("language-distance.txt", "a language of two or three letters", lambda row: is_language(row[0]) and is_language(row[1]), self.languages)
        each("language-distance.txt", "a distance from 1 to 80", lambda row: 1 <= row[2] <= 80, self.languages)
        once("script-distance.txt", [row[:2] for row in self.scripts])
        each("script-distance.txt", "a language of two or three letters", lambda row: is_language(row[0][0]) and is_language(row[1][0]), self.scripts)
        each("script-distance.txt", "a script of the likely subtags", lambda row: row[0][1] in self.likely.scripts and row[1][1] in self.likely.scripts, self.scripts)
        each("script-distance.txt", "a distance from 1 to 50", lambda row: 1 <= row[2] <= 50, self.scripts)
        each("language-distance.txt", "no distance from 15 to 19, nor from 45 to 49", lambda distance: not (15 <= distance <= 19 or 45 <= distance <= 49),
             sorted(self.distances()))
        each("region-groups.txt", "fewer than 999 regions", lambda row: len(row[1]) < 999, self.groups)
        rules = []
        for language, script, name in SIDES:
            rules.append([language, script, f"${name}", f"${name}", "4"])
            if language == "en":
                rules.append([language, script, f"$!{name}", "GB", "3"])
            rules.append([language, script, f"$!{name}", f"$!{name}", "4"])
            rules.append([language, script, "*", "*", "5"])
        if read("region-distance.txt") != rules + [["*", "*", "*", "*", "4"]]:
            raise Refused("region-distance.txt: other rules than those of specs/Distance.antt")
