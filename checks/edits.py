"""The wrong bodies of crates/*/must-fail, and what was seen of each.

What shows that a body is wrong depends on its file alone, and stands there: `# call: ..` if no test does, and `# shown: HASH TESTS`. How
the prover refused it depends on the definitions below it, too, and stands in refusals.txt. Each hash covers what the result depends on. A
wrong body is tried again if a hash differs, or if the commit chooses it: a false line is found by one run in 20.
"""
import functools
import hashlib
import re
import shutil
import subprocess
import sys

from items import CRATES, ROOT, File, file_of, origin_of, page_of, words_of

RECORD = ROOT / "checks/refusals.txt"
HEAD = """# For each wrong body that was refused, by the reason: a hash of what the refusal depends on (checks/edits.py). checks/wrong-bodies writes it,
# and `checks/wrong-bodies --known` prints the names. They were refused by the prover with the logic {}.
"""
NOTHING = ["-", "-"]  # instead of a hash and a result
SHARES = 20, 200  # of how many commits one tries a result that is known: of a refusal, which is cheap in a batch, and of a test
PAGE = re.compile(r"\bRattle\.(langtag\w*)\.specs\.(declared\.)?(\w+)")


def digest(*words):
    return hashlib.sha256("\0".join(words).encode()).hexdigest()[:12]


class Edit:
    """A wrong body: its name, CRATE/NAME, and the lines of its file that name a source, an old text and a new one."""

    def __init__(self, path):
        self.path, self.crate, self.name = path, path.parts[-3], f"{path.parts[-3]}/{path.stem}"
        text = path.read_text()
        self.lines = re.findall(r"(?m)^(?:file: |old: |new:).*", text)
        self.places, [self.call, *_], [shown, *_] = (re.findall(rf"(?m)^# {word}: (.*)", text) + [""] for word in ("at", "call", "shown"))
        self.places, self.shown = self.places[:-1], shown.split() or NOTHING

    @functools.cached_property
    def texts(self):
        """Returns the new texts of the files that it changes, or ends the program if the edit does not fit."""
        file, texts = "", {}
        for line in self.lines:
            word, _, text = line.partition(":")
            text = text.removeprefix(" ")
            if word == "file":
                file = text
                texts.setdefault(file, (CRATES / self.crate / file).read_text())
            elif word == "old":
                old = text
            elif texts[file].count(old) == 1:
                texts[file] = texts[file].replace(old, text)
            else:
                sys.exit(f"{self.path}: the old text does not stand exactly once in {file}")
        return texts

    @functools.cached_property
    def changes(self):
        """Returns (file, old item, new item) for each item of src/ that it changes. None stands for an item that is not there."""
        found = []
        for name, text in self.texts.items():
            if name.startswith("src/"):
                path = CRATES / self.crate / name
                old, new = file_of(path).items, File(path, text).items
                found += [(name, old.get(key), new.get(key)) for key in {**old, **new} if all_words(old.get(key)) != all_words(new.get(key))]
        return found

    def of_refusal(self, how):
        """Returns a hash of what its refusal depends on: the edit, the items that it changes, their traits, and the definitions below them. What
        an answer refused depends on the proofs of these items, too."""
        try:
            items = [old for _, old, _ in self.changes if old]
        except ValueError:  # a file that cannot be read
            return digest(*self.lines, *((CRATES / self.crate / name).read_text() for name in self.texts))
        items += self.refusing(items)
        proofs = [path.read_text() for item in items for path in proofs_of(item)] if how == "answer" else []
        return digest(*self.lines, *(word for item in items for word in (*all_words(item), *trait_of(item))), *definitions(items), *proofs)

    def refusing(self, items):
        """Returns the functions at which it is refused, `# at: found::Found::irregular`, if it changes only a type or a constant. These have
        no contract: it depends on the contract of the function."""
        if any(piece.ghost for item in items if item.kind == "function" for piece in item.pieces):
            return []
        if not self.places:
            sys.exit(f"{self.path}: it changes no contract's function, so a line `# at: FILE::FUNCTION` has to say where it is refused")
        found = []
        for place in self.places:
            file, _, key = place.partition("::")
            all_items = file_of(next((CRATES / self.crate / "src").glob(f"**/{file}.rt"))).items
            found += [item for name, item in all_items.items() if name in (key, key.rpartition("::")[2])] or \
                [item for name, item in all_items.items() if " for " in name and re.sub(r"<.*?>", "", "".join(reversed(name.split(" for ")))) == key.rpartition("::")[0]]
        return found or sys.exit(f"{self.path}: there is no {' or '.join(self.places)}")

    def of_shown(self, _):
        """Returns a hash of what shows that it is wrong: the edit, and its call."""
        return digest(*self.lines, self.call)

    def take_shown(self, by):
        """Writes which tests show it into its file, or takes the line out."""
        text = re.sub(r"(?m)^# shown: .*\n", "", self.path.read_text())
        self.shown = [hash_of(self, 1, by), by] if by else NOTHING
        self.path.write_text(text + (f"# shown: {' '.join(self.shown)}\n" if by else ""))


def all_words(item):
    return [word for piece in item.pieces for word in piece.words] if item else []


@functools.cache
def traits():
    """Returns the words of each trait. Its clauses are the contracts of the functions in its impls."""
    texts = (path.read_text() for path in sorted(CRATES.glob("*/src/*.rt")))
    return {name: words_of(body) for text in texts for name, body in re.findall(r"(?ms)^pub\S* trait (\w+)(.*?)^\}", text)}


def trait_of(item):
    """Returns the words of the trait if the item is its impl."""
    return traits().get(re.match(r"\w+", item.key)[0], []) if " for " in item.key else []


def proofs_of(item):
    """Returns the pages in an item's folder of proofs."""
    trait, _, owner = item.key.partition(" for ")
    name = owner + re.sub(r"<.*", "", trait) if owner else item.key.replace("::", "/")
    crate = CRATES / item.file.crate
    return sorted((crate / "proofs" / item.file.path.relative_to(crate / "src").with_suffix("") / name).glob("**/*.antt"))


def definitions(items, with_data=True):
    """Returns what items import, and a hash of each page with definitions that they name, and of each page below these. Pages that a
    generator writes from data may be left out."""
    named = sorted(imported(items))
    pages, more = set(), pages_for(named)
    while more:
        pages |= more
        more = {below for page in more for below in Page.at(page).below} - pages
    return [*named, *(Page.at(page).hash for page in sorted(pages) if with_data or not Page.at(page).is_data)]


def imported(items):
    """Returns what the words of items are imported from."""
    return {item.imports[ghost].get(word, "") for item in items for ghost in (False, True) for word in all_words(item)}


def pages_for(paths):
    """Returns the pages that paths name."""
    return {page for path in paths for page in PAGE.findall(origin_of(path))[:1]}


class Page:
    """A page of definitions, or the types and constants of a source: a hash of its words, without imports and comments, and the
    pages that it needs. These are those of the names that it uses, or all that it imports if it only passes names on."""

    def __init__(self, crate, declared, name):
        path = next((CRATES / crate / "src").glob(f"**/{name}.rt"), None) if declared else page_of(crate, name)
        self.is_data = bool(path) and path.is_file() and "Do not edit." in path.read_text()[:400]
        if declared:
            items = [it for it in (file_of(path).items.values() if path else ()) if it.kind == "type" or it.pieces[-1].name == "value"]
            self.hash, self.below = digest(*(word for item in items for word in all_words(item))), pages_for(imported(items))
            return
        text = path.read_text() if path.is_file() else ""
        words = words_of(re.sub(r"(?m)^(?:unfoldable |pub )*use .*", "", text), is_page=True)
        used = sorted(it for it in origins(text) if it[0] in words)
        # A name can mean another definition without a change of these words.
        self.hash = digest(*words, *map(" ".join, used))
        self.below = pages_for(path for _, path in used) if words else {*PAGE.findall(text)}

    @staticmethod
    @functools.cache
    def at(page):
        return Page(*page)


def origins(text):
    """Returns each name that a page imports, with where it comes from. An alias is the name."""
    for page, names in re.findall(r"(?m)^(?:unfoldable |pub )*use ((?!.*\.contracts\..* as )[\w.]+)\.(\{.*\}|\w+ as \w+)$", text):
        for path, _, alias in (name.partition(" as ") for name in names.strip("{}").split(", ")):
            yield alias or path, f"{page}.{path}"


def edits_of(names=()):
    """Returns the wrong bodies of these crates, or with these names, in order. Without names, all are returned."""
    edits = [Edit(path) for path in sorted(CRATES.glob("*/must-fail/*.edit"))]
    found = [it for it in edits if not names or {it.name, it.crate} & {*names}]
    return found or sys.exit("there is no such edit")


def logic():
    """Returns the checksum of the logic of `rt`, or an empty text if there is no `rt`."""
    ran = shutil.which("rt") and subprocess.run(["rt", "version"], capture_output=True, text=True, check=True).stdout
    return ran.split()[-1] if ran else ""


def hash_of(edit, which, result):
    return (Edit.of_refusal, Edit.of_shown)[which](edit, result)[:8]


class Record:
    """The refusals: for each reason, the hashes. What another prover refused does not count, and a hash that no wrong body has does no harm."""

    def __init__(self):
        text = RECORD.read_text() if RECORD.is_file() else ""
        self.logic = (re.findall(r" the logic (\w*)", text) or [""])[0]
        self.seen = {reason: {*hashes.split()} for reason, hashes in re.findall(r"(?m)^(\w+):\n((?:\w+\n)*)", text)}
        if (now := logic()) and now != self.logic:
            self.logic, self.seen = now, {}

    def result(self, edit, which):
        """Returns how an edit was refused (`which` is 0) or shown (1), or an empty text if no result has the hash of what stands."""
        known = [(edit.shown[1], edit.shown[:1])] if which else self.seen.items()
        return next((result for result, hashes in known if hash_of(edit, which, result) in hashes), "")

    def write(self, all_edits, results):
        """Writes the results of all wrong bodies, of which some are new."""
        kept, text = {}, HEAD.format(self.logic)
        for edit in all_edits:
            if result := results[edit] if edit in results else self.result(edit, 0):
                kept.setdefault(result, set()).add(hash_of(edit, 0, result))
        RECORD.write_text(text + "".join(f"{reason}:\n" + "".join(f"{it}\n" for it in sorted(kept[reason])) for reason in sorted(kept)))


def turn(shares):
    """Returns which of the shares the commit chooses."""
    ran = subprocess.run(["git", "rev-parse", "HEAD"], cwd=ROOT, capture_output=True, text=True)
    return int(ran.stdout.strip() or "0", 16) % shares


def left_to_try(edits, which, again=False):
    """Returns the edits that have to be tried: all that have changed, and a share of the others. It stands together, so that few crates are
    proved for it."""
    record, shares = Record(), SHARES[which]
    known = [it for it in edits if record.result(it, which)]
    first, last = (len(known) * (turn(shares) + more) // shares for more in (0, 1))
    left = {*known} - {*known[first:last]}
    return [it for it in edits if again or it not in left]
