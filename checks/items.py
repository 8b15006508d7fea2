"""Reads the items of Rattle's sources and of the definitions in specs/, with the words of the eraser (tools/erase/tokens.py)."""
import functools
import re
import sys
from pathlib import Path

ROOT = Path(__file__).resolve().parent.parent
sys.path.append(str(ROOT / "tools/erase"))
import exports  # noqa: E402
from tokens import lex  # noqa: E402

CRATES = ROOT / "crates"
lent_by = functools.cache(exports.lent_by)
IN_SPECS = re.compile(r'"(?:\\.|[^"\\])*"|--[^\n]*')  # a string, or a comment
DEFINITION = re.compile(r"(?m)^(?:(?:abbrev|unfoldable|pub|record|data) )*([A-Za-z_][\w'-]*)(?: [({].*)? :(?: .*)?(?:\n.+)*")


class Word(str):
    """A word of a source, its offset, and how it is written there."""

    def __new__(cls, text, at, written=None):
        word = super().__new__(cls, text)
        word.at, word.written = at, written or text
        return word


def words_of(source, is_page=False, at=0):
    """Returns the words of a source or of a page of definitions, without its comments. It begins at an offset of its file."""
    words = []
    if is_page:
        source = IN_SPECS.sub(lambda found: found[0] if found[0][0] == '"' else " " * len(found[0]), source)
    for token in lex(source)[:-1]:
        at += len(token.before)
        words.append(Word(token.text, at))
        at += len(token.text)
    return words


def after_bracket(words, start, opening="([{", closing=")]}"):
    """Returns the index after the bracket that closes the bracket at `start`."""
    depth = 0
    for index in range(start, len(words)):
        depth += (words[index] in opening) - (words[index] in closing and words[index - 1] not in ("-", "="))
        if depth == 0:
            return index + 1
    raise ValueError("a bracket is not closed")


def find_any(words, start, wanted):
    """Returns the index of the first wanted word that is in no bracket opened after `start`."""
    while words[start] not in wanted:
        start = after_bracket(words, start) if words[start] in "([{" else start + 1
    return start


class Piece:
    """A part of an item, such as a clause or the body."""

    def __init__(self, name, words, ghost=False):
        self.name, self.words, self.ghost = str(name), words, ghost


class Item:
    """A function, constant, struct, impl of a trait, or definition of specs/."""

    def __init__(self, file, key, words, kind):
        self.file, self.key, self.kind = file, key, kind
        self.start, self.end = words[0].at, words[-1].at + len(words[-1])
        self.pieces, self.imports, self.public = [], file.imports, False
        if file.items.setdefault(key, self) is not self:
            raise ValueError(f"{self}: there are two")

    def __str__(self):
        line = self.file.source.count("\n", 0, self.start) + 1
        return f"{self.file.path.relative_to(CRATES)}:{line} {self.key}"

    def is_lent(self):
        """Returns whether it, or the type that it is of, is public only for other crates of the repository."""
        root = CRATES / self.file.crate / "src/lib.rt"
        return root.is_file() and not lent_by(root).isdisjoint(self.key.split("::"))

    def written(self):
        """Returns its text as it is written, with comments."""
        return self.file.source[self.start : self.end]

    def line(self, words=()):
        """Returns its text, or that of some words, on one line and without comments."""
        start, end = (words[0].at, words[-1].at + len(words[-1])) if words else (self.start, self.end)
        return " ".join(re.sub("(?://|--)[^\n]*", "", self.file.source[start:end]).split())


@functools.cache
def page_of(crate, page):
    """Returns the path of a page of definitions, which the crate may pass on from another."""
    path, lib = (CRATES / crate / "specs" / f"{name}.antt" for name in (page, "Lib"))
    further = re.search(rf"(?m)^pub use Rattle\.(\w+)\.specs\.{page}$", lib.read_text()) if lib.exists() and not path.exists() else None
    return page_of(further[1], page) if further else path


@functools.cache
def passed_on(crate, page):
    """Returns the page from which each name comes that a page of definitions passes on."""
    path = page_of(crate, page)
    uses = re.findall(r"^(?:unfoldable )?pub use ([\w.]+)\.\{(.*)\}$", path.read_text(), re.M) if path.exists() else []
    return {name: source for source, names in uses for name in names.split(", ")}


def origin_of(path):
    """Returns the path of a definition on its own page."""
    found = re.fullmatch(r"Rattle\.(langtag\w*)\.specs\.(\w+)\.(.+)", path)
    source = found and passed_on(found[1], found[2]).get(found[3])
    return origin_of(f"{source}.{found[3]}") if source else path


class File:
    """The items of a source file, and the origin of each imported name, separately for code and ghost code. The file may have another
    text than at its path."""

    def __init__(self, path, text=None):
        self.path, self.crate, self.source = path, path.relative_to(CRATES).parts[0], path.read_text() if text is None else text
        self.items, self.imports, self.traits, self.aliased = {}, {False: {}, True: {}}, set(), []
        self.take_definitions() if path.suffix == ".antt" else self.take_items(words_of(self.source), None, self.imports)

    def take_items(self, words, header, imports, trait=None):
        """Reads the items of the file, or of an impl. The items of an impl of a trait become its pieces."""
        index = 0
        while index < len(words):
            start, attributes = index, []
            while words[index] == "#":
                bracket = index + 1 + (words[index + 1] == "!")
                index = after_bracket(words, bracket)
                if words[bracket + 1] != "tactic":
                    attributes.append(Piece("#" + words[bracket + 1], words[bracket - 1 : index]))
            if index == len(words):
                return
            first = index
            if words[index] == "pub":
                index = after_bracket(words, index + 1) if words[index + 1] == "(" else index + 1
            is_function = "fn" in words[index : index + 4]
            index = self.after_function(words, index) if is_function else self.after_item(words, index)
            self.take_item(words[start:index], attributes, words[first:index], is_function, header, imports, trait)

    @staticmethod
    def after_item(words, index):
        ends_with_semicolon = words[index] in ("use", "ghost", "const", "static", "type")
        end = find_any(words, index, ";" if ends_with_semicolon else ";{")
        return after_bracket(words, end) if words[end] == "{" else end + 1

    @staticmethod
    def after_function(words, index):
        while True:
            index = find_any(words, index, ("ensures", "requires", "{", ";"))
            if words[index] in "{;":
                return after_bracket(words, index)
            index = after_bracket(words, find_any(words, index, "{"))

    def take_item(self, whole, attributes, words, is_function, header, imports, trait):
        public = words[0] == "pub" and words[1] != "("
        code = words[1:] if public else words[after_bracket(words, 1) :] if words[0] == "pub" else words
        if code[0] == "use" or code[:2] == ["ghost", "use"]:
            self.take_import(code[code.index("use") + 1 : -1], imports[code[0] == "ghost"])
        elif code[0] == "impl":
            self.take_impl(whole, attributes, code, imports)
        elif code[0] == "mod":
            self.take_items(code[3:-1], None, imports)
        elif code[0] == "trait":
            header = Piece("header", [])
            header.type = str(code[1])
            self.traits.add(header.type)
            self.take_items(code[code.index("{") + 1 : -1], header, imports)
        elif trait:
            is_ghost = code[0] == "ghost"
            pieces = self.pieces_of_function(words) if is_function else [Piece(code[1], code, is_ghost)]
            trait.pieces += attributes + pieces
        elif is_function or code[0] in ("const", "static"):
            name = code[code.index("fn") + 1] if is_function else code[1]
            item = Item(self, f"{header.type}::{name}" if header else str(name), whole, "function")
            pieces = self.pieces_of_function(words) if is_function else [Piece("value", words)]
            item.pieces, item.imports, item.public = ([header] if header else []) + attributes + pieces, imports, public
        elif code[0] in ("struct", "enum"):
            item = Item(self, str(code[1]), whole, "type")
            brace = words.index("{") if "{" in words else len(words)
            pieces = [Piece("header", words[:brace]), Piece("fields", words[brace:], True)]
            item.pieces, item.public = attributes + pieces, public

    @staticmethod
    def pieces_of_function(words):
        """Returns the signature, each clause by its name, and the body."""
        pieces, index = [], find_any(words, 0, ("ensures", "requires", "{", ";"))
        pieces.append(Piece("signature", words[:index]))
        while words[index] not in "{;":
            brace = find_any(words, index, "{")
            end = after_bracket(words, brace)
            name = words[index + 1] if brace == index + 2 else ""
            pieces.append(Piece(name, [words[index]] + words[brace:end], True))
            index = find_any(words, end, ("ensures", "requires", "{", ";"))
        return pieces + [Piece("body", words[index:])]

    def take_impl(self, whole, attributes, words, imports):
        brace = find_any(words, 0, "{")
        start = after_bracket(words, 1, "<", ">") if words[1] == "<" else 1
        trait = words[start : words.index("for")] if "for" in words[:brace] else []
        own = {ghost: dict(names) for ghost, names in imports.items()}
        header = Piece("header", [w for piece in attributes for w in piece.words] + words[:brace])
        named = words[start + len(trait) + bool(trait) : brace]
        while named[1:3] == [":", ":"]:
            named = named[3:]
        header.type = "".join(named) if named[0] == "&" else str(named[0])
        item = None
        if trait:
            item = Item(self, "".join(trait).split("::")[-1] + " for " + header.type, whole, "function")
            item.pieces, item.imports, item.public = [header], own, True
        self.take_items(words[brace + 1 : -1], header, own, item)

    def take_import(self, words, names):
        """Records the origin of the names of an import."""
        text = re.sub(r" ?(::|[.,{}-]) ?", r"\1", " ".join(words).replace(": :", "::"))
        head, _, list_of_names = text.partition("{")
        for name in list_of_names.rstrip("}").split(",") if list_of_names else [head]:
            path, _, alias = name.partition(" as ")
            self.aliased += [name] * bool(alias and list_of_names)
            names[alias or re.split(r"::|\.", path)[-1]] = origin_of(head + path) if list_of_names else path

    def take_definitions(self):
        """Reads the definitions of specs/, each from the line of its name to the next empty line."""
        for line in re.findall(r"^use (.+)$", self.source, re.M):
            self.take_import(words_of(line), self.imports[True])
        for found in DEFINITION.finditer(self.source):
            whole = words_of(found[0], True, found.start())
            equations = [n for n, word in enumerate(whole) if word == found[1] and self.source[word.at - 1] == "\n"]
            for equation in equations[:1]:
                equal = whole.index("=", equation)
                whole[equation + 1 : equal] = ["λ", *whole[equation + 1 : equal], "."]
            Item(self, found[1], whole, "definition").pieces = [Piece("", whole, True)]


@functools.cache
def file_of(path):
    return File(path)


def file_at(name):
    """Returns the file for a name like `langtag_place/script` or `langtag_place/specs/Text`."""
    crate, _, rest = name.partition("/")
    return file_of(CRATES / crate / (rest + ".antt" if rest.startswith("specs/") else f"src/{rest}.rt"))


def snake(camel):
    return re.sub(r"(?<=[a-z])(?=[A-Z])", "_", camel).lower()
