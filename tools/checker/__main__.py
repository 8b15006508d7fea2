"""Compares the Rust modules below rust/src/erased with the Rattle sources that they are made from.

    python3 tools/checker           fails if a difference is of no kind in kinds.txt, or if counts.txt has another count for its kind
    python3 tools/checker --count   writes counts.txt again; read the changes before you commit it

It shares no code with tools/erase. It removes ghost code from a source only by the grammar, and compares the rest with the Rust file
as it is compiled, word by word, and then the comments. Layout is not compared. A folder or a file below rust/src that it does not know
is a fault.
"""
import collections
import pathlib
import sys

from comments import compare_comments
from compare import Difference, compare
from forms import BY_HAND, CRATES, ELSEWHERE, MADE, SHOWING, path_of, with_errors, with_nested_chains, with_paths, with_short_forms, with_tables
from ghosts import without_ghosts
from kinds import HERE, LIMIT, RUST, read_kinds
from marks import without_derives, without_imports, without_marks
from words import without_layout, words_of

LAWS = "laws"
OF_SOURCE = {"path", "error", "let chain", "short match", "table", "lifetime", "shown elsewhere"}  # kinds that the source alone decides, so their number says nothing
SOURCES = RUST.parent / "crates"


class Checker:
    def __init__(self, sources=SOURCES, modules=RUST / "src"):
        self.sources, self.modules = sources, modules
        self.kinds, self.names = read_kinds()
        self.ghosts, self.counts, self.faults = collections.Counter(), {}, []

    def pairs(self):
        """Yields each source with the file that is made from it, and reports files without a partner."""
        self.faults += unknown_folders(self.modules)
        for crate, module in CRATES.items():
            names = {"mod" if path.stem == "lib" else path.stem for path in (self.sources / crate / "src").iterdir()}
            if LAWS in names:
                names.remove(LAWS)
                self.faults += faults_of_laws(self.sources / crate / "src" / f"{LAWS}.rt", self.ghosts)
            folder = self.modules / ELSEWHERE.get(crate, MADE) / module
            for path in set(folder.iterdir()) - {folder / f"{name}.rs" for name in names}:
                self.faults.append(f"{path.relative_to(self.modules)}: no source has this file")
            for name in sorted(names):
                source = self.sources / crate / "src" / ("lib.rt" if name == "mod" else name + ".rt")
                yield crate, source, folder / (name + ".rs")

    def check(self, crate, source, path):
        file = str(path.relative_to(self.modules))
        counts = self.counts[file] = collections.Counter()
        try:
            if not path.read_text(encoding="utf-8").startswith(f"// Generated from crates/{crate}/src/{source.name}. Do not edit.\n"):
                raise Difference("its first line does not name its source")
            self.compare(crate, source, path, counts)
            compare_comments(source.read_text(encoding="utf-8"), path.read_text(encoding="utf-8"))
        except (Difference, ValueError, IndexError, OSError) as fault:
            self.faults.append(f"{file}: {fault}")

    def compare(self, crate, source, path, counts):
        old = without_ghosts(words_of(source.read_text(encoding="utf-8")), self.ghosts)
        old = with_nested_chains(with_errors(with_paths(old, crate, counts), counts), counts)
        if crate not in ELSEWHERE:
            old = with_short_forms(with_tables(old, source.read_text(encoding="utf-8"), counts), counts)
        new = without_derives(without_marks(words_of(path.read_text(encoding="utf-8")), counts), old, counts)
        old, imported = without_imports(old)
        if source.name == "lib.rt" and crate in SHOWING:
            shown = set().union(*map(self.shown_by, SHOWING[crate]))
            imported |= shown
            counts["shown elsewhere"] += len(shown)
        new, imports = without_imports(new)
        kept_inside = {name for name in imported - imports if "pub(crate) " + name.removeprefix("pub ") in imports}
        counts["export"] += len(kept_inside)
        counts.update(f"without {gone}" for gone in imported - imports - kept_inside)
        counts.update(f"with {added}" for added in imports - imported - {"pub(crate) " + it.removeprefix("pub ") for it in kept_inside})
        for name in set(counts) - set(self.names):
            raise Difference(f"`{name}` is no kind of kinds.txt")
        compare(without_layout(old), without_layout(new), self.kinds, counts)

    def shown_by(self, crate):
        """Returns what the lib.rt of a crate exports to users, by its path in the single Rust crate."""
        text, _, _ = (self.sources / crate / "src/lib.rt").read_text(encoding="utf-8").partition("\n// For ")
        _, exports = without_imports(words_of(text))
        return {f"pub use {path_of(crate)}::{name.rpartition('::')[2]}" for name in exports if name.startswith("pub use ")}

    def run(self, only=None):
        """Checks all files, or one."""
        for crate, source, path in self.pairs():
            if only in (None, path):
                self.check(crate, source, path)
        return self

    def all_faults(self, listed):
        """Returns the faults of the files, with those of the counts. `listed` is the text of counts.txt."""
        return self.faults + list(stale_counts(self.told(), listed))

    def told(self):
        """Returns the lines of counts.txt: how often the files of each module have each kind."""
        modules = collections.defaultdict(collections.Counter)
        for file, counts in self.counts.items():
            for form, count in counts.items():
                kind, is_import, _ = self.names.get(form, form).partition(" use ")
                modules[pathlib.Path(file).parent][kind + is_import.rstrip()] += 0 if kind in OF_SOURCE else count
        return "".join(f"{module}: {line_of(counts)}\n" for module, counts in sorted(modules.items()))


def faults_of_laws(path, ghosts):
    """Yields a fault if a module of laws has more than functions that do nothing."""
    words = without_ghosts(words_of(path.read_text(encoding="utf-8")), ghosts)
    for at in range(0, len(words), 6):
        if words[at : at + 1] + words[at + 2 : at + 6] != ["fn", "(", ")", "{", "}"]:
            yield f"{path.parent.parent.name}/src/{path.name}: it has more than functions that do nothing"
            return


def unknown_folders(modules):
    """Names the folders that have code, but are neither made by tools/erase nor on the list of folders that are written by hand."""
    folders = {modules / ELSEWHERE.get(crate, MADE) / module for crate, module in CRATES.items()}
    known = {folder.resolve() for folder in folders} | {(modules / folder).resolve() for folder in BY_HAND}
    for place in (modules, modules / "../c/src"):
        for path in sorted(place.rglob("*")):
            if path.is_dir() and path.resolve() not in known:
                yield f"{path.relative_to(modules.parent)}: no source has this folder"


def line_of(counts):
    return ", ".join(f"{name} {count}" for name, count in sorted(counts.items()) if count) or "nothing"


def stale_counts(told, listed):
    for line in sorted(set(told.splitlines()) ^ set(listed.splitlines())):
        yield f"counts.txt: {'not' if line in told.splitlines() else 'no more'} as listed: {line}"


def main(arguments):
    checker, listed = Checker().run(), HERE / "counts.txt"
    if arguments == ["--count"]:
        listed.write_text(checker.told(), encoding="utf-8")
    faults = checker.all_faults(listed.read_text(encoding="utf-8"))
    used = {name for counts in checker.counts.values() for name in counts if counts[name]}
    faults += [f"kinds.txt: no file has a {form}" for form in checker.names if form not in used]
    for fault in faults:
        print(f"tools/checker: {fault}")
    total = sum(sum(counts.values()) for counts in checker.counts.values())
    print(f"tools/checker: {len(checker.counts)} files, {total} differences of {len(used)} forms (at most {LIMIT}), {len(faults)} faults")
    print(f"tools/checker: taken out as ghost: {line_of(checker.ghosts)}")
    return bool(faults)


if __name__ == "__main__":
    sys.exit(main(sys.argv[1:]))
