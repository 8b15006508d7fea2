"""Removes the contracts from the Rattle sources. The rest is the Rust crate.

    python3 tools/erase           writes the modules below rust/src/erased, and those of the C library
    python3 tools/erase --check   prints how the modules differ from what it would write
"""
import pathlib
import shutil
import subprocess
import sys
import tempfile

from attributes import add_attributes, rename_calls
from crates import MODULES, OF_C, SHOWN_IN
from docs import erase_docs
from errors import erase_derives
from exports import exports_of, keep_inside, lent_by, with_exports
from features import mark_modules, owning_items
from ghosts import erase_ghosts
from memory import erase_allocators
from paths import add_imports, erase_imports, erase_paths
from rust import erase_forms, mark_inlined
from short import name_tables, shorten
from tokens import Code

ROOT = pathlib.Path(__file__).resolve().parents[2]
RUST, CRATES = ROOT / "rust", ROOT / "crates"
LIST = "c/src/erased.rs"  # the modules that the C library shares with the Rust crate
USED_BY_HAND = ["recognise_text"]  # modules that src/constants.rs also uses
LAWS = "laws"  # the module of a crate that has only contracts: its functions do nothing, and nothing calls them


def erase(source, module):
    """Returns the code of a source without its contracts, and the names of its free functions with a condition."""
    code = Code(text_of(source, module))
    conditional = erase_ghosts(code)
    erase_derives(code)
    erase_allocators(code)
    erase_forms(code)
    rename_calls(code)
    if module.crate not in OF_C:
        name_tables(code)
    mark_inlined(code, module, source.stem)
    if module.crate not in OF_C:
        add_attributes(code, source)
        shorten(code)
    erase_paths(code, module)
    erase_imports(code)
    add_imports(code)
    erase_docs(code, module)
    return code, conditional


def text_of(source, module):
    """Returns the text of a source. The lib.rt of a module also exports the items of the crates that it shows to users."""
    text = source.read_text(encoding="utf-8")
    for crate, shower in SHOWN_IN.items():
        if module.crate == shower and source.stem == "lib":
            text = with_exports(text, crate, exports_of(CRATES / crate / "src/lib.rt"))
    return text


def head(source):
    """Returns the first line of a file, by which tools know that it is generated."""
    return f"// Generated from {source}. Do not edit.\n\n"


def write(out):
    """Writes all modules below a folder."""
    files, inside = {}, set()
    for module in MODULES:
        inside |= lent_by(CRATES / module.crate / "src/lib.rt")
        for source in sorted((CRATES / module.crate / "src").glob("*.rt")):
            if source.stem == LAWS:
                continue
            name = "mod.rs" if source.stem == "lib" else source.stem + ".rs"
            code, names = erase(source, module)
            if source.stem == "lib":
                code.rewrite(f"mod {LAWS};", "")
            if module.crate == "langtag_c":
                code.rewrite("mod $name;", "pub(crate) mod $name;")  # its exports are beside it
            for used in USED_BY_HAND if source.stem == "lib" else ():
                code.rewrite(f"mod {used};", f"pub(crate) mod {used};")
            files[source, out / module.folder / name] = code
            inside |= names
    folders = {}
    for (_, path), code in files.items():
        if path.is_relative_to(out / "src"):
            folders.setdefault(path.parent, {})[path.stem] = code
    finish(folders.values(), inside)
    for (source, path), code in files.items():
        path.parent.mkdir(parents=True, exist_ok=True)
        path.write_text(head(source.relative_to(ROOT)) + str(code), encoding="utf-8")
    shared = sorted(module.folder for module in MODULES if module.folder.startswith("src/"))
    (out / LIST).write_text(head("tools/erase/crates.py") + "//! The modules of the Rust crate.\n\n" + "".join(
        f'#[path = "../../{folder}/mod.rs"]\npub mod {folder.rpartition("/")[2]};\n' for folder in shared), encoding="utf-8")
    roots = [out / module.folder / "mod.rs" for module in MODULES]
    subprocess.run(["rustfmt", "--edition", "2021", *roots], check=True)


def finish(folders, inside):
    """Makes the changes that need all files: which items are private to the crate, and which are left out without `alloc`."""
    files = [code for folder in folders for code in folder.values()]
    for code in files:
        keep_inside(code, inside)
    owning = owning_items(files)
    for folder in folders:
        mark_modules(folder, owning)


def main(arguments):
    if not shutil.which("rustfmt"):
        sys.exit("tools/erase: there is no rustfmt")
    places = [LIST, *(module.folder for module in MODULES)]
    with tempfile.TemporaryDirectory() as folder:
        out = pathlib.Path(folder)
        write(out)
        if arguments == ["--check"]:
            return check(out, places)
        for name in places:
            shutil.rmtree(RUST / name, ignore_errors=True)
            shutil.move(out / name, RUST / name)


def check(out, places):
    stale = [name for name in places if subprocess.run(["diff", "-r", RUST / name, out / name], check=False).returncode]
    for name in stale:
        print(f"tools/erase: rust/{name} is not what the eraser writes: run python3 tools/erase")
    if stale:
        subprocess.run(["rustfmt", "--version"], check=True)
    return bool(stale)


if __name__ == "__main__":
    sys.exit(main(sys.argv[1:]))
