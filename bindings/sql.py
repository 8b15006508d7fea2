"""The SQL of the extension for PostgreSQL, as it is installed.

In langtag.sql.in, a line such as `@type langtag_range` stands for type.sql.in, with the name of the type in place of @T@, and the rest of the
line in place of @MORE@. A line with words in braces stands for a line for each word, which is also in place of {}. `@module NAME@` stands
for the function NAME of the module and how it behaves, `@data NAME@` and `@version NAME@` for one of the module with the registry's date and
CLDR's version in its name.
"""
from __future__ import annotations

import pathlib
import re
from collections.abc import Iterator

FOLDER = "bindings/postgresql"
WRITTEN = f"{FOLDER}/langtag.sql"
FILES = [f"{FOLDER}/{name}" for name in ("langtag.sql.in", "type.sql.in", "order.sql.in", "registry_date.mk", "cldr_version.mk")]


def lines_of(folder: pathlib.Path, name: str, of: str = "", more: str = "") -> Iterator[str]:
    for line in (folder / f"{name}.sql.in").read_text(encoding="utf-8").splitlines():
        line = line.replace("@T@", of).replace("@MORE@", more)
        included, words = re.fullmatch(r"@(\w+) (\w+) ?(.*)", line), re.search(r"\{([^}]+)\}", line)
        if included:
            yield from lines_of(folder, *included.groups())
        elif words:
            yield from (line[: words.start()] + word + line[words.end():].replace("{}", word) for word in words[1].split(", "))
        elif not (of and line.startswith("--")):
            yield line


def extension(root: pathlib.Path) -> str:
    """Returns the text of langtag.sql."""
    folder = root / FOLDER
    date, version = (re.search(r"= (\S+)", (folder / name).read_text(encoding="utf-8"))[1] for name in ("registry_date.mk", "cldr_version.mk"))  # type: ignore[index]
    text = "".join(f"{line}\n" for line in lines_of(folder, "langtag"))
    for word, module, kept in (("module", "MODULE_PATHNAME", "IMMUTABLE"), ("data", "", "IMMUTABLE"), ("version", "", "STABLE")):
        module = module or f"$libdir/langtag-{date}-cldr{version}"
        text = re.sub(rf"@{word} (\w+)@", lambda name: f"AS '{module}', '{name[1]}' LANGUAGE C {kept} STRICT PARALLEL SAFE", text)
    return f"-- Written by bindings/generate.py from langtag.sql.in. Do not edit.\n{text}"
