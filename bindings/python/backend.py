"""Builds the package (PEP 517 and PEP 660). It needs only Python, and cc for the C module, so pip downloads nothing.

The archive of the C library is the file that LANGTAG_ARCHIVE names, or that of the sdist. In a clone, cargo
builds it (bindings/archive). The wheel contains the C module, which is one binary for CPython 3.8 and later. For an
interpreter without the stable ABI, such as PyPy, it is built for this interpreter.

Only what an sdist needs is here. bindings/release makes the packages of other languages with these functions, too."""
from __future__ import annotations

import base64
import gzip
import hashlib
import io
import os
import pathlib
import platform
import re
import shutil
import subprocess
import sys
import sysconfig
import tarfile
import zipfile
from typing import Mapping

HERE = pathlib.Path(__file__).resolve().parent
CLONE = HERE.parent if (HERE.parent / "archive").is_file() else None  # the folder bindings, if this is a clone
if CLONE is not None:
    sys.path.insert(0, str(CLONE))
    ROOT, HEADER, EXAMPLES = CLONE.parent, CLONE / "include", CLONE / "examples"
else:
    ROOT, HEADER, EXAMPLES = HERE, HERE, HERE / "examples"
TIME = 315532800  # the first second of 1980, the earliest that a wheel can say
MODULE_FILES = r"\w+\.pyi?|py\.typed"
SDIST_FILES = r"pyproject\.toml|backend\.py|native/.*"


class Lacking(SystemExit):
    """Says what is missing on this machine."""


def run(*command: object, **more: object) -> str:
    """Returns the output of a command. If it fails, ends with what it says. Status 3 says that something is missing."""
    ran = subprocess.run([str(it) for it in command], capture_output=True, text=True, check=False, **more)  # type: ignore[call-overload]
    if ran.returncode == 3:
        raise Lacking(ran.stderr.strip())
    if ran.returncode:
        raise SystemExit(f"{ran.stderr.strip() or ran.stdout.strip()}\nlangtag: this failed with status {ran.returncode}: {' '.join(map(str, command))}")
    return str(ran.stdout).strip()


def archive() -> pathlib.Path:
    """Returns the archive to build with. Cargo's files are in a folder of the clone."""
    named, path = os.environ.get("LANGTAG_ARCHIVE"), HERE / "liblangtag_c.a"
    if named:
        path = pathlib.Path(named).resolve()
        if not path.is_file():
            raise Lacking(f"langtag: LANGTAG_ARCHIVE names no file: {named}")
    elif not path.is_file():
        if CLONE is None:
            raise Lacking("langtag: there is no liblangtag_c.a: name one by LANGTAG_ARCHIVE")
        path = room() / "liblangtag_c.a"
        run(CLONE / "archive", path)
    return path


def kind() -> tuple[str, str]:
    """Returns the first two tags of a wheel for this Python, and the ending of the name of its C module."""
    number, ending = "{}{}".format(*sys.version_info), sysconfig.get_config_var("EXT_SUFFIX")
    if platform.python_implementation() == "PyPy":  # .pypy39-pp73-x86_64-linux-gnu.so
        return f"pp{number}-{'_'.join(ending[1:].split('-')[:2])}", ending
    return (f"cp{number}-cp{number}t", ending) if sysconfig.get_config_var("Py_GIL_DISABLED") else ("cp38-abi3", ".abi3.so")


def built(library: pathlib.Path, folder: pathlib.Path, compiler: str | None = None) -> pathlib.Path:
    """Builds the C module without symbols, and returns its path."""
    compiler = compiler or os.environ.get("CC", "cc")
    if not shutil.which(compiler.split()[0]):
        raise Lacking(f"langtag: there is no {compiler} (in Debian: apt-get install gcc)")
    module, flags = folder / f"_native{kind()[1]}", f"{os.environ.get('CFLAGS', '')} -s"
    variables = {"CC": compiler, "CFLAGS": flags, "INCLUDE": str(HEADER)}
    run("sh", HERE / "native/compile", library, module, sys.executable, env={**os.environ, **variables})
    return module


def said(key: str) -> str:
    """Returns a text of pyproject.toml. Python has no module that reads TOML before 3.11."""
    found = re.search(rf'^{key} = (?:{{ text = )?"(.*?)"', (HERE / "pyproject.toml").read_text(encoding="utf-8"), re.M)
    assert found, key
    return found[1]


def of_python() -> str:
    """Returns the version in the form of PEP 440."""
    return said("version").replace("-dev", ".dev0")


def readme() -> str:
    if CLONE is None:
        return (HERE / "README.md").read_text(encoding="utf-8")
    from readme import readme as of_package
    return of_package("python")


def metadata() -> bytes:
    """Returns the core metadata (2.1), from pyproject.toml, with the README."""
    source = (HERE / "pyproject.toml").read_text(encoding="utf-8")
    lists = {key: re.findall(r'"(.*?)"', body) for key, body in re.findall(r"^(\w+) = \[(.*?)\]", source, re.M | re.S)}
    pages = re.findall(r'^(\w+) = "(.*)"', source.partition("[project.urls]\n")[2], re.M)
    lines = ["Metadata-Version: 2.1", f"Name: {said('name')}", f"Version: {of_python()}", f"Summary: {said('description')}",
             *(f"Project-URL: {name}, {page}" for name, page in pages), f"Keywords: {','.join(lists['keywords'])}",
             *(f"Classifier: {it}" for it in lists["classifiers"]), f"Requires-Python: {said('requires-python')}",
             f"License: {said('license')}", "Description-Content-Type: text/markdown"]
    return ("\n".join(lines) + "\n\n" + readme()).encode()


def tree(folder: pathlib.Path, wanted: str = ".*", place: str = "") -> dict[str, bytes]:
    """Returns the files of a folder whose paths in it match a pattern, for a place in a package."""
    found = {path.relative_to(folder).as_posix(): path for path in sorted(folder.rglob("*")) if path.is_file()}
    return {place + name: path.read_bytes() for name, path in found.items() if re.fullmatch(wanted, name)}


def module_files() -> dict[str, bytes]:
    """Returns the files of the package langtag, without a binary."""
    return {**tree(HERE / "langtag", MODULE_FILES, "langtag/"), **tree(EXAMPLES, r"gettext_catalogue\.py", "langtag/examples/")}


def rows() -> dict[str, bytes]:
    """Returns the rows that the tests of all languages read."""
    return tree(ROOT / "vectors", r"\w+\.(txt|md)", "vectors/")


def notes(page: str) -> dict[str, bytes]:
    """Returns the files that each package has: its README, and the licences, one of which is for CLDR's data."""
    licences = {f"LICENSE-{name}": (ROOT / f"LICENSE-{name}").read_bytes() for name in ("APACHE", "MIT", "UNICODE")}
    return {**licences, "README.md": page.encode()}


def zipped(path: pathlib.Path, files: dict[str, bytes]) -> None:
    """Writes a zip file that does not depend on who makes it, or when."""
    with zipfile.ZipFile(path, "w", zipfile.ZIP_DEFLATED) as out:
        for name, content in sorted(files.items()):
            entry = zipfile.ZipInfo(name, (1980, 1, 1, 0, 0, 0))
            entry.external_attr, entry.compress_type = 0o644 << 16, zipfile.ZIP_DEFLATED
            out.writestr(entry, content)


def pack(path: pathlib.Path, top: str, files: Mapping[str, bytes | str]) -> None:
    """Writes a tarball that does not depend on who makes it, or when. A path given as a text is a link."""
    raw = io.BytesIO()
    with tarfile.open(fileobj=raw, mode="w", format=tarfile.USTAR_FORMAT) as tar:
        for name, content in sorted(files.items()):
            entry = tarfile.TarInfo(f"{top}/{name}")
            entry.mtime, entry.mode = TIME, 0o755 if ".so." in name else 0o644
            if isinstance(content, str):
                entry.type, entry.linkname, content = tarfile.SYMTYPE, content, b""
            entry.size = len(content)
            tar.addfile(entry, io.BytesIO(content))
    with open(path, "wb") as out, gzip.GzipFile("", "wb", 9, out, TIME) as packed:
        packed.write(raw.getvalue())


def write_wheel(folder: str | pathlib.Path, platforms: str, files: dict[str, bytes]) -> str:
    """Writes a wheel for some platforms, and returns its name."""
    top = f"langtag_verified-{of_python()}"
    info, name = f"{top}.dist-info", f"{top}-{kind()[0]}-{platforms}.whl"
    tags = "".join(f"Tag: {kind()[0]}-{it}\n" for it in platforms.split("."))
    more = {**notes(readme()), "METADATA": metadata(),
            "WHEEL": f"Wheel-Version: 1.0\nGenerator: langtag\nRoot-Is-Purelib: false\n{tags}".encode()}
    files = {**files, **{f"{info}/{path}": content for path, content in more.items()}}
    record = "".join(f"{path},sha256={base64.urlsafe_b64encode(hashlib.sha256(content).digest()).decode().rstrip('=')},{len(content)}\n"
                     for path, content in sorted(files.items()))
    zipped(pathlib.Path(folder, name), {**files, f"{info}/RECORD": f"{record}{info}/RECORD,,\n".encode()})
    return name


def wheel(folder: str | pathlib.Path, library: pathlib.Path, platforms: str, compiler: str | None = None) -> str:
    """Builds the C module, and writes a wheel for some platforms. Returns its name."""
    module = built(library, room(), compiler)
    return write_wheel(folder, platforms, {**module_files(), f"langtag/{module.name}": module.read_bytes()})


def sdist(folder: str | pathlib.Path, library: pathlib.Path) -> str:
    """Writes an sdist, and returns its name: the sources of the C module with the archive, so that it needs no cargo."""
    examples = tree(EXAMPLES, r"gettext_catalogue\.py", "examples/")
    files = {**tree(HERE, SDIST_FILES), **module_files(), **examples, **rows(), **notes(readme()), **tree(HEADER, r"langtag_names(_data)?\.h"),
             "liblangtag_c.a": library.read_bytes(), "langtag.h": (HEADER / "langtag.h").read_bytes(), "PKG-INFO": metadata()}
    top = f"langtag_verified-{of_python()}"
    pack(pathlib.Path(folder, f"{top}.tar.gz"), top, files)
    return f"{top}.tar.gz"


def room() -> pathlib.Path:
    (HERE / "build").mkdir(exist_ok=True)
    return HERE / "build"


def this_platform() -> str:
    return re.sub("[-.]", "_", sysconfig.get_platform())


def build_wheel(wheel_directory: str, config_settings: object = None, metadata_directory: str | None = None) -> str:
    return wheel(wheel_directory, archive(), this_platform())


def build_editable(wheel_directory: str, config_settings: object = None, metadata_directory: str | None = None) -> str:
    """Builds the C module in the folder of the sources, and a wheel that only names this folder."""
    library = archive()
    built(library, HERE / "langtag")
    return write_wheel(wheel_directory, this_platform(), {"langtag_verified.pth": f"{HERE}\n".encode()})


def build_sdist(sdist_directory: str, config_settings: object = None) -> str:
    return sdist(sdist_directory, archive())
