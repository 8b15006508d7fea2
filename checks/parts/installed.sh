# Uses the library from an empty folder: with only the archive and the header, and after an installation.
wanted() { printf 'language zh\nscript Hant\nregion TW\n'; }

# The first programs of users, which print what is wanted.
mkdir "$work/first"
cp examples/parts.c "$work/first"
cat >"$work/first/parts.cc" <<'END_OF_PROGRAM'
#include <langtag.hpp>
#include <iostream>
int main() {
    const auto tag = langtag::tag::parse("zh-Hant-TW").value();
    std::cout << "language " << tag.language() << "\nscript " << tag.script() << "\nregion " << tag.region() << '\n';
}
END_OF_PROGRAM
cat >"$work/first/parts.py" <<'END_OF_PROGRAM'
import langtag
for name in ("language", "script", "region"): print(name, getattr(langtag.Tag("zh-Hant-TW"), name))
END_OF_PROGRAM
cat >"$work/first/parts.rs" <<'END_OF_PROGRAM'
fn main() -> Result<(), Box<dyn std::error::Error>> {
    let tag = langtag::LangTag::new("zh-Hant-TW")?;
    Ok(println!("language {}\nscript {}\nregion {}", tag.language().unwrap(), tag.script().unwrap(), tag.region().unwrap()))
}
END_OF_PROGRAM

# The C module of Python is in the copy of the sources, for each check that runs Python.
module_alone() {
    CFLAGS=-Werror python/native/compile "$archive" python/langtag/_native.abi3.so python3 || return 1
    cp -r python/langtag "$work/first/parts.py" "$work/empty" && cd "$work/empty" && python3 parts.py | diff - <(wanted)
}
check "Python: the C module builds without a warning, and needs no other file than the package's" module_alone

check "C: make install" with_make install PREFIX="$work/usr" BUILD="$work/c"

# The commands of docs/C.md, which parts/documents.sh runs, use langtag_verified.pc.
with_library="-I$work/usr/include -L$work/usr/lib -llangtag_verified"
installed() {
    cd "$work/empty" && cc -O2 "$work/first/parts.c" "$@" -o parts || return 1
    LD_LIBRARY_PATH=$work/usr/lib ./parts zh-Hant-TW | diff - <(wanted)
}
installed_shared() { installed $with_library && readelf -d parts | grep 'NEEDED.*liblangtag_verified\.so\.1'; }
installed_static() { installed $with_library -static && ! readelf -d parts | grep NEEDED; }
check "C: an example over the installed shared library" installed_shared
check "C: an example over the installed static library" installed_static

installed_header() {
    cd "$work/empty" && c++ -std=c++17 -Wall -Wextra -Werror "$work/first/parts.cc" $with_library -o parts-cc || return 1
    export LD_LIBRARY_PATH=$work/usr/lib
    ./parts-cc | diff - <(wanted)
}
check "C++: an example over the installed header" installed_header

# Installs another archive in folders with other names. It is older than the files that were built from the first archive.
elsewhere() {
    make -s -C c "$@" PREFIX="$work/another" LIBDIR="$work/another/lib64" INCLUDEDIR="$work/another/headers" \
        ARCHIVE="$work/another.a" BUILD="$work/c"
}
another_archive() {
    echo 'int surplus;' | cc -x c -c -o "$work/surplus.o" - && cp "$archive" "$work/another.a" || return 1
    ar r "$work/another.a" "$work/surplus.o" && touch -d 2000-01-01 "$work/another.a" || return 1
    elsewhere install && cmp "$work/another.a" "$work/another/lib64/liblangtag_verified.a" || return 1
    grep "^libdir=$work/another/lib64$" "$work/another/lib64/pkgconfig/langtag_verified.pc" || return 1
    cmp include/langtag.h "$work/another/headers/langtag.h"
}
check "C: make install of another archive" another_archive

uninstalled() { elsewhere uninstall && [ -z "$(find "$work/another" ! -type d -print)" ]; }
check "C: make uninstall leaves no file" uninstalled
