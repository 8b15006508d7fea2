# Runs the examples that are servers, catalogues and a store of RDF literals, and the extension of SQLite.
strict="-std=c99 -O2 -Wall -Wextra -Wpedantic -Werror"
PYTHONPATH=$work/bindings/python

negotiate() {
    cc $strict -g -fsanitize=address,undefined -I"$work/usr/include" examples/negotiate.c "$work/usr/lib/liblangtag_verified.a" \
        -o "$work/built/negotiate"
}
check "C: the HTTP example builds" negotiate
check "C: the HTTP example answers each header" env -C examples PROGRAM="$work/built/negotiate" python3 -m unittest test_examples

# Debian's modules are for Debian's own Python.
python_with() { for it in python3 /usr/bin/python3; do "$it" -c "import $1" 2>/dev/null && echo "$it" && return; done; false; }
check "Flask, Django and films: what a reader and a viewer pick" env -C examples "$(python_with flask || echo python3)" -m unittest test_sites
python_with flask >"$work/log" || not_run "Python: the Flask site" "Flask is not there"

check "gettext reads the messages of the parents of a locale" env -C examples python3 -m unittest test_gettext

needs 'python_with rdflib >"$work/log"' "there is no rdflib (in Debian: apt-get install python3-rdflib)" "RDF literals beside rdflib" env -C examples "$(python_with rdflib)" -m unittest test_literals

sqlite_make() { make -s -B -C sqlite LANGTAG_ARCHIVE="$work/usr/lib/liblangtag_verified.a" LANGTAG_INCLUDE="$work/usr/include" "$@"; }
sqlite_extension() {
    sqlite_make CFLAGS="$strict" && ! nm -D --defined-only sqlite/sqlite_langtag.so | grep ' T langtag_' && mv sqlite/sqlite_langtag.so "$work/built"
}
sqlite_version() { sqlite3 :memory: ".load $work/built/sqlite_langtag" "SELECT langtag_version()" | diff - <(versions); }
if ! lacks "SQLite: the extension" 'has sqlite3' "there is no sqlite3" 'has_header sqlite3ext.h' "the headers of SQLite are not installed"; then
    check "SQLite: the extension builds" sqlite_extension
    check "SQLite: SQL says the versions of the program" sqlite_version
    needs 'has valgrind' "there is no valgrind" "SQLite: tags that are kept take less work" \
        env -C sqlite EXTENSION="$work/built/sqlite_langtag.so" python3 -m unittest test_sqlite.Sqlite.test_work
    check "SQLite: the rows, and what only SQL has, under sanitizers" sqlite_make check CFLAGS="$strict -g -fsanitize=address,undefined -fno-sanitize-recover" \
        SANITIZER="$(cc -print-file-name=libasan.so) $(cc -print-file-name=libubsan.so)"
fi
unset PYTHONPATH
