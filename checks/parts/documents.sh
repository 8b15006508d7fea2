# Runs the code of the documents and headers, in each language that is installed. SQL runs in postgresql.sh, which has the servers.
examples_of() { LANGTAG_ARCHIVE="$work/lib/liblangtag_c.a" LANGTAG_JS="$work/bindings/js" CARGO_TARGET_DIR="$work/target" "$root/checks/examples" "$@"; }
for language in c c++ python; do check "documents: the examples in $language" examples_of $language; done
needs '[ -f js/module.js ] && has node' "the package is not built" "documents: the examples in JavaScript" examples_of javascript
needs 'has cargo' "there is no cargo" "documents: the examples in Rust and of the programs" examples_of rust shell
needs 'has sqlite3 && has_header sqlite3ext.h' "there is no sqlite3, or its headers are not installed" "documents: the examples in SQLite" examples_of sqlite
if [ -d "$work/clone" ]; then export LANGTAG_CLONE="$work/clone"; fi # of parts/clone.sh, with what cargo has built in it
check "documents: the commands in a clone" examples_of clone
needs '[ -d "$work/dist" ]' "there are no packages" "documents: the commands that install" env LANGTAG_DIST="$work/dist" bash -c 'examples_of install'
