# Checks the extension for PostgreSQL, in a server that this script starts. Nothing is installed in the system. The server listens
# only on the loopback, and runs as a user other than root.
pg_config=${PG_CONFIG:-pg_config}
lacks "PostgreSQL: everything" \
    'has "$pg_config"' "there is no pg_config (in Debian: apt-get install postgresql postgresql-server-dev-15)" \
    '[ -x "$("$pg_config" --bindir)/initdb" ]' "there is no server (in Debian: apt-get install postgresql)" \
    '[ -f "$("$pg_config" --includedir-server)/postgres.h" ] && [ -f "$("$pg_config" --pgxs)" ]' \
    "its headers are not installed (in Debian: apt-get install postgresql-server-dev-15)" \
    '"$pg_config" --version | grep -qE "^PostgreSQL 1[5-7]\."' "this is $("$pg_config" --version 2>/dev/null), and 15 to 17 are asked" \
    '[ "$(id -u)" != 0 ] || has setpriv' "a server does not run as root, and there is no setpriv" && return 0

. "$here/postgresql/test/cluster.sh"
path_before=$PATH
trap 'end_all; rm -rf "$work"' EXIT

# The sources are those of the tarball, unpacked in an empty folder, with its header and its archive.
postgresql_released() {
    cd "$pg_folder" && tar -xzf "$work"/dist/langtag-postgresql-*.tar.gz && mv langtag-postgresql-* first || return 1
    env -u LANGTAG_ARCHIVE -u LANGTAG_INCLUDE make -s -C first install PG_CONFIG="$pg_config" DESTDIR="$pg_folder/server" || return 1
    local module exported
    module=$pg_folder/server$("$pg_config" --pkglibdir)/langtag.so
    exported=$(nm -D --defined-only "$module" | grep -c ' T langtag_')
    [ "$exported" = 0 ] || { echo "$module exports $exported functions of the library"; return 1; }
}

postgresql_regress() { make -s -C "$pg_folder/first" installcheck PG_CONFIG="$pg_config" || { cat "$pg_folder/first/regression.diffs"; return 1; }; }
postgresql_says() { psql -X -q -At -c "CREATE EXTENSION IF NOT EXISTS langtag; SELECT langtag_version()" postgres; }
postgresql_versions() { postgresql_says | diff - <(cd python && versions); }

# Installs from the clone of parts/clone.sh, by cargo. The second `make install` is that of root, who may have no cargo.
postgresql_clone() {
    local clone=$work/clone without
    without=$(mktemp -d -p "$work") && printf '#!/bin/sh\nexit 3\n' >"$without/cargo" && chmod +x "$without/cargo" || return 1
    env -u LANGTAG_ARCHIVE -u LANGTAG_INCLUDE -u CARGO_TARGET_DIR make -s -C "$clone/bindings/postgresql" PG_CONFIG="$pg_config" || return 1
    env -u LANGTAG_ARCHIVE -u LANGTAG_INCLUDE PATH="$without:$PATH" make -s -C "$clone/bindings/postgresql" install PG_CONFIG="$pg_config" DESTDIR="$pg_folder/server" &&
        postgresql_says | grep '^langtag '
}
postgresql_later() { later "$here/postgresql" "$here/include" "$work/lib/liblangtag_c.a"; }
in_postgresql() { cd postgresql/test && LANGTAG_ANSWERS=$work/answers_about_tags python3 -m unittest "$1"; }
postgresql_wrong() {
    env PG_CONFIG="$pg_config" DESTDIR="$pg_folder/server" LANGTAG_ARCHIVE="$work/lib/liblangtag_c.a" LANGTAG_INCLUDE="$here/include" \
        python3 wrong_wrappers.py --record "$root" "$work/usr/lib" PostgreSQL
}

if ! place "$(mktemp -d)" >"$work/log" 2>&1 || ! begin hub; then
    failed=$((failed + 1))
    echo "FAILED: PostgreSQL: a server of its own"
    tail -5 "$work/log"
else
    check "PostgreSQL: the tarball builds and installs, and exports no function of the library" postgresql_released
    PGPORT=$(port_of hub)
    check "PostgreSQL: the examples of the documents" "$root/checks/examples" sql
    check "PostgreSQL: make installcheck" postgresql_regress
    check "PostgreSQL: the rows, and C's answers about tags of the registry" in_postgresql test_rows
    check "PostgreSQL: ranges by each scan" in_postgresql test_ranges
    check "PostgreSQL: faults, lengths, memory, dump and restore" in_postgresql test_faults
    check "PostgreSQL: a release with another registry installs" postgresql_later
    check "PostgreSQL: an owner gets no rights by the scripts of the extension" in_postgresql test_privileges
    needs '[ -f "$("$pg_config" --sharedir)/extension/amcheck.control" ]' "there is no amcheck" \
        "PostgreSQL: the update to another registry" in_postgresql test_update
    check "PostgreSQL: SQL says the versions of the program" postgresql_versions
    needs '[ -d "$work/clone" ]' "there is no cargo" "PostgreSQL: a clone installs by cargo" postgresql_clone
    check "PostgreSQL: planted faults are found by make installcheck" postgresql_wrong
fi
end_all
trap 'rm -rf "$work"' EXIT
PATH=$path_before
unset PGHOST PGPORT PGUSER
