# Starts PostgreSQL servers for tests. Each has its own folder, listens on the loopback, and runs as a user other than root:
#
#     . cluster.sh
#     place FOLDER          copies the server that pg_config names to FOLDER, so that nothing is installed in the system
#     into_place make .. runs make with the variables that install to FOLDER
#     begin NAME            makes a cluster and starts it; `port_of NAME` has its port
#     end_all               stops what was started, each process by its id, and removes FOLDER

pg_config=$(command -v "${PG_CONFIG:-pg_config}")
pg_tests=$(cd "$(dirname "${BASH_SOURCE[0]}")" && pwd)
started=()

place() {
    local part path
    pg_folder=$1
    mkdir -p "$pg_folder" && chmod 755 "$pg_folder" || return 1
    for part in bindir pkglibdir sharedir; do
        path=$("$pg_config" --$part)
        mkdir -p "$pg_folder/server$path" && cp -a "$path/." "$pg_folder/server$path" || return 1
    done
    pg_bin=$pg_folder/server$("$pg_config" --bindir)
    PATH=$pg_bin:$PATH
    if [ "$(id -u)" = 0 ]; then
        pg_user=$(id -un postgres 2>/dev/null || echo nobody)
        as_user=(setpriv "--reuid=$(id -u "$pg_user")" "--regid=$(id -g "$pg_user")" --clear-groups)
    else
        pg_user=$(id -un)
        as_user=(env)
    fi
    export PGHOST=127.0.0.1 PGUSER=postgres
}

into_place() { "$@" PG_CONFIG="$pg_config" DESTDIR="$pg_folder/server"; }

port_of() { sed -n 4p "$pg_folder/$1/postmaster.pid"; }

begin() {
    local data=$pg_folder/$1 port
    mkdir "$data" && { [ "$(id -u)" != 0 ] || chown "$pg_user" "$data"; } || return 1
    (cd "$data" && "${as_user[@]}" "$pg_bin/initdb" -D "$data" -U postgres -A trust --no-sync -E UTF8 --locale=C) >/dev/null || return 1
    port=$(python3 -c 'import socket; s = socket.socket(); s.bind(("127.0.0.1", 0)); print(s.getsockname()[1])')
    (cd "$data" && exec "${as_user[@]}" "$pg_bin/postgres" -D "$data" -p "$port" -k "$data" -c listen_addresses=127.0.0.1 \
        -c fsync=off -c max_connections=30 -c shared_buffers=64MB -c max_stack_depth=2MB \
        >"$data/log" 2>&1) &
    started+=($!)
    PGPORT=$port python3 "$pg_tests/server.py" || { tail "$data/log"; return 1; }
}

end_all() {
    local id
    for id in "${started[@]}"; do kill -INT "$id" 2>/dev/null; done
    for id in "${started[@]}"; do wait "$id" 2>/dev/null; done
    started=()
    [ -z "${pg_folder:-}" ] || rm -rf "$pg_folder"
}

# later HERE INCLUDE ARCHIVE: installs a release 99.0 beside the first release. In it the registry replaces de by xx, and CLDR's
# likely region of fr is BE.
later() {
    local at=$pg_folder/server dated=langtag-2031-01-01-cldr99.1 version
    version=$(sed -n 's/.*LANGTAG_VERSION "\(.*\)"/\1/p' "$2/langtag.h")
    cc -O2 -fPIC -c -I"$2" "$1/test/later_registry.c" -o "$pg_folder/later_registry.o" || return 1
    cc -O2 -fPIC -shared -I"$2" -I"$("$pg_config" --includedir-server)" -Dlangtag_canonical=later_canonical \
        -Dlangtag_registry_date=later_registry_date -Dlangtag_maximized=later_maximized -Dlangtag_cldr_version=later_cldr_version "$1/langtag_pg.c" "$pg_folder/later_registry.o" "$3" \
        -Wl,--exclude-libs,ALL -Wl,-Bsymbolic -o "$at$("$pg_config" --pkglibdir)/$dated.so" || return 1
    sed "s/@MODULE@/$dated/" "$1/update.sql.in" >"$at$("$pg_config" --sharedir)/extension/langtag--$version--99.0.sql"
}
