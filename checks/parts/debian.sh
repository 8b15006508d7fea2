# Checks the Debian packages that bindings/release made. Installs them by apt over a copy of this system that is thrown away, uses each, and purges them.
# Subtags and names of languages, such as `yau` and `Noone`, are not misspelt words.
debian_lintian() {
    ! lintian --tag-display-limit 0 --allow-root --info --display-info --suppress-tags spelling-error-in-binary "$work"/dist/*.deb | grep .
}

# What a user does with the packages, in the copy, without a variable of these checks.
cat >"$work/debian_used.sh" <<'END_OF_USE'
set -euo pipefail
cd /tmp && cp "$1"/../first/parts.c* .
export DEBIAN_FRONTEND=noninteractive
apt-get install -y -qq -o APT::Sandbox::User=root "$2"/*.deb >/dev/null
cc parts.c $(pkg-config --cflags --libs langtag_verified) -o parts && ./parts zh-Hant-TW
c++ -std=c++17 parts.cc $(pkg-config --cflags --libs langtag_verified) -o parts && ./parts zh-Hant-TW
/usr/bin/python3 -B -c 'import langtag; tag = langtag.Tag("zh-Hant-TW"); print(tag.language, tag.script, tag.region)'
for server in /usr/lib/postgresql/*/lib/langtag.so; do
    bin=$(dirname "$server")/../bin data=$(mktemp -d) && chown nobody "$data" && cd "$data"
    as="setpriv --reuid=$(id -u nobody) --regid=$(id -g nobody) --clear-groups"
    $as "$bin/initdb" -D "$data/d" -A trust --no-sync -U postgres >/dev/null
    $as "$bin/pg_ctl" -D "$data/d" -o "-k $data -c listen_addresses= -c fsync=off" -l "$data/log" -w start >/dev/null
    "$bin/psql" -X -h "$data" -U postgres -Atq -c "CREATE EXTENSION langtag; SELECT language(t), script(t), region(t) FROM CAST('zh-hant-tw' AS langtag) t" postgres
    $as "$bin/pg_ctl" -D "$data/d" -m immediate stop >/dev/null && cd /tmp && rm -rf "$data"
done
apt-get purge -y -qq liblangtag-verified1 liblangtag-verified-dev python3-langtag-verified 'postgresql-*-langtag' >/dev/null
END_OF_USE
debian_installed() {
    local room=$work/overlay said
    mkdir -p "$room/upper" "$room/work" "$room/merged" || return 1
    said=$(unshare -m bash -ec 'mount -t overlay overlay -o "lowerdir=/,upperdir=$1/upper,workdir=$1/work" "$1/merged"
        mount -t proc proc "$1/merged/proc"; mount --rbind /dev "$1/merged/dev"; exec env -i PATH=/usr/sbin:/usr/bin:/sbin:/bin HOME=/root chroot "$1/merged" bash "$2" "$3" "$4"' \
        bash "$room" "$work/debian_used.sh" "$work/bindings" "$work/dist" 2>"$work/log") || { tail -20 "$work/log"; return 1; }
    diff <(echo "$said") <(wanted; wanted; echo "zh Hant TW"
        for server in "$work"/dist/postgresql-*.deb; do [ ! -e "$server" ] || echo "zh|Hant|TW"; done) || return 1
    # Nothing is left but what apt and dpkg note, and the files of this check.
    ! (cd "$room/upper" && find . \( -type f -o -type l -o -type c \) | grep -vE '^\./(tmp|dev|proc|run|root|var/(lib/(dpkg|apt)|log|cache|tmp))/|/ld\.so\.cache$' | grep .)
}
can_overlay() { [ "$(id -u)" = 0 ] && mkdir -p "$work/try/upper" "$work/try/work" "$work/try/merged" &&
    unshare -m mount -t overlay overlay -o "lowerdir=/,upperdir=$work/try/upper,workdir=$work/try/work" "$work/try/merged" 2>/dev/null; }

lacks "Debian packages" 'ls "$work"/dist/*.deb >/dev/null 2>&1' \
    "bindings/release made none (in Debian: apt-get install build-essential debhelper dh-python python3-pip)" && return 0
needs 'has lintian' "it is not there" "Debian: lintian says nothing" debian_lintian
needs 'can_overlay' "this user cannot make a copy of the system by overlayfs" \
    "Debian: apt installs the packages, each works, and nothing is left of them" debian_installed
