# Installs the packages for Python and npm from a clone, as a reader of the pages does: with the tools of the language and cargo, without
# Rattle and without a network, from an empty folder. The packages have their notices, and pass the rows.
cloned() {
    mkdir "$work/clone" && cd "$root" && { git ls-files -z -- bindings docs 'LICENSE-*' vectors rust crates.txt 'crates/*/src' 2>/dev/null |
        tar -c --null -T - --ignore-failed-read 2>/dev/null || tar -c --exclude=target --exclude=build --exclude=dist bindings docs vectors rust crates.txt crates/*/src LICENSE-*; } |
        tar -x -C "$work/clone"
}
# outside COMMAND..: runs a command in an empty folder, without rt in the PATH.
without_rt=$(tr : '\n' <<<"$PATH" | while read -r folder; do [ -e "$folder/rt" ] || printf '%s:' "$folder"; done)
outside() {
    local folder
    folder=$(mktemp -d -p "$work") || return 1
    env -u LANGTAG_ARCHIVE -u CARGO_TARGET_DIR -C "$folder" PATH="${without_rt%:}" bash -ec "$*"
}
# notices FOLDER: a package has its licences, that of CLDR too.
notices() { (cd "$1" && grep -l 'Permission is' LICENSE-MIT && grep -l 'Unicode' LICENSE-UNICODE && ls LICENSE-APACHE); }
export -f notices
pip_installs() {
    outside 'python3 -m venv v
        PIP_NO_INDEX=1 v/bin/python -m pip install -q --disable-pip-version-check ../clone/bindings/python
        notices v/lib/python3*/site-packages/langtag_verified-*.dist-info
        cp ../clone/bindings/python/rows.py ../clone/bindings/python/test_rows.py . && sed -i "s|^FOLDER = .*|FOLDER = pathlib.Path(\"../clone/vectors\").resolve()|" rows.py
        v/bin/python -m unittest -q test_rows
        v/bin/python -m pip show -q langtag-verified && v/bin/python -m pip uninstall -q -y langtag-verified && ! v/bin/python -c "import langtag" 2>/dev/null'
}
npm_installs() {
    outside 'npm install --offline --no-audit --no-fund --loglevel=error ../clone/bindings/js
        echo "import { LanguageTag } from \"langtag-verified\"; if (LanguageTag.parse(\"zh-Hant-TW\").script !== \"Hant\") process.exit(1);" >first.mjs
        node first.mjs && [ -c /dev/null ]
        notices node_modules/langtag-verified/ && grep -x "# langtag for JavaScript" node_modules/langtag-verified/README.md
        cd node_modules/langtag-verified/ && node --test test/rows.test.js test/langtag.test.js test/examples.test.js'
}
lacks "a clone: pip and npm" 'has cargo' "there is no cargo" && return 0
check "a clone: a copy of its files" cloned
if ! lacks "a clone: pip install" "python3 -c 'import venv, ensurepip' >/dev/null 2>&1" \
    "python3 has no venv and ensurepip (in Debian: apt-get install python3-venv)"; then
    check "a clone: pip install, and the rows" pip_installs
fi
lacks "a clone: npm install" 'node_is_new && has npm' "there is no npm, or no Node of version 20 or later" && return 0
if outside 'cd ../clone/bindings/js && ./build' >"$work/log" 2>&1; then
    check "a clone: npm install, and the rows" npm_installs
else
    not_run "a clone: npm install" "$(tail -1 "$work/log")"
fi
