# Installs each package that `bindings/release` makes in an empty folder, by a process that cannot see the repository, and runs its
# first program. Two runs of `bindings/release` have to make the same bytes.

releases() {
    (cd "$root" && cp --parents CHANGELOG.md LICENSE-APACHE LICENSE-MIT LICENSE-UNICODE "$work") || return 1
    cp -r "$root/docs" "$work" || return 1
    tar -C "$root" -c --exclude=out --exclude=must-fail crates crates.txt | tar -x -C "$work" || return 1
    ./release "$archive" >"$work/sums" && mv dist "$work/dist" && ./release "$archive" | diff "$work/sums" -
}
check "release: two runs give the same bytes" releases

# Checks what only the tarball has: the archive under the name in the page, and the examples.
by_itself() {
    away 'tar -xzf ../dist/*-x86_64-elf.tar.gz; cd liblangtag-verified-*; mv ../parts.cc .; rm ../parts.*
        c++ -std=c++17 parts.cc -Iinclude lib/liblangtag_verified.a -o parts; ./parts >cc
        cc examples/parts.c -Iinclude lib/liblangtag_verified.a -o parts; ./parts zh-Hant-TW | tee c; cmp c cc'
}

# away COMMAND..: runs the command in an empty folder. The repository and the copy of bindings are hidden if that is possible.
hide=
if unshare -rm true 2>/dev/null; then hide="unshare -rm"; else not_run "release: hiding the repository" "unshare is refused"; fi
away() {
    folder=$(mktemp -d -p "$work") && cp "$work"/first/* "$folder" || return 1
    $hide bash -c 'set -e; cd "$1"; hide=$2 root=$3 copy=$4; shift 4
        if [ -n "$hide" ]; then mount -t tmpfs none "$root"; mount -t tmpfs none "$copy"; fi
        unset LANGTAG_ARCHIVE LANGTAG_ANSWERS; eval "$1"' away \
        "$folder" "$hide" "$root" "$work/bindings" "$1" | diff - <(wanted)
}
by_cmake() {
    away 'tar -xzf ../dist/*-x86_64-elf.tar.gz
        printf "%s\n" "cmake_minimum_required(VERSION 3.13)" "project(first C)" \
            "find_package(langtag_verified 0.1 CONFIG REQUIRED)" "find_package(langtag_verified 0.1 CONFIG REQUIRED)" \
            "add_executable(parts parts.c)" \
            "target_link_libraries(parts langtag_verified::langtag_verified)" "add_executable(still parts.c)" \
            "target_link_libraries(still langtag_verified::static)" >CMakeLists.txt
        cmake -S . -B b -DCMAKE_PREFIX_PATH="$(echo $PWD/liblangtag-verified-*)" >log && cmake --build b >>log || cat log
        b/still zh-Hant-TW | cmp - <(b/parts zh-Hant-TW); b/parts zh-Hant-TW'
}
check "release: C by the tarball's own archive and examples" by_itself
needs 'has cmake' "there is no cmake" "release: C by find_package" by_cmake

# The crate names serde, which cargo looks up even if the feature is off.
crate() {
    away 'tar -xzf ../dist/*.crate; cargo new -q --vcs none first; cp parts.rs first/src/main.rs; cd first
        cp -r ../../with-serde/.cargo .cargo; export CARGO_TARGET_DIR=$PWD/../../released CARGO_HOME=$PWD/cargo-home
        cargo add -q --offline --path ../langtag-verified-*/; cargo run -q --offline'
}
# Its own tests, with all features.
crate_tests() {
    away 'tar -xzf ../dist/*.crate; cd langtag-verified-*; cp -r ../../with-serde/.cargo .cargo; export CARGO_TARGET_DIR=$PWD/../../released CARGO_HOME=$PWD/cargo-home
        cargo test -q --offline --all-features >log 2>&1 || { cat log; exit 1; }
        echo zh-Hant-TW | cargo run -q --offline show | grep -oE "(language|script|region)=\w+" | tr = " "'
}
if ! lacks "release: the Rust crate and its tests" '[ -d "$work/with-serde" ]' "there is no cargo, or no serde in $registry"; then
    check "release: the tests of the Rust crate, with all features" crate_tests
    check "release: the Rust crate" crate
fi

# python_package PYTHON COMMANDS: the environment of a Python is made once, and copied for each package.
python_package() {
    local venv=$work/venv${1//\//-}
    [ -d "$venv" ] || "$1" -m venv "$venv" || return 1
    away "cp -r $venv v; $2 v/bin/python parts.py"
}
wheel_released() { python_package "$1" 'v/bin/python -m pip install -q --no-index --find-links ../dist --only-binary :all: langtag-verified;'; }
sdist_released() {
    python_package "$1" "\"$1\" -m pip wheel -q --no-deps --no-index -w w ../dist/langtag_verified-*.tar.gz;
        v/bin/python -m pip install -q --no-index w/*.whl;"
}
for python in python3 python3.9 python3.12 python3.13; do
    if "$python" -c 'import venv, ensurepip' >/dev/null 2>&1; then
        check "release: the wheel by $python" wheel_released "$python"
    fi
done
for python in python3 /usr/bin/python3; do
    if "$python" -c 'import pip, venv, ensurepip' >/dev/null 2>&1; then
        check "release: the sdist" sdist_released "$python"
        break
    fi
done

# Installs the package for npm in an empty folder, and uses it in Node and in a web page. Then checks the page of the release.
echo 'import { LanguageTag } from "langtag-verified"; const tag = LanguageTag.parse("zh-Hant-TW");
    for (const name of ["language", "script", "region"]) console.log(name, tag[name]);' >"$work/first.mjs"
npm_package() {
    away 'mkdir empty && cd empty && npm install --offline --no-audit --no-fund --loglevel=error ../../dist/langtag-verified-*.tgz >&2
        cp ../../first.mjs . && node first.mjs; cp -r node_modules/langtag-verified ../../npm'
}
# npm runs `prepare` even if it is told to run no script, and a package has no `build`.
npm_pack() { cd "$work/npm" && npm pkg delete scripts.prepare && diff <(npm pack --ignore-scripts --dry-run --json 2>/dev/null | sed -n 's/.*"path": "\(.*\)",/\1/p' | sort) <(find . -type f | cut -c3- | sort); }
npm_bundled() {
    away 'mkdir -p node_modules && cp -r ../npm node_modules/langtag-verified; cp ../first.mjs .
        esbuild first.mjs --bundle --format=esm --outfile=esm.mjs --log-level=error; esbuild first.mjs --bundle --outfile=iife.cjs --log-level=error
        node esm.mjs >esm; node iife.cjs | tee iife; cmp esm iife'
}
npm_in_page() { cd js && PACKAGE=$work/npm PAGE=$(echo "$work"/dist/langtag-*.html) node --test --test-reporter=spec test/browser.test.js test/page.test.js; }
lacks "release: the package for npm" 'ls "$work"/dist/*.tgz >/dev/null 2>&1' "it was not made" 'has npm' "there is no npm" && return 0
check "release: the package for npm in Node" npm_package
check "release: npm packs the same files" npm_pack
needs 'has esbuild' "there is no esbuild" "release: the package for npm in a bundle" npm_bundled
if [ -n "${CHROMIUM:-}" ]; then check "release: the package for npm in a page, and the page" npm_in_page; fi
