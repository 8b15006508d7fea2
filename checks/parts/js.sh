# Checks the package for JavaScript, over the module that cargo builds.
js_build() { "$here/js/build" "$PWD/js" && cp "$here/js/package.json" js; }
js_build >"$work/log" 2>&1 || { not_run "JavaScript: everything" "$(tail -1 "$work/log")" && return 0; }
js_built() { js_build && cp js/module.js "$work/module.js" && js_build && cmp js/module.js "$work/module.js"; }
check "JavaScript: the module and the page, twice the same" js_built
# wasm_without_imports FILE: the module imports nothing, and exports what the header declares.
wasm_symbols() {
    sed -n 's/^[A-Za-z].* \**\(langtag_[a-z_]*\)(.*[,;]$/\1/p' include/langtag.h | sort >"$work/declared"
    node -e 'const module = new WebAssembly.Module(require("fs").readFileSync("js/langtag.wasm"));
        if (WebAssembly.Module.imports(module).length > 0) throw new Error("it has imports");
        for (const { name, kind } of WebAssembly.Module.exports(module)) if (kind === "function") console.log(name);' |
        sort | diff "$work/declared" -
}

lacks "JavaScript: tests" node_is_new "there is no Node of version 20 or later" && return 0
echo "Node $(node --version)"
check "JavaScript: no import, and the functions of the header" wasm_symbols
js_tests() { (cd js && LANGTAG_ANSWERS=$work/answers node --test --test-reporter=spec test/rows.test.js test/langtag.test.js test/examples.test.js); }
check "JavaScript: tests, the example, the rows, and C's answers to random calls" js_tests
js_written() { js/compile && cmp js/index.js "$here/js/index.js" && cmp js/index.d.ts "$here/js/index.d.ts"; }
js_types() {
    mkdir -p "$work/types/node_modules/langtag-verified" && cd "$work/types" || return 1
    cp "$work"/bindings/js/{package.json,index.d.ts,index.js} node_modules/langtag-verified && cp "$work/bindings/js/test/types.ts" . || return 1
    echo '{"type": "module"}' >package.json
    for resolution in "node16 --moduleResolution node16" "es2022 --moduleResolution node"; do
        tsc --strict --noEmit --target es2022 --lib es2022,dom --module $resolution types.ts || return 1
    done
}
needs '[[ "$(tsc --version 2>/dev/null)" == *" 4.8."* ]]' "there is no tsc 4.8 (in Debian: apt-get install node-typescript)" \
    "JavaScript: index.js and index.d.ts are what tsc writes" js_written
needs 'has tsc' "there is no tsc (in Debian: apt-get install node-typescript)" \
    "JavaScript: types, by tsc $(tsc --version 2>/dev/null | sed 's/[^0-9.]//g')" js_types
CHROMIUM=$(command -v chromium || command -v google-chrome)
js_in_browser() { (cd js && node --test --test-reporter=spec test/browser.test.js test/page.test.js); }
needs '[ -n "$CHROMIUM" ]' "there is no chromium (in Debian: apt-get install chromium)" \
    "JavaScript: the rows, a worker and the page in $("$CHROMIUM" --version 2>/dev/null | sed 's/ built.*//')" js_in_browser
