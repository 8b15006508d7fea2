/*
 * Runs the rows and a worker in headless Chromium, which CHROMIUM names, under a content security policy. PACKAGE names a folder
 * with the package; by default it is this folder.
 */
import assert from "node:assert/strict";
import { once } from "node:events";
import { readFileSync } from "node:fs";
import { createServer } from "node:http";
import { after, test } from "node:test";
import { pathToFileURL } from "node:url";
import { Chromium, skip } from "./chromium.js";
import { floors } from "./rows.js";

const ROOT = new URL("../../../", import.meta.url);
const PACKAGE = process.env.PACKAGE === undefined ? new URL("../", import.meta.url) : pathToFileURL(`${process.env.PACKAGE}/`);
const TYPES = { js: "text/javascript", html: "text/html", txt: "text/plain" };
const POLICY = "default-src 'none'; script-src 'self' 'wasm-unsafe-eval'; worker-src 'self'; connect-src 'self'";

const PAGES = {
    "/": '<!doctype html><meta charset="utf-8"><title>rows</title>',
    "/worker.js": 'import { LanguageTag } from "/package/index.js"; onmessage = ({ data }) => postMessage(LanguageTag.parse(data).script);',
};

/** Returns the file for a path of the server. answers.js imports ../index.js, which is that of the package. */
function fileOf(path) {
    if (path.startsWith("/package/test/")) return new URL(`bindings/js/test/${path.slice(14)}`, ROOT);
    if (path.startsWith("/package/")) return new URL(path.slice(9), PACKAGE);
    return new URL(`vectors/${path.slice(9)}`, ROOT);
}

const server = createServer((request, response) => {
    const path = new URL(request.url, "http://localhost").pathname;
    try {
        const content = PAGES[path] ?? readFileSync(fileOf(path));
        response.writeHead(200, { "Content-Type": TYPES[path.split(".")[1]] ?? TYPES.html, "Content-Security-Policy": POLICY });
        response.end(content);
    } catch {
        response.writeHead(404).end();
    }
});

await once(server.listen(0, "127.0.0.1"), "listening");
const browser = skip ? undefined : await Chromium.start();
await browser?.open(`http://127.0.0.1:${server.address().port}/`);
after(async () => {
    await browser?.close();
    server.close();
});

for (const [name, floor] of floors(readFileSync(new URL("vectors/floors.txt", ROOT), "latin1"))) {
    test(`${name} in a page`, { skip }, async () => {
        const found = await browser.value(`(async () => {
            const [{ ask, counts }, { adapted, answers }, response, calls] = await Promise.all([
                import("/package/test/rows.js"), import("/package/test/answers.js"), fetch("/vectors/${name}"), fetch("/vectors/calls.txt")]);
            return ask("${name}", await response.text(), counts(await calls.text()), ${floor}, answers, adapted);
        })()`);
        console.log(`${name}: ${found.count} rows`);
        assert.deepEqual(found.differing, []);
    });
}

test("a worker", { skip }, async () => {
    const script = await browser.value(`new Promise((resolve, reject) => {
        const worker = new Worker("/worker.js", { type: "module" });
        worker.onmessage = ({ data }) => resolve(data);
        worker.onerror = reject;
        worker.postMessage("zh-Hant-TW");
    })`);
    assert.equal(script, "Hant");
});

test("nothing is refused by the policy", { skip }, () => assert.deepEqual(browser.errors.filter((text) => !text.includes("404")), []));
