/* Tests the example. */
import assert from "node:assert/strict";
import { spawn } from "node:child_process";
import { once } from "node:events";
import { get } from "node:http";
import test from "node:test";
import { fileURLToPath } from "node:url";

// The language in the URL, the cookie, the header, the language of the page, and whether a cookie keeps it.
const PAGES = [
    ["", "", "ger-CH, fr;q=0.5", "de", false], ["?lang=sr", "", "de", "sr-Latn", true], ["?lang=tlh", "", "de", "de", false],
    ["?lang=tlh", "lang=ar", "de", "ar", true], ["", "a=b; lang=zh_TW", "de", "zh-Hant", true], ["?lang=", "lang=xx", "fi", "en", false], ["/?lang=sr", "", "de", "sr-Latn", true],
];

test("the site answers in the language that its user picked", async () => {
    const server = spawn(process.execPath, [fileURLToPath(new URL("../examples/server.js", import.meta.url)), "0"]);
    try {
        const [line] = await once(server.stdout.setEncoding("utf8"), "data");
        for (const [wish, cookie, header, wanted, isKept] of PAGES) {
            const response = await fetch(line.trim() + "/" + wish, { headers: { "Accept-Language": header, Cookie: cookie } });
            assert.equal(response.headers.get("Content-Language"), wanted);
            assert.equal(response.headers.get("Set-Cookie"), isKept ? `lang=${wanted}; Path=/` : null);
            const page = await response.text(), direction = wanted === "ar" ? "rtl" : "ltr";
            assert.match(page, new RegExp(`^<html lang="${wanted}" dir="${direction}">`));
            const own = { en: "English", de: "Deutsch", "sr-Latn": "srpski", "zh-Hant": "繁體中文", ar: "العربية" }[wanted];
            assert.match(page, new RegExp(`<p><a href="\\?lang=${wanted}" lang="${wanted}" dir="${direction}">${own}</a> <a `)); // comes first
            assert.equal(page.match(/<a /g).length, 5);
        }
        const [bare] = await once(get(line.trim()), "response"); // without the header, which fetch always sends
        bare.resume();
        assert.equal(bare.headers["content-language"], "en");
    } finally {
        server.kill();
    }
});
