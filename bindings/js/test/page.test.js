/* Tests the page by its DOM, in headless Chromium, which CHROMIUM names. PAGE names the file of the page. SCREENSHOTS names a
 * folder for pictures. */
import assert from "node:assert/strict";
import { writeFileSync } from "node:fs";
import { after, test } from "node:test";
import { pathToFileURL } from "node:url";
import { Chromium, skip } from "./chromium.js";

const PAGE = process.env.PAGE === undefined ? new URL("../page/langtag.html", import.meta.url) : pathToFileURL(process.env.PAGE);
const browser = skip ? undefined : await Chromium.start();
await browser?.open(PAGE.href);
after(() => browser?.close());

/** Replaces the text of a field, as if it was typed. */
async function type(id, text) {
    await browser.value(`document.getElementById(${JSON.stringify(id)}).select(), document.getElementById(${JSON.stringify(id)}).focus()`);
    if (text === "") await browser.send("Input.dispatchKeyEvent", { type: "keyDown", key: "Delete", windowsVirtualKeyCode: 46 });
    else await browser.send("Input.insertText", { text });
    assert.equal(await browser.value(`document.getElementById(${JSON.stringify(id)}).value`), text);
}

const shown = (selector) => browser.value(`[...document.querySelectorAll(${JSON.stringify(selector)})].filter((it) => it.checkVisibility()).map((it) => it.innerText)`);
const summary = async (id) => (await shown(`#${id}-summary`))[0];
const parts = async () => (await shown("#tag-parts tbody tr")).map((row) => row.split("\t"));
const forms = async () => {
    const [names, texts] = [await shown("#tag-forms dt"), await shown("#tag-forms dd")];
    return Object.fromEntries(names.map((name, index) => [name, texts[index]]));
};

const TAGS = {
    "zh-yue-hant-hk-u-co-stroke-x-mine": [["language", "zh", "section 2.2.1"], ["extended language", "yue", "section 2.2.2"], ["script", "hant", "section 2.2.3"],
        ["region", "hk", "section 2.2.4"], ["extensions", "u-co-stroke", "section 2.2.6"], ["private use", "x-mine", "section 2.2.7"]],
    de: [["language", "de", "section 2.2.1"]],
    "sl-rozaj-1994": [["language", "sl", "section 2.2.1"], ["variants", "rozaj-1994", "section 2.2.5"]],
    "en-a-bb-A-cc": [["language", "en", "section 2.2.1"], ["extensions", "a-bb-A-cc", "section 2.2.6"]],
    "X-a-b": [["private use", "X-a-b", "section 2.2.7"]],
    "i-klingon": [["grandfathered", "i-klingon", "section 2.2.8"]],
};

test("a tag's parts, by name and section", { skip }, async () => {
    for (const [text, wanted] of Object.entries(TAGS)) {
        await type("tag", text);
        assert.deepEqual(await parts(), wanted);
        assert.equal(await browser.value("document.getElementById('tag-text').innerText"), text);
        assert.match(await summary("tag"), /^A tag, (valid|not valid: .*), by IANA's registry of \d{4}-\d\d-\d\d\.$/);
        assert.deepEqual(await shown("#tag-could"), []);
    }
});

test("validity and forms", { skip }, async () => {
    await type("tag", "IW-latn-il");
    assert.deepEqual(await forms(), { Name: "Hebrew (Latin, Israel)", Kind: "normal", Validity: "valid", "Recommended case": "iw-Latn-IL", "Canonical form": "he-Latn-IL",
        "Unicode form": "he-Latn-IL", "With canonical extensions": "IW-latn-il", "With likely subtags": "IW-latn-il", "Without them": "IW-latn", Written: "from left to right" });
    await type("tag", "zh-hant-TW");
    assert.deepEqual([(await forms())["With likely subtags"], (await forms())["Without them"]], ["zh-hant-TW", "zh-TW"]);
    await type("tag", "de-1996-1996");
    assert.equal((await forms()).Validity, "not valid: variant 1996 is repeated");
    assert.deepEqual(await shown("#tag-text .invalid"), ["1996"]);
    assert.equal(await browser.value("document.getElementById('tag-text').innerText"), "de-1996-1996");
    assert.equal(await browser.value("document.querySelector('#tag-text .invalid').previousSibling.textContent"), "1996-");
    await type("tag", "zh-yue");
    assert.equal((await forms()).Name, "Cantonese");
    await type("tag", "qt-FR");
    assert.match(await summary("tag"), /^A tag, not valid: language qt is not registered/);
});

test("keywords by name, and the form of extensions", { skip }, async () => {
    await type("tag", "th-u-NU-thai-ca-islamicc-kn-zz-abc-ca-roc");
    const { "Canonical form": canonical, "With canonical extensions": form, "Digits (nu)": digits, "Calendar (ca)": calendar, "Numeric sort order (kn)": numeric, "Key zz": other } = await forms();
    assert.deepEqual([canonical, form], ["th-u-nu-thai-ca-islamicc-kn-zz-abc-ca-roc", "th-u-ca-islamic-civil-kn-nu-thai-zz-abc"]);
    assert.deepEqual([digits, calendar, numeric, other], ["thai", "islamicc", "true", "abc"]);
    await type("tag", "x-u-ca-roc");
    assert.ok(!("Calendar (ca)" in (await forms())));
});

test("the form of a Unicode locale identifier", { skip }, async () => {
    for (const [text, wanted] of [["ger-uk-u-ca-islamicc", "de-GB-u-ca-islamic-civil"], ["zh-yue-hk", "yue-HK"], ["x-a", "none: not a Unicode locale identifier"],
        [`de-x-${"abcdefgh-".repeat(3000)}a`, "not shown for so long a tag"]]) {
        await type("tag", text);
        assert.equal((await forms())["Unicode form"], wanted);
    }
});

test("a refusal, and what could stand there", { skip }, async () => {
    const bad = (character, place) => `invalid character \`${character}\`: expected a letter, a digit or a hyphen (character ${place})`;
    for (const [text, refused, told] of [["de_CH", "_", bad("_", 3)], ["zh-Hant-", "…", "unexpected end: expected a subtag"],
        ["de-\u00fc", "\u00fc", bad("\u00fc", 4)], ["de-\u{1f600}_", "\u{1f600}", bad("\u{1f600}", 4)], ["\u{1f600}-a", "\u{1f600}", bad("\u{1f600}", 1)],
        ["en-a", "…", "unexpected end: expected a subtag"], ["de-419-DE", "DE", "unexpected subtag `DE` (character 8)"], ["de--a", "…", "empty subtag (character 4)"]]) {
        await type("tag", text);
        assert.equal(await summary("tag"), `Not a tag: ${told}.`);
        assert.deepEqual(await shown("#tag-parts, #tag-forms"), []);
        assert.equal(await browser.value("document.getElementById('tag').getAttribute('aria-invalid')"), "true");
        assert.deepEqual(await shown("#tag-text .refused"), [refused]);
        assert.equal(await browser.value("document.getElementById('tag-text').innerText.replace('…', '')"), text);
        assert.notDeepEqual(await shown("#tag-could li"), []);
    }
    for (const [text, wanted] of [["_", ["a language", "private use"]], ["-a", ["a language", "private use"]], ["de-", ["an extended", "a script", "a region", "a variant", "an extension", "private use"]],
        ["zh-Hant-", ["a region", "a variant", "an extension", "private use"]], ["en-u-", ["one more subtag of the extension"]],
        ["en-u-co-", ["one more subtag of the extension", "an extension", "private use"]], ["x-", ["one more subtag for private use"]]]) {
        await type("tag", text);
        const could = await shown("#tag-could li");
        assert.deepEqual(could.map((it, index) => it.slice(0, wanted[index]?.length)), wanted);
    }
    await type("tag", "");
    assert.equal(await summary("tag"), "Type a tag.");
    assert.deepEqual(await shown(".refused"), []);
});

const HOSTILE = ["<img src=x onerror=alert(1)>", "en-<b>x</b>", "</script><script>alert(1)</script>", "&lt;b&gt;", "\"'><svg onload=alert(1)>", "javascript:alert(1)"];

test("hostile texts are texts", { skip }, async () => {
    const elements = await browser.value("document.querySelectorAll('img, script, svg, b b').length");
    await browser.value("globalThis.alert = () => { globalThis.isBroken = true; }");
    for (const text of HOSTILE) {
        for (const id of ["tag", "tags", "header", "range"]) await type(id, text);
        assert.equal(await browser.value("document.querySelectorAll('img, script, svg, b b').length"), elements);
        assert.ok((await shown("#tag-text b")).join("").length > 0);
        assert.equal(await browser.value("document.getElementById('tag-text').textContent"), text);
    }
    assert.equal(await browser.value("globalThis.isBroken"), undefined);
});

test("a text of a megabyte", { skip }, async () => {
    await type("tag", `de${"-abcdefgh".repeat(110_000)}`);
    assert.match(await summary("tag"), /^A tag, not valid/);
    const begun = await browser.seconds();
    await type("tag", `de-u${"-abcdefgh-ca".repeat(80_000)}`);
    assert.match(await summary("tag"), /^A tag, valid/);
    await type("range", `de${"-abcdefgh".repeat(110_000)}`);
    await type("header", "de_CH, fr;q=0.5, ".repeat(60_000));
    await type("tags", "de-CH fr ".repeat(110_000));
    const taken = await browser.seconds() - begun;
    assert.ok(taken < 60, `${taken} seconds of a processor`);
    for (const id of ["tag", "tags", "range", "header"]) await type(id, "de");
});

test("a header finds a tag", { skip }, async () => {
    await type("tags", "en de-CH fr nonsense_ zh-Hant");
    assert.equal(await summary("tags"), "Not tags, and left out: nonsense_");
    await type("header", "fr;q=0.3, DE-ch-1996;q=0.9, *;q=0");
    const ranges = await shown("#header-ranges li");
    assert.match(ranges[0], /^DE-ch-1996 with the weight 0.9; distances: en \d+, de-CH \d+, fr \d+, zh-Hant \d+$/);
    assert.match(ranges[1], /^fr with the weight 0.3; distances: .*fr 0, /);
    assert.equal(await summary("header"), "The best tag is de-CH, by language distance. Lookup (RFC 4647) finds de-CH.");
    await type("header", "fr;q=0, de_CH, fr");
    assert.equal(await summary("header"), "The best tag is de-CH, by language distance. Lookup (RFC 4647) finds fr. Use the best tag, unless you have to follow RFC 4647. " +
        "Element 2 has a bad language range: the best tag reads it as what it means, and lookup passes it over.");
    assert.deepEqual(await shown("#header-text .refused"), ["de_CH"]);
    await type("header", "ja");
    assert.equal(await summary("header"), "The best tag is none of the tags, by language distance. Lookup (RFC 4647) finds none of the tags.");
});

test("a range matches tags", { skip }, async () => {
    await type("tags", "de-DE de-Latn-DE fr");
    await type("range", "de-*-DE");
    assert.deepEqual(await shown("#range-matches tbody tr"), ["de-DE\tno\tyes", "de-Latn-DE\tno\tyes", "fr\tno\tno"]);
    assert.equal(await summary("range"), "An extended range, looked up as de-DE, then de.");
    await type("range", "de_");
    assert.equal(await summary("range"), "Not a language range.");
    assert.deepEqual(await shown("#range-matches"), []);
});

/** Returns the least contrast of a visible text with its background (WCAG). */
const CONTRAST = `(() => {
    const light = (color) => color.match(/[\\d.]+/g).slice(0, 3).map((it) => it / 255)
        .map((it) => (it <= 0.04045 ? it / 12.92 : ((it + 0.055) / 1.055) ** 2.4)).reduce((sum, it, at) => sum + it * [0.2126, 0.7152, 0.0722][at], 0);
    const paper = light(getComputedStyle(document.body).backgroundColor);
    return Math.min(...[...document.querySelectorAll("main *")].filter((it) => it.checkVisibility()).map((it) => {
        const [less, more] = [light(getComputedStyle(it).color), paper].sort((one, other) => one - other);
        return (more + 0.05) / (less + 0.05);
    }));
})()`;

for (const scheme of ["light", "dark"]) {
    test(`contrast and small screens, ${scheme}`, { skip }, async () => {
        await browser.send("Emulation.setEmulatedMedia", { features: [{ name: "prefers-color-scheme", value: scheme }] });
        await type("tags", "en de-CH de-Latn-DE fr zh-Hant-TW");
        await type("range", "de-*-DE");
        for (const [text, header, width] of [["zh-yue-hant-hk-rozaj-u-co-stroke-x-mine", "fr;q=0.3, DE-ch-1996;q=0.9", 900],
            ["de-1996-1996", "fr, de_CH", 1100], ["zh-Hant_TW", "zh-TW", 390], [`de-419-${"abcdefgh-".repeat(9)}_`, "fr, de_CH", 320]]) {
            await type("tag", text);
            await type("header", header);
            await browser.send("Emulation.setDeviceMetricsOverride", { width, height: 1100, deviceScaleFactor: 1, mobile: width < 500 });
            assert.ok(await browser.value(CONTRAST) >= 4.5, String(await browser.value(CONTRAST)));
            assert.ok(await browser.value("document.documentElement.scrollWidth") <= width, "nothing reaches out of the screen");
            if (process.env.SCREENSHOTS === undefined) continue;
            const { data } = await browser.send("Page.captureScreenshot", { captureBeyondViewport: true });
            writeFileSync(`${process.env.SCREENSHOTS}/${scheme}-${width}.png`, Buffer.from(data, "base64"));
        }
    });
}

test("names for a screen reader, and the way by keyboard", { skip }, async () => {
    const { nodes } = await browser.send("Accessibility.getFullAXTree");
    const named = (role) => nodes.filter((it) => it.role?.value === role && !it.ignored).map((it) => it.name?.value);
    assert.deepEqual(named("textbox"), ["A text", "Tags at hand", "An Accept-Language header", "A language range"]);
    assert.deepEqual(named("heading").slice(0, 2), ["Language tags", "A tag"]);
    assert.ok(named("status").length >= 4 && named("region").length >= 2);
    await browser.value("document.getElementById('tag').focus()");
    const order = [];
    for (let count = 0; count < 3; count++) {
        await browser.send("Input.dispatchKeyEvent", { type: "keyDown", key: "Tab", windowsVirtualKeyCode: 9 });
        await browser.send("Input.dispatchKeyEvent", { type: "keyUp", key: "Tab", windowsVirtualKeyCode: 9 });
        order.push(await browser.value("document.activeElement.id"));
    }
    assert.deepEqual(order, ["tags", "header", "range"]);
});

test("nothing was asked of a network, and nothing refused", { skip }, () => {
    assert.deepEqual(browser.requests.filter((url) => url !== PAGE.href), []);
    assert.deepEqual(browser.errors, []);
});
