/* Tests what only JavaScript has: values, errors, texts of any code units, and the memory of the module. */
import assert from "node:assert/strict";
import { spawnSync } from "node:child_process";
import { cpSync, mkdtempSync, rmSync } from "node:fs";
import { tmpdir } from "node:os";
import { join } from "node:path";
import test from "node:test";
import { pathToFileURL } from "node:url";
import * as langtag from "../index.js";

const {
    AcceptLanguage, EditError, InvalidTag, LanguageRange, LanguageTag, REGISTRY_DATE,
    Site, bestForHeader, bestForRanges, lookUp, tagForHeader, tagForHeaderLenient, unknownModifier,
} = langtag;

/** The memory of each instance of the module, in the order in which they were made. */
const memories = [];
const Instance = WebAssembly.Instance;
WebAssembly.Instance = function (...given) {
    const made = new Instance(...given);
    memories.push(made.exports.memory);
    return made;
};
const folder = mkdtempSync(join(tmpdir(), "langtag-"));
for (const name of ["package.json", "index.js", "calls.js", "memory.js", "module.js", "names.js"]) cpSync(new URL(`../${name}`, import.meta.url), join(folder, name));
const other = await import(pathToFileURL(join(folder, "index.js")));
rmSync(folder, { recursive: true });
const calls = await import("../calls.js?watched");
calls.kind("en");
const watched = memories.length - 1; // the index of the first instance that `calls` makes

/** Returns the error that a function throws. */
function thrown(call) {
    try {
        call();
    } catch (error) {
        return error;
    }
    return undefined;
}

test("texts that are refused, of any units", () => {
    const texts = ["", "f", "en_US", "zh-x-\u00e9", "en\0", "\ud800", "en\udc00", "en-\ud83d\ude00", "\u212a-ab", "i-notexist", "en\u0130", "\uff45n"];
    for (const text of texts) {
        assert.ok(!LanguageTag.canParse(text) && !LanguageTag.parse("de").equals(text));
        assert.equal(LanguageRange.canParse(text), text === "f" || text === "i-notexist");
        assert.throws(() => LanguageTag.parse(text), (error) => {
            assert.ok(error instanceof InvalidTag && error instanceof RangeError && error.name === "InvalidTag");
            assert.equal(error.text, text);
            return error.message.startsWith("invalid language tag `");
        });
    }
    for (let unit = 0x80; unit < 0x10000; unit += 7) {
        assert.ok(!LanguageTag.canParse(`de-${String.fromCharCode(unit)}ab`), unit.toString(16));
    }
});

test("lists of tags and of ranges", () => {
    assert.deepEqual([bestForHeader("fr", [], "en"), bestForHeader("no", [LanguageTag.parse("nb")])?.text], ["en", "nb"]);
    const many = Array(150).fill("de"), suitable = (most) => [langtag.suitableForHeader("de", many, most).length, langtag.suitableForRanges(["de"], many, most).length];
    assert.deepEqual([-1, 0, 1.9, NaN, 2 ** 32, null].map(suitable), [0, 0, 1, 0, 150, 150].map((count) => [count, count]));
    assert.equal(bestForRanges(new Set([LanguageRange.parse("*-DE"), LanguageRange.parse("de-*-DE")]), ["en", "de"]), "de");
    assert.throws(() => unknownModifier(null), TypeError);
});

test("a site does not change", () => {
    const listed = ["en", LanguageTag.parse("zh-Hant"), "nb"], site = new Site(listed), copy = [...listed];
    listed[0] = "fi";
    listed.push("de");
    assert.deepEqual(site.tags, copy);
    assert.equal(site.bestForHeader("zh-TW"), copy[1]);
    assert.deepEqual([site.bestForHeader("de"), site.bestForHeader("de", null), site.bestForHeader("en-GB")], [undefined, null, "en"]);
    assert.equal(site.bestForRanges([LanguageRange.parse("fi"), LanguageTag.parse("nn")], "de"), "nb");
    assert.throws(() => (site.tags = []), TypeError);
    assert.throws(() => site.tags.push("de"), TypeError);
    assert.equal(new Site(new Set(["de", "fr"])).matchForHeader("\u00e9, fr-CA").range, "fr-CA");
    assert.deepEqual([new Site([]).bestForHeader("de", "en"), new Site([]).matchForHeader("*")], ["en", undefined]);
    assert.throws(() => new Site(["de", "de_CH"]), InvalidTag);
    assert.throws(() => new Site(5), { name: "TypeError", message: "expected a list of tags, got number" });
    assert.throws(() => site.bestForRanges("de"), { name: "TypeError", message: "expected a list of ranges, got string" });
    assert.throws(() => site.matchForHeader(5), { name: "TypeError", message: "expected a string, got number" });
});

test("a site is kept while other calls use the memory", () => {
    const languages = "en de fr es it nl pt sv da nb fi pl cs sk hu ro bg el tr ar he fa hi bn ta te th vi id ms ja ko ru uk sr hr sl lt lv et".split(" ");
    const long = languages.flatMap((language) => Array.from({ length: 25 }, (_, number) => `${language}-x-${number}`));
    const headers = ["de-CH, en;q=0.5", "sh, sr-Latn;q=0", "tlh", "zh", "*", "", "uk;q=0.1, be-x-24;q=0.7", `${"_, ".repeat(400_000)}fr`];
    const lists = [languages, long, ["zh-Hans", "zh-Hant"], []], sites = lists.map((list) => new Site(list));
    for (const header of headers) {
        for (const [index, site] of sites.entries()) {
            assert.deepEqual(site.matchForHeader(header), langtag.matchForHeader(header, lists[index]));
            assert.equal(site.bestForHeader(header), bestForHeader(header, lists[index]));
            const ranges = header.slice(0, 100).split(", ");
            assert.equal(site.bestForRanges(ranges), bestForRanges(ranges, lists[index]));
        }
    }
});

const HEADER_CALLS = [
    bestForHeader, tagForHeader, tagForHeaderLenient,
    (header, tags, otherwise) => new Site(tags).bestForHeader(header, otherwise),
    (header, tags, otherwise) => AcceptLanguage.parse(header).best(tags, otherwise),
    (header, tags, otherwise) => AcceptLanguage.parse(header).lookUp(tags, otherwise),
    (header, tags, otherwise) => AcceptLanguage.lenient(header).best(tags, otherwise),
    (header, tags, otherwise) => AcceptLanguage.lenient(header).lookUp(tags, otherwise),
];

test("a request without a header asks for nothing", () => {
    for (const header of [undefined, null, ""]) {
        for (const call of HEADER_CALLS) {
            assert.equal(call(header, ["de", "en"], "en"), "en");
            assert.equal(call(header, ["de", "en"]), undefined);
            assert.throws(() => call(header, ["de_CH"], "en"), InvalidTag);
        }
        assert.deepEqual([AcceptLanguage.parse(header).ranges, AcceptLanguage.lenient(header).ranges], [[], []]);
    }
});

test("what is no text is a TypeError", () => {
    for (const value of [undefined, null, 5, ["en"], {}, Symbol("en"), 5n, { text: 5 }]) {
        assert.throws(() => LanguageTag.parse(value), TypeError);
        assert.throws(() => LanguageRange.parse(value), TypeError);
        assert.throws(() => LanguageTag.parse("en").equals(value), TypeError);
        assert.throws(() => bestForRanges([value], ["en"]), TypeError);
        if (value === undefined || value === null) continue; // no header
        for (const call of HEADER_CALLS) assert.throws(() => call(value, ["en"]), TypeError);
    }
    for (const [call, message] of [
        [() => LanguageTag.parse(5), "expected a string or a LanguageTag, got number"], [() => LanguageTag.parse(null), "expected a string or a LanguageTag, got null"],
        [() => LanguageRange.parse(undefined), "expected a string, a LanguageRange or a LanguageTag, got undefined"], [() => bestForHeader("de", [5]), "expected a string or a LanguageTag, got number"],
        [() => bestForHeader(5, ["de"]), "expected a string, got number"], [() => bestForHeader("de", 5), "expected a list of tags, got number"],
        [() => bestForHeader("de", undefined), "expected a list of tags, got undefined"], [() => bestForRanges([5], ["de"]), "expected a string, a LanguageRange or a LanguageTag, got number"],
        [() => LanguageTag.parse("de").with({ keywords: 5 }), "expected a Map or an object of keywords, got number"],
    ]) assert.throws(call, { name: "TypeError", message });
    assert.throws(() => LanguageTag.parse("en").with({ scripts: "Latn" }), TypeError);
    assert.throws(() => LanguageTag.parse("en").with({ variants: 5 }), TypeError);
    assert.throws(() => LanguageTag.from({ script: "Latn" }), TypeError);
});

test("static calls need no this", () => {
    const { parse, canParse, from, fromPosix, compare } = LanguageTag, { parse: range } = LanguageRange, { parse: strict, lenient } = AcceptLanguage;
    assert.deepEqual(["de", "EN"].map(LanguageTag.parse).map(String), ["de", "EN"]);
    assert.deepEqual(["*-CH", "de"].map(LanguageRange.parse).map(String), ["*-CH", "de"]);
    assert.deepEqual(["de", "de_"].map(canParse), [true, false]);
    assert.deepEqual([parse("de"), from({ language: "de" }), fromPosix("de_CH.UTF-8"), range("de-*")].map(String), ["de", "de", "de-CH", "de-*"]);
    assert.equal(compare("de", "en"), -1);
    for (const read of [strict, lenient]) assert.equal(read("fr, de").best(["de"]), "de");
    assert.deepEqual(["fr, de", "de, fr"].map(AcceptLanguage.lenient).map((it) => it.lookUp(["de", "fr"])), ["fr", "de"]);
});

test("one text is no list", () => {
    for (const one of ["de", ""]) {
        for (const call of HEADER_CALLS) assert.throws(() => call("de", one), { name: "TypeError", message: "expected a list of tags, got string" });
        assert.throws(() => lookUp(one, ["de"]), { name: "TypeError", message: "expected a list of ranges, got string" });
        assert.throws(() => lookUp(["de"], one), TypeError);
        assert.throws(() => bestForRanges(one, ["de"]), TypeError);
        assert.throws(() => bestForRanges(["de"], one), TypeError);
    }
});

test("a tag does not change", () => {
    const tag = LanguageTag.parse("zh-Hant");
    assert.throws(() => { tag.text = "en"; }, TypeError);
    assert.throws(() => { tag.script = "Latn"; }, TypeError);
    tag.variants.push("1996");
    assert.deepEqual(tag.variants, []);
});

test("clones", () => {
    const tag = LanguageTag.parse("ZH-hant");
    assert.deepEqual(structuredClone(tag), { text: "ZH-hant" });
    assert.ok(LanguageTag.parse(structuredClone(tag)).equals(tag) && LanguageTag.parse(JSON.parse(JSON.stringify(tag))).equals(tag));
});

test("Intl takes a tag as its text", () => {
    for (const text of ["ar-EG", "de-CH-1996", "tr", "th-u-ca-gregory-nu-thai"]) {
        const tag = LanguageTag.parse(text);
        assert.deepEqual([Intl.getCanonicalLocales(tag), Intl.getCanonicalLocales([tag])], [Intl.getCanonicalLocales(text), [Intl.getCanonicalLocales(text)[0]]]);
        assert.equal(new Intl.Locale(tag).toString(), new Intl.Locale(text).toString());
        for (const kind of [Intl.NumberFormat, Intl.Collator, Intl.PluralRules]) {
            assert.equal(new kind(tag).resolvedOptions().locale, new kind(text).resolvedOptions().locale);
        }
    }
    for (const text of ["x-a", "i-klingon", "zh-yue"]) {
        const both = [text, LanguageTag.parse(text)].map((it) => thrown(() => new Intl.NumberFormat(it))?.name);
        assert.equal(both[0], both[1]);
    }
});

test("only a tag has a name", () => {
    for (const call of [langtag.describe, langtag.autonym]) assert.throws(() => call("de_CH"), InvalidTag);
    for (const [count, ...names] of [[262_144, "German", "Deutsch"], [262_145, "ger", undefined]]) {
        const tag = `${`ger-x${"-abcdefgh".repeat(30_000)}`.slice(0, count - 1)}a`; // the canonical form names a tag beyond the limit
        assert.deepEqual([langtag.describe(tag), langtag.autonym(tag)], names);
    }
});

test("edits", () => {
    const tag = LanguageTag.parse("sl-IT-rozaj-x-a");
    assert.equal(String(tag.with({ script: "Latn", variants: ["nedis", "1994"], privateUse: null })), "sl-Latn-IT-nedis-1994");
    assert.equal(String(tag.with({})), "sl-IT-rozaj-x-a");
    assert.equal(String(tag.with({ script: undefined })), "sl-IT-rozaj-x-a");
    for (const extensions of ["u-co-pinyin", { u: "co-pinyin" }, { u: ["co", "pinyin"] }, new Map([["u", ["co", "pinyin"]]])]) {
        assert.equal(String(LanguageTag.from({ language: "zh-yue", script: "Hant", extensions })), "zh-yue-Hant-u-co-pinyin");
    }
    const of = LanguageTag.parse("en-1-ab-u-co-a-bb");
    assert.equal(String(LanguageTag.parse("de").with({ extensions: of.extensions })), "de-1-ab-u-co-a-bb");
    assert.throws(() => tag.with({ region: 419 }), { name: "TypeError", message: "expected a string, a list or null for a part, got number" });
    assert.throws(() => tag.with({ region: "Switzerland" }), (error) => error instanceof EditError && error instanceof RangeError &&
        error.message === "invalid region `Switzerland`" && error.part === "region" && error.text === "Switzerland");
    assert.throws(() => LanguageTag.parse("x-a").with({ region: "CH" }), { name: "EditError", message: "not a normal language tag" });
    for (const list of [[], new Set(), {}, new Map(), "", null]) {
        assert.equal(String(LanguageTag.parse("de-1996-u-co-pinyin").with({ variants: list, extensions: list })), "de");
    }
    for (const list of [[""], ["", ""], new Set([""]), ["1996", ""], { "": [] }, { "": "" }, new Map([["", []]]), { u: [] }, { u: "" }, { u: [""] }]) {
        for (const part of ["variants", "extensions"]) assert.throws(() => LanguageTag.parse("de-1996-u-co-pinyin").with({ [part]: list }), EditError);
    }
    for (const list of [[], [""], {}]) {
        for (const part of ["language", "script", "region", "privateUse"]) assert.throws(() => LanguageTag.parse("de-Latn-x-a").with({ [part]: list }), EditError);
    }
    for (const language of [null, ""]) assert.throws(() => tag.with({ language }), { name: "EditError", message: "the language cannot be removed" });
    for (const parts of [{ script: "" }, { region: "\u212aE" }, { script: "La\ud800n" }]) {
        assert.throws(() => tag.with(parts), EditError);
    }
});

test("keywords that are set and removed", () => {
    const tag = LanguageTag.parse("th-u-ca-gregory-nu-thai");
    const set = (keywords, of = tag) => String(of.with({ keywords }));
    assert.equal(set({ ca: "buddhist", nu: null, kn: "" }), "th-u-ca-buddhist-kn");
    assert.equal(set(new Map([["CA", "Buddhist"], ["nu", undefined]])), "th-u-ca-Buddhist-nu-thai");
    assert.equal(set([["ca", "roc"], ["ca", "japanese"]]), "th-u-ca-japanese-nu-thai");
    for (const nothing of [{}, [], new Map(), { ca: undefined }]) assert.equal(set(nothing), tag.text);
    for (const nothing of [{}, undefined]) assert.equal(set(nothing, LanguageTag.parse("x-a")), "x-a");
    assert.equal(set(tag.keywords), tag.text);
    assert.equal(String(tag.with({ keywords: { nu: "latn" }, extensions: null, region: "TH" })), "th-TH-u-nu-latn");
    assert.equal(String(LanguageTag.from({ language: "ar", extensions: { u: "nu-latn" }, keywords: { ca: "islamic" } })), "ar-u-ca-islamic-nu-latn");
    for (const [keywords, part, text] of [[{ "\u00e9": "roc" }, "key", "\u00e9"], [{ ca: "\ud800" }, "value", "\ud800"], [{ ca: "ab-".repeat(100_000) }, "value", "ab-".repeat(100_000)]]) {
        const error = thrown(() => tag.with({ keywords }));
        assert.ok(error instanceof EditError && error.message.length < 600);
        assert.deepEqual([error.part, error.text], [part, text]);
    }
    assert.equal(tag.text, "th-u-ca-gregory-nu-thai");
    const { part, text, message } = thrown(() => LanguageTag.parse("i-klingon").with({ keywords: { ca: "roc" } }));
    assert.deepEqual([part, text, message], ["keywords", undefined, "not a normal language tag"]);
    for (const keywords of [null, "ca", 5, ["ca"], [["ca", 5]], [[5, "roc"]], [["ca"], ["nu", true]], { ca: true }, { ca: ["roc"] }, { ca: { text: "roc" } }, { c1: "roc", ca: 5 }]) {
        assert.throws(() => tag.with({ keywords }), TypeError);
    }
    const long = `de-u-ca-${"abcdefgh-".repeat(2000)}abc`;
    assert.equal(set({ ca: long.slice(8) }, LanguageTag.parse("de")), long);
    assert.equal(set({ ca: null }, LanguageTag.parse(long)), "de");
});

test("a range, a tag or a text of a megabyte", () => {
    const long = `de${"-abcdefgh".repeat(120_000)}`;
    const tag = LanguageTag.parse(long);
    assert.equal(tag.variants.length, 120_000);
    assert.equal(String(tag.canonical()), long);
    assert.equal(String(LanguageTag.parse(`ja${"-heploc".repeat(50)}`).canonical()), `ja${"-alalc97".repeat(50)}`);
    assert.equal(String(tag.with({ region: "CH" })).length, long.length + 3);
    assert.equal(tag.invalidSubtag.start, 3);
    assert.throws(() => LanguageTag.parse(`${long}_`), (error) => error.offset === long.length && error.message.length < 300);
    assert.equal(LanguageRange.parse(long).matchesBasic(tag), true);
    const header = `${"nl, ".repeat(100_000)}fr`;
    assert.equal(tagForHeader(header, ["en", "fr"]), "fr");
    const best = langtag.matchForHeader(`${"_, ".repeat(400_000)}fr`, ["en", "fr"]);
    assert.deepEqual(best, { index: 1, tag: "fr", distance: 0, range: "fr" });
    assert.equal(LanguageTag.parse(`de${"-1996".repeat(9000)}`).repeatedVariant, "1996");
});

test("two copies of the module", () => {
    const one = LanguageTag.parse("zh-Hant"), two = other.LanguageTag.parse("ZH-hant");
    assert.ok(!(two instanceof LanguageTag) && one.equals(two) && two.equals(one));
    assert.equal(LanguageRange.parse("zh").matchesBasic(two), true);
    assert.equal(tagForHeader("zh", [two]), undefined);
    assert.equal(tagForHeader("zh-hant", [two]), two);
    for (let count = 0; count < 1000; count++) {
        assert.ok(LanguageTag.canParse("de-CH") && !other.LanguageTag.canParse("de_CH"));
    }
});

test("the date of the registry", () => assert.match(REGISTRY_DATE, /^\d{4}-\d\d-\d\d$/));

test("the memory of a long text is given back", () => {
    const memory = memories[watched], begin = memory.buffer.byteLength, count = memories.length;
    calls.kind("de".repeat(100_000));
    assert.ok(memories.length === count && memory.buffer.byteLength < begin + 300_000);
    calls.canonical(`de${"-abcdefgh".repeat(200_000)}`);
    assert.equal(memories.length, count + 1);
    assert.equal(memories.at(-1).buffer.byteLength, begin);
    assert.equal(calls.canonical("iw"), "he");
});

test("calls that are cut off at the end of JavaScript's stack leave the module as it was", () => {
    const deep = () => {
        calls.repeats("de-1996-1996");
        calls.canonical("iw-BU");
        deep();
    };
    for (let round = 0; round < 100; round++) {
        assert.throws(deep, RangeError);
        assert.equal(calls.canonical("iw-BU"), "he-MM");
        assert.deepEqual(calls.repeats("de-1996-1996"), [1, 8, 4, 0, 0]);
    }
    const before = memories.length;
    assert.throws(() => calls.kind({ length: 2, charCodeAt() { throw new RangeError("in the middle"); } }), RangeError);
    assert.equal(memories.length, before);
    assert.equal(calls.kind("en"), 1);
    assert.equal(memories.length, before + 1);
});

test("ten million calls leave the memory as it was", () => {
    const texts = ["zh-Hant-TW", "en", "de_CH", "sl-rozaj-biske-1994"];
    calls.kind("en");
    const memory = memories.at(-1), size = memory.buffer.byteLength;
    for (let count = 0; count < 10_000_000; count++) calls.kind(texts[count & 3]);
    assert.ok(memories.at(-1) === memory && memory.buffer.byteLength === size);
    for (let count = 0; count < 100_000; count++) LanguageTag.parse("zh-Hant-TW").toRecommended();
    const heap = process.memoryUsage().heapUsed;
    for (let count = 0; count < 1_000_000; count++) LanguageTag.parse("zh-Hant-TW").canonical();
    assert.ok(process.memoryUsage().heapUsed - heap < 50_000_000);
});

test("the module is decoded by each function that an engine may have", () => {
    const asked = `const { LanguageTag } = await import("${new URL("../index.js", import.meta.url)}"); console.log(LanguageTag.parse("iw").canonical().text);`;
    const decodes = 'const decode = Buffer.from; Uint8Array.fromBase64 = (text) => (console.log("asked"), new Uint8Array(decode(text, "base64")));';
    for (const [engine, said] of [["", "he"], ["delete Uint8Array.fromBase64; delete globalThis.Buffer;", "he"], [decodes, "asked\nhe"]]) {
        const { stdout, stderr } = spawnSync(process.execPath, ["--input-type=module", "-e", engine + asked], { encoding: "utf8" });
        assert.equal(stdout.trim(), said, stderr);
    }
});
