/* Shows the results for the texts that are typed. It sets only textContent, so a text is never read as HTML. */
import {
    AcceptLanguage, AcceptLanguageError, bestForHeader, describe, distance, InvalidTag, LanguageRange, LanguageTag, REGISTRY_DATE, tagForHeaderLenient,
} from "../index.js";

const find = (id) => document.getElementById(id);

/** Returns an element with a class, which contains texts or elements. */
function made(name, className, ...children) {
    const element = document.createElement(name);
    if (className) element.className = className;
    element.append(...children);
    return element;
}

/** At most this many ranges and tags are shown. */
const MOST = 100;

/** Returns a text as it is shown: without its middle if it is very long. The field keeps the whole text. */
const short = (text) => (text.length > 1000 ? `${text.slice(0, 500)}…${text.slice(-400)}` : text);
const cell = (text, className) => made("td", className, short(text));

const PARTS = [
    ["language", "language", "2.2.1"], ["script", "script", "2.2.3"], ["region", "region", "2.2.4"], ["variants", "variants", "2.2.5"],
    ["extensions", "extensions", "2.2.6"], ["private use", "private", "2.2.7"],
];

/** Returns the parts that a tag has: name, class, text, section. */
function partsOf(tag) {
    const extensions = [...tag.extensions].map(([singleton, subtags]) => [singleton, ...subtags].join("-")).join("-");
    const { language, script, region } = tag;
    const [primary, ...extended] = language ? [tag.primaryLanguage, ...tag.extendedLanguages] : [];
    const rest = tag.text.slice([language, script, region, ...tag.variants].filter(Boolean).join("-").length + 1);
    const written = extensions === "" ? undefined : rest.slice(0, rest.length - (tag.privateUse ? tag.privateUse.length + 1 : 0));
    const texts = [primary, script, region, tag.variants.join("-"), written, tag.privateUse];
    const parts = PARTS.map(([name, className, section], index) => ({ name, className, section, text: texts[index] }));
    if (extended.length > 0) parts.splice(1, 0, { ...parts[0], name: "extended language", section: "2.2.2", text: extended.join("-") });
    if (tag.kind === "irregular") return [{ name: "grandfathered", className: "private", section: "2.2.8", text: tag.text }];
    return parts.filter((part) => part.text);
}

/** What the keys of the extension u choose (UTS #35, part 1, Key And Type Definitions). */
const KEYS = {
    ca: "Calendar", cf: "Currency format", co: "Sort order", cu: "Currency", dx: "Scripts without dictionary breaks", em: "Emoji presentation",
    fw: "First day of the week", hc: "Hour cycle", ka: "Punctuation in sort order", kb: "Backward accents in sort order", kc: "Case level in sort order",
    kf: "Case first in sort order", kk: "Normalization in sort order", kn: "Numeric sort order", kr: "Reordering of scripts", ks: "Strength of sort order",
    kv: "Ignored characters in sort order", lb: "Line breaks", lw: "Line breaks in words", ms: "Measurement system", mu: "Measurement unit",
    nu: "Digits", rg: "Region override", sd: "Subdivision", ss: "Sentence breaks", tz: "Time zone", va: "Variant of the locale",
};

/** The length of the longest tag whose keywords and Unicode forms are shown. They take time in proportion to its square. */
const LONG = 20_000;
const TOO_LONG = "not shown for so long a tag";

/** Returns the name and the value of each keyword of a tag, at most MOST of them. An empty value is shown as true. */
function keywordsOf(tag) {
    if (tag.text.length > LONG) return [];
    return [...tag.keywords].slice(0, MOST).map(([key, value]) => [KEYS[key] === undefined ? `Key ${key}` : `${KEYS[key]} (${key})`, value || "true"]);
}

/** Returns the canonical form of a Unicode locale identifier, or words in its place, and then their class. */
function unicodeForm(tag) {
    if (tag.text.length > LONG) return [TOO_LONG];
    const form = tag.localeForm();
    return form === undefined ? ["none: not a Unicode locale identifier", "words"] : [form];
}

/** Shows a text as it is typed, in pieces. Only some pieces have a class. */
function showPieces(id, pieces) {
    find(id).replaceChildren(...pieces.filter(([text]) => text !== "").map(([text, className]) => (className ? made("b", className, short(text)) : short(text))));
}

/** Splits a piece into three, of which the middle one is wrong. */
function markedIn(text, className, begin, end) {
    return [[text.slice(0, begin), className], [text.slice(begin, end), `${className} invalid`], [text.slice(end), className]];
}

/** The subtags that may follow a beginning of a tag: their part, whether the example is the whole part, and an example. */
const EXAMPLES = [
    ["a language, of two to eight letters", "language", true, "de"],
    ["an extended language, of three letters", "extended language", false, "yue"],
    ["a script, of four letters", "script", true, "Latn"],
    ["a region, of two letters or three digits", "region", true, "CH"],
    ["a variant, of five to eight letters or digits, or of a digit and three more", "variants", false, "rozaj"],
    ["one more subtag of the extension, of two to eight letters or digits", "extensions", false, "abcd"],
    ["an extension, a letter or digit with subtags behind it", "extensions", false, "u-co"],
    ["one more subtag for private use, of one to eight letters or digits", "private use", false, "a"],
    ["private use, x with subtags behind it", "private use", true, "x-mine"],
];

/** Returns the descriptions of the subtags that may follow a beginning of a tag: the library has to accept the example as such a
 *  part. */
function couldStand(front) {
    return EXAMPLES.filter(([, name, isWhole, example]) => {
        if (!LanguageTag.canParse(front + example)) return false;
        const last = partsOf(LanguageTag.parse(front + example)).at(-1);
        return last.name === name && (isWhole ? last.text === example : last.text.endsWith(example));
    }).map(([told, , , example]) => `${told}: ${example}`);
}

/** Shows which part of a text is refused, or that something is missing. */
function showBroken(id, text, begin, end) {
    showPieces(id, [[text.slice(0, begin)], [text.slice(begin, end) || "…", "refused"], [text.slice(end)]]);
}

/** Returns the character at an offset, which has one or two code units, or "" at the end. */
const characterAt = (text, offset) => (offset < text.length ? String.fromCodePoint(text.codePointAt(offset)) : "");

function showRefused(text, error) {
    const refused = /^[0-9a-z]+$/i.test(error.subtag ?? "") ? error.subtag : ""; // else one character of it
    const place = [...text.slice(0, error.offset)].length + 1; // counted from 1
    if (text === "") find("tag-text").replaceChildren();
    else showBroken("tag-text", text, error.offset, error.offset + (refused || error.subtag && characterAt(text, error.offset) || "").length);
    find("tag-summary").textContent = text === "" ? "Type a tag." : `Not a tag: ${error.reason}${error.offset < text.length ? ` (character ${place})` : ""}.`;
    const front = text.slice(0, text.slice(0, error.offset).lastIndexOf("-") + 1);
    find("tag-could").hidden = false;
    find("tag-could").querySelector("ul").replaceChildren(...couldStand(front).map((it) => made("li", "", it)));
}

function showTag() {
    const text = find("tag").value;
    let tag;
    try {
        tag = LanguageTag.parse(text);
    } catch (error) {
        if (!(error instanceof InvalidTag)) throw error;
        showRefused(text, error);
    }
    find("tag").setAttribute("aria-invalid", String(tag === undefined && text !== ""));
    find("tag-parts").hidden = tag === undefined;
    find("tag-forms").hidden = tag === undefined;
    if (tag === undefined) return;
    find("tag-could").hidden = true;
    const wrong = tag.invalidSubtag;
    const parts = partsOf(tag);
    const validity = wrong === undefined ? "valid" : `not valid: ${wrong}`;
    find("tag-summary").textContent = `A tag, ${validity}, by IANA's registry of ${REGISTRY_DATE}.`;
    let end = 0;
    showPieces("tag-text", parts.flatMap(({ text: part, className }) => {
        const begin = end;
        end += part.length + 1;
        const isWrong = wrong !== undefined && begin <= wrong.start && wrong.start < end;
        const shown = isWrong ? markedIn(part, className, wrong.start - begin, wrong.start - begin + wrong.subtag.length) : [[part, className]];
        return begin === 0 ? shown : [["-"], ...shown];
    }));
    find("tag-parts").tBodies[0].replaceChildren(...parts.map((part) =>
        made("tr", "", made("th", part.className, part.name), cell(part.text, `code ${part.className}`), cell(`section ${part.section}`))));
    for (const head of find("tag-parts").tBodies[0].querySelectorAll("th")) head.scope = "row";
    const forms = [
        ["Name", describe(tag), "words"], ["Kind", tag.kind, "words"], ["Validity", validity, "words"], ["Recommended case", tag.toRecommended()], ["Canonical form", tag.canonical()],
        ["Unicode form", ...unicodeForm(tag)], ["With canonical extensions", tag.text.length > LONG ? TOO_LONG : tag.extensionsForm()],
        ["With likely subtags", tag.maximize()], ["Without them", tag.minimize()],
        ["Written", tag.isRightToLeft ? "from right to left" : "from left to right", "words"], ...keywordsOf(tag),
    ];
    find("tag-forms").replaceChildren(...forms.flatMap(([name, form, className]) => [made("dt", "", name), made("dd", className, short(String(form)))]));
}

/** Returns the tags of the list. Words that are not tags are reported, and left out. */
function readTags() {
    const words = find("tags").value.split(/[\s,]+/).filter(Boolean);
    const bad = words.filter((word) => !LanguageTag.canParse(word));
    find("tags").setAttribute("aria-invalid", String(bad.length > 0));
    find("tags-summary").textContent = bad.length > 0 ? `Not tags, and left out: ${short(bad.join(" "))}` : "";
    return words.filter((word) => LanguageTag.canParse(word)).map((word) => LanguageTag.parse(word));
}

/** Returns the distances of the tags from a range that is a tag. */
function distances(range, tags) {
    if (!LanguageTag.canParse(range)) return "";
    const told = tags.slice(0, 20).map((tag) => `${short(tag.text)} ${distance(range, tag)}`);
    return told.length > 0 ? `; distances: ${told.join(", ")}` : "";
}

function showHeader(tags) {
    const header = find("header").value;
    const { ranges } = AcceptLanguage.lenient(header);
    find("header-ranges").replaceChildren(...ranges.slice(0, MOST).map(({ range, weight }) =>
        made("li", "", made("b", "", short(range.text)), ` with the weight ${weight / 1000}${distances(range, tags)}`)));
    const chosen = tagForHeaderLenient(header, tags);
    let told = "";
    find("header-text").replaceChildren();
    try {
        AcceptLanguage.parse(header);
    } catch (error) {
        if (!(error instanceof AcceptLanguageError)) throw error;
        const end = `${header},`.indexOf(",", error.offset);
        showBroken("header-text", header, error.offset, end);
        told = ` Element ${error.index + 1} has a bad ${error.part}: the best tag reads it as what it means, and lookup passes it over.`;
    }
    find("header").setAttribute("aria-invalid", String(told !== ""));
    const best = bestForHeader(header, tags);
    const name = (tag) => (tag === undefined ? "none of the tags" : short(tag.text));
    const differs = best === chosen ? "" : " Use the best tag, unless you have to follow RFC 4647.";
    find("header-summary").textContent = `The best tag is ${name(best)}, by language distance. Lookup (RFC 4647) finds ${name(chosen)}.${differs}${told}`;
}

function showRange(tags) {
    const text = find("range").value;
    const isRange = LanguageRange.canParse(text);
    find("range").setAttribute("aria-invalid", String(!isRange && text !== ""));
    find("range-matches").hidden = !isRange;
    find("range-summary").textContent = isRange ? "" : "Not a language range.";
    if (!isRange) return;
    const range = LanguageRange.parse(text);
    const looked = new Set();
    let left = 6;
    for (const it of range.fallbacks()) {
        if (!it.text.startsWith("*")) looked.add(left > 0 ? short(it.text.replaceAll("-*", "")) : "shorter ones");
        if (left-- === 0) break;
    }
    find("range-summary").textContent = `${range.isBasic ? "A basic" : "An extended"} range, looked up as ${[...looked].join(", then ") || "nothing"}.`;
    find("range-matches").tBodies[0].replaceChildren(...tags.slice(0, MOST).map((tag) =>
        made("tr", "", cell(tag.text, "code"), ...[range.matchesBasic(tag), range.matchesExtended(tag)].map((it) => cell(it ? "yes" : "no")))));
}

function showTags() {
    const tags = readTags();
    showHeader(tags);
    showRange(tags);
}

find("tag").addEventListener("input", showTag);
for (const id of ["tags", "header", "range"]) find(id).addEventListener("input", showTags);
showTag();
showTags();
