/* Returns the package's answer to a row, in the form of the rows. It runs in Node and in a web page. */
import {
    AcceptLanguage, AcceptLanguageError, autonym, bestForHeader, bestForRanges, CLDR_VERSION, describe, distance, EditError,
    GRANDFATHERED, InvalidRange, InvalidTag, LanguageRange, LanguageTag, lookUp, matchForHeader, resolvedLocale, Site,
    suitableForHeader, suitableForRanges, tagForHeader, tagForHeaderLenient, unknownModifier,
} from "../index.js";
import * as calls from "../calls.js";

const KINDS = { none: "none", normal: "normal", "private-use": "private", irregular: "irregular" };

function assert(holds, what) {
    if (!holds) throw new Error(`not so: ${what}`);
}

/** Returns the error of a type that a call throws, or undefined. */
function refusal(type, call) {
    try {
        call();
    } catch (error) {
        if (error instanceof type && error instanceof RangeError) return error;
        throw error;
    }
    return undefined;
}

/** Returns what a constructor makes of a text, or undefined if it refuses the text. The error has to contain the text. */
function made(type, text) {
    const error = refusal(type === LanguageTag ? InvalidTag : InvalidRange, () => type.parse(text));
    assert(type.canParse(text) === !error && (!error || error.text === text), "a refusal");
    if (error) return undefined;
    const value = type.parse(text);
    assert(String(value) === text && JSON.stringify({ value }) === JSON.stringify({ value: text }), "a text");
    return value;
}

/** Returns what a call returned as the rows have it. */
function shown(answer) {
    if (answer === undefined || typeof answer === "boolean") return { undefined: "-", true: "yes", false: "no" }[answer];
    return Array.isArray(answer) ? answer.join(" ") || "-" : String(answer) || "''";
}

/** Returns what several calls returned, which has to be the same. */
function alike(...answers) {
    const said = answers.map(shown);
    assert(said.every((it) => it === said[0]), said.join(", "));
    return said[0];
}

/** Returns a function that answers a row about a tag. For a string that is not a tag, it answers `otherwise`. */
const ofTag = (ask, otherwise = "-") => (text, ...more) => {
    const tag = made(LanguageTag, text);
    return tag === undefined ? otherwise : shown(ask(tag, ...more));
};

/** Returns the strings of a list, and the tags that they are. */
const wordsOf = (list) => list.split(" ").filter(Boolean);
const tagsOf = (list) => wordsOf(list).map((text) => LanguageTag.parse(text));

const kindOf = (text) => KINDS[made(LanguageTag, text)?.kind ?? "none"];

/** Returns the extensions as they are written. The map has the first one of each singleton. */
function extensionsOf(tag) {
    const { length } = [tag.language, tag.script, tag.region, ...tag.variants].filter(Boolean).join("-");
    const rest = tag.kind === "normal" ? tag.text.slice(length + 1, tag.privateUse && -tag.privateUse.length - 1) : "";
    const written = rest.split(/-(?=.-)/).filter(Boolean), first = new Map(written.map((it) => [it[0].toLowerCase(), it.slice(2)]).reverse());
    assert(first.size === tag.extensions.size && [...tag.extensions].every(([key, subtags]) => subtags.join("-") === first.get(key)), "the map");
    return written;
}

function answerTag(text) {
    const tag = made(LanguageTag, text);
    if (tag === undefined) return "none";
    const languages = [tag.primaryLanguage, ...tag.extendedLanguages];
    assert(tag.language === undefined || tag.language === languages.join("-"), "the language");
    const found = {
        language: tag.language && languages.join(" "), script: tag.script, region: tag.region, variants: tag.variants.join(" ") || undefined,
        extensions: extensionsOf(tag).join(" ") || undefined, private_use: tag.privateUse?.replaceAll("-", " "),
        repeated_variant: tag.repeatedVariant, repeated_singleton: tag.repeatedSingleton,
        recommended: tag.toRecommended(), folded: tag.toFolded(),
    };
    return [KINDS[tag.kind], ...Object.entries(found).filter(([, value]) => value !== undefined).map((pair) => `  ${pair.join(" ")}`)].join("\n");
}

/** Returns the answer as JavaScript gives it: without hashes, offsets of repeats and the number of bytes that are read, and with lowercase keys in a map. */
export const adapted = ({ call, wanted }) =>
    call === "scan" ? wanted.slice(wanted.indexOf(" ") + 1) : call === "keywords" || call === "transform" ? wanted.replace(/\w\w=/g, (key) => key.toLowerCase()) : wanted.replace(/\n  (?:hash|at_\w+) \w+/g, "");

function answerValidity(tag) {
    const wrong = tag.invalidSubtag;
    assert(tag.isValid === (wrong === undefined), "valid");
    if (wrong === undefined) return "valid";
    assert(tag.text.startsWith(wrong.subtag, wrong.start), "the subtag");
    const meant = String(wrong).split(": did you mean ")[1];
    assert(meant === (wrong.suggestion && `${wrong.suggestion}?`), String(wrong));
    return `${wrong.fault} ${wrong.start} ${wrong.subtag}`;
}

function answerCanonical(tag) {
    const form = tag.canonical();
    assert(tag.isCanonical === form.equals(tag) && form.isCanonical, "is canonical");
    return form;
}

function answerGrandfathered(text) {
    const found = made(LanguageTag, text)?.grandfathered;
    assert(found === undefined || found.toLowerCase() === text.toLowerCase(), "grandfathered");
    return `${found === undefined ? 26 : GRANDFATHERED.indexOf(found)} ${kindOf(text)}`;
}

/** Returns how many prefixes are tags, and the kind of the text with the ends of its parts. */
function answerScan(text) {
    const tag = made(LanguageTag, text);
    let fronts = 0;
    for (let end = 0; end <= text.length; end++) fronts += LanguageTag.canParse(text.slice(0, end)) ? 1 : 0;
    const what = [fronts, kindOf(text)];
    if (tag?.kind === "irregular") what.push(GRANDFATHERED.indexOf(tag.grandfathered));
    if (tag?.kind === "normal") {
        what.push(tag.language.length);
        for (const part of [tag.script, tag.region, tag.variants.join("-"), extensionsOf(tag).join("-"), tag.privateUse]) what.push(what.at(-1) + (part ? 1 + part.length : 0));
    }
    return what.join(" ");
}

function answerMatch(rangeText, tagText) {
    const range = made(LanguageRange, rangeText), tag = made(LanguageTag, tagText);
    const how = (it) => (range ? `${range.matchesBasic(it)},${range.matchesExtended(it)}` : "false,false");
    return { "true,true": "both", "true,false": "basic", "false,true": "extended", "false,false": "neither" }[alike(how(tagText), how(tag ?? tagText))];
}

function answerOrder(one, other) {
    const tags = [made(LanguageTag, one), made(LanguageTag, other)];
    if (tags.includes(undefined)) {
        const ranges = [made(LanguageRange, one), made(LanguageRange, other)];
        return ranges.includes(undefined) ? undefined : ranges[0].equals(ranges[1]) ? "equal" : undefined;
    }
    const order = LanguageTag.compare(...tags);
    assert(alike(tags[0].equals(tags[1]), tags[0].equals(other)) === shown(order === 0) && LanguageTag.compare(tags[1], tags[0]) === 0 - order, "order and equality");
    return { "-1": "before", 0: "equal", 1: "after" }[order];
}

function answerHeader(header, list) {
    const tags = tagsOf(list), { ranges } = AcceptLanguage.lenient(header);
    const error = refusal(AcceptLanguageError, () => tagForHeader(header, tags));
    assert(!error || (error.header === header && error.message.startsWith(`element ${error.index + 1} at offset ${error.offset} has a bad ${error.part}: \`${header.split(",")[error.index].match(/^[ \t]*([\w-]*)/)[1].slice(0, 80)}`)), "the error");
    const strict = error ? `bad ${error.index} ${error.offset} ${error.part.replace("language ", "")}` : shown(tagForHeader(header, tags));
    const lenient = alike(tagForHeaderLenient(header, tags), tagForHeaderLenient(header, new Set(wordsOf(list))), lookUp(ranges.map((it) => it.range), tags));
    return `${strict} | ${lenient}`;
}

/** Returns the ranges of a header by descending weight and, if an element is malformed, before them the error. */
function answerElements(header) {
    const said = ({ ranges }) => shown(ranges.map(({ range, weight }) => `${range} ${weight}`));
    const lenient = said(AcceptLanguage.lenient(header)), error = refusal(AcceptLanguageError, () => AcceptLanguage.parse(header));
    return error ? `element ${error.index} has a bad ${error.part} | ${lenient}` : alike(lenient, said(AcceptLanguage.parse(header)));
}

function answerRefused(text) {
    const [answer, start, length, offset] = calls.refused(text);
    if (answer > 0) {
        const error = refusal(InvalidTag, () => LanguageTag.parse(text));
        assert(error.message.endsWith(`: ${error.reason}`) && error.start === start && error.offset === offset && error.subtag === (answer < 3 ? text.slice(start, start + length) : undefined), "the error");
    }
    return `${["none", "subtag", "byte", "end"][answer]} ${start} ${length} ${offset}`;
}

/** Returns the text whose bytes in UTF-8 a row has, or undefined if they are not UTF-8. */
function decoded(bytes) {
    try {
        return new TextDecoder("utf-8", { fatal: true }).decode(Uint8Array.from(bytes, (byte) => byte.charCodeAt(0)));
    } catch {
        return undefined;
    }
}

/** Returns a text as the rows have it: its bytes beyond ASCII as \xNN. */
const escaped = (text) => [...new TextEncoder().encode(text)].map((byte) => (byte < 0x80 ? String.fromCharCode(byte) : `\\x${byte.toString(16)}`)).join("");

/** Returns a function that returns the message with which a type refuses a string, or undefined for bytes that are no string. */
const messageOf = (type) => (bytes) => {
    const text = decoded(bytes), error = text === undefined ? undefined : refusal(RangeError, () => type.parse(text));
    return error && escaped(error.message).replace(/[\\{}](?!x[89a-f])/g, (it) => `\\x${it.charCodeAt(0).toString(16)}`);
};

function answerUnknownModifier(bytes) {
    const name = decoded(bytes);
    return name === undefined ? undefined : escaped(shown(unknownModifier(name)));
}

/** Returns what a call chooses among strings, and what it chooses among tags. */
const among = (call, list) => [call(wordsOf(list)), call(tagsOf(list))];

function answerBest(header, list) {
    const byRanges = header.includes(";") ? [] : [bestForRanges(header.split(","), wordsOf(list))];
    return alike(...among((tags) => bestForHeader(header, tags), list), new Site(wordsOf(list)).bestForHeader(header), ...byRanges);
}

function answerBestRanges(ranges, list) {
    const wanted = wordsOf(ranges);
    return alike(...among((tags) => bestForRanges(wanted, tags), list), new Site(wordsOf(list)).bestForRanges(wanted),
        bestForRanges(wanted.map((it) => made(LanguageRange, it) ?? it), wordsOf(list)));
}

function answerBestMatch(header, list) {
    const texts = wordsOf(list), [found, again] = among((tags) => matchForHeader(header, tags), list);
    assert(found?.tag === bestForHeader(header, texts), "the best tag");
    assert(JSON.stringify(new Site(texts).matchForHeader(header)) === JSON.stringify(found), "the match of a site");
    return alike(...[found, again].map((it) => it && `${it.index} ${it.distance} ${it.range}`));
}

function edited(tag, part, value) {
    const error = refusal(EditError, () => tag.with({ [part]: value }));
    if (!error) return String(tag.with({ [part]: value }));
    assert(error.part === part && (error.text === undefined) === (tag.kind !== "normal"), "the error");
    return error.text === undefined ? "no parts" : "refused";
}

/** Sets the part by a text, and variants also by a list. */
function answerEdit(text, name, given) {
    const tag = LanguageTag.parse(text), part = name === "private_use" ? "privateUse" : name;
    const found = edited(tag, part, given === "none" ? null : given);
    assert(part !== "variants" || edited(tag, part, given === "" ? [] : given.split("-")) === found, "variants as a list");
    assert(tag.text === text, "the tag stays");
    return found;
}

function withKeywords(tag, key, value, keywords) {
    const error = refusal(EditError, () => tag.with({ keywords }));
    if (!error) return String(tag.with({ keywords }));
    assert(error.text === undefined || error.message.includes(`\` is not a ${error.part} of `), error.message);
    assert(error.text === { key, value, keywords: undefined }[error.part], "its text");
    return { key: "bad key", value: "bad value", keywords: "no parts" }[error.part];
}

/** Sets the keyword by a Map, and by an object together with two other keywords, which must not change what is refused. */
function answerWithKeyword(text, key, given) {
    const tag = LanguageTag.parse(text), value = given === "-" ? null : given;
    const found = withKeywords(tag, key, value, new Map([[key, value]]));
    const more = withKeywords(tag, key, value, { "0a": "before", [key]: value, "0b": "" });
    assert(tag.text === text, "the tag stays");
    if (LanguageTag.canParse(found) && value !== null) {
        assert(LanguageTag.parse(more).equals(LanguageTag.parse(found).with({ keywords: { "0a": "before", "0b": "" } })), "with other keywords");
        assert(LanguageTag.parse(found).keyword(key) === value, "the value");
    } else if (value !== null) {
        assert(more === found || more === "no parts", "the refusal with other keywords");
    }
    return found;
}

/** Returns the form of a tag, which has to be its own form. */
function formed(tag, call) {
    const form = call(tag);
    assert(form === undefined || call(form).text === form.text, "the form of the form");
    return form;
}

function answerLocaleForm(tag) {
    const form = formed(tag, (it) => it.localeForm());
    assert(form === undefined ? !tag.isLocale : form.isLocale, "a locale has a form");
    return form;
}

const told = (pairs) => [...pairs].map(([key, value]) => `${key}=${value}`);

function answerKeywords(tag) {
    const pairs = tag.keywords;
    for (const [key, value] of pairs) assert(tag.keyword(key) === value, "each by its key");
    return told(pairs);
}

const answerTransform = ({ transform }) => transform && [transform.language ?? "''", ...told(transform.fields)];

/** Returns a function that returns the name for a tag, which has to be that for its string. */
const answerName = (call) => ofTag((tag) => escaped(alike(call(tag), call(tag.text))));

/** The answers of a tag's methods and getters, each by its name without `is`, and with hyphens. */
const named = Object.entries(Object.getOwnPropertyDescriptors(LanguageTag.prototype)).map(([name, { get }]) => [
    name.replace(/^is(?=[A-Z])/, "").replace(/\B[A-Z]/g, "-$&").toLowerCase(), ofTag((tag, ...more) => (get ? tag[name] : tag[name](...more)))]);

export const answers = {
    ...Object.fromEntries(named),
    describe: answerName(describe), autonym: answerName(autonym), "cldr-version": () => CLDR_VERSION,
    "with-keyword": answerWithKeyword, "extensions-form": ofTag((tag) => formed(tag, (it) => it.extensionsForm())),
    "is-locale": ofTag((tag) => tag.isLocale, "no"), "locale-form": ofTag(answerLocaleForm),
    keywords: ofTag(answerKeywords), transform: ofTag(answerTransform),
    tag: answerTag, scan: answerScan, recommended: (text) => made(LanguageTag, text)?.toRecommended().text, validity: ofTag(answerValidity, "none"),
    suggestion: ofTag((tag) => tag.invalidSubtag?.suggestion), canonical: ofTag(answerCanonical), grandfathered: answerGrandfathered,
    range: (text) => ({ true: "basic", false: "extended", undefined: "none" })[made(LanguageRange, text)?.isBasic],
    match: answerMatch, order: answerOrder, refused: answerRefused,
    fault: ofTag((tag) => String(tag.invalidSubtag ?? "valid").split(": did")[0]),
    message: messageOf(LanguageTag), "range-message": messageOf(LanguageRange),
    posix: (name) => shown(LanguageTag.fromPosix(name)), "posix-name": ofTag((tag) => tag.toPosix()), "unknown-modifier": answerUnknownModifier,
    maximized: ofTag((tag) => tag.maximize()), minimized: ofTag((tag) => tag.minimize()),
    distance: (desired, supported) => shown(made(LanguageTag, desired) && made(LanguageTag, supported) && distance(LanguageTag.parse(desired), supported)),
    "resolved-locale": (range, tag) => shown(made(LanguageTag, tag) && resolvedLocale(range, tag)),
    best: answerBest, "best-ranges": answerBestRanges, "best-match": answerBestMatch,
    "best-accepted": (header, list) => alike(...among((tags) => AcceptLanguage.lenient(header).best(tags), list)),
    suitable: (header, list) => alike(...among((tags) => suitableForHeader(header, tags), list), suitableForHeader(header, new Site(wordsOf(list)).tags)),
    "suitable-ranges": (ranges, list) => alike(...among((tags) => suitableForRanges(wordsOf(ranges), tags), list), suitableForRanges(wordsOf(ranges), new Site(wordsOf(list)).tags)),
    header: answerHeader, elements: answerElements, ranges: (ranges, list) => shown(lookUp(wordsOf(ranges), tagsOf(list))),
    fallbacks: (text) => shown(Array.from(made(LanguageRange, text)?.fallbacks() ?? ["refused"])), edit: answerEdit,
};
