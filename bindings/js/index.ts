/**
 * Parses, compares, edits and matches language tags (BCP 47: RFC 5646, RFC 4647), and picks the best language for an Accept-Language
 * header.
 *
 *     const tag = LanguageTag.parse("zh-yue-Hant-HK-u-co-pinyin-x-mine");
 *     [tag.primaryLanguage, tag.script, tag.region];                              // ["zh", "Hant", "HK"]
 *     tag.extensions.get("u");                                                    // ["co", "pinyin"]
 *     tag.equals("ZH-YUE-hant-hk-U-CO-pinyin-x-MINE");                            // true
 *     bestForHeader("zh-TW,zh;q=0.9,en;q=0.8", ["en", "zh-Hans", "zh-Hant"]);     // "zh-Hant"
 *
 * Offsets and lengths count UTF-16 code units, as in JavaScript's strings. `isValid`, `invalidSubtag`, `isCanonical`, `canonical`,
 * `localeForm`, `describe` and `autonym` use the IANA registry. Of the registry, other calls use at most the extended languages and the
 * list of replaced tags, such as i-klingon. Functions that take a tag or a range also accept a string. An invalid string throws
 * `InvalidTag` or `InvalidRange`, and any other value throws a `TypeError`.
 */

import * as calls from "./calls.js";
import { prepareSite } from "./memory.js";
// @ts-ignore: `build` makes it
import * as built from "./module.js";
// @ts-ignore: `build` makes it
import { INDEX, PAIRS, ROWS } from "./names.js";

/** A string, or an object with a `text`, such as a tag or a range, also from another copy of this module or from `structuredClone`. */
export type Text = string | { readonly text: string };

/** The value of an Accept-Language header. For a request without the header, Node has undefined and fetch has null; both are read as an
 * empty header. */
export type Header = string | null | undefined;

/** The kinds of tags (RFC 5646 section 2.1). Regular grandfathered tags, such as zh-min-nan, are normal. */
export type Kind = "normal" | "private-use" | "irregular";

/** What is wrong with a subtag: it is not registered, it is a second extended language, or it is repeated. */
export type Fault =
    | "language" | "extlang" | "second-extlang" | "script" | "region" | "variant" | "repeated-variant" | "repeated-singleton";

/** Tags or ranges, in any iterable but a string. */
export type List<Item> = Iterable<Item> & object;

/** The subtags of an extension: "co-pinyin", or ["co", "pinyin"]. */
export type Subtags = string | Iterable<string>;

/** A key of the extension u and its new value: ["ca", "buddhist"]. null removes the key. */
export type KeywordPair = readonly [key: string, value: string | null | undefined];

/** The parts that `with` changes. A part that is undefined stays as it is, and null removes the part. */
export interface Parts {
    /** The primary language with its extended languages, such as zh-yue. */
    language?: string | undefined;
    script?: string | null | undefined;
    region?: string | null | undefined;
    variants?: Subtags | null | undefined;
    /** "u-co-pinyin", or the subtags of each singleton: { u: ["co", "pinyin"] }, or a Map. */
    extensions?: string | Iterable<readonly [string, Subtags]> | { [singleton: string]: Subtags } | null | undefined;
    /** The private-use part with its x, such as x-mine. */
    privateUse?: string | null | undefined;
    /**
     * The values of keys of the extension u: { ca: "buddhist", nu: null }, or a Map. Keys that are not named stay, null removes a key, and
     * "" means true. They are set one after another, after all other parts. A new key is put before the first greater key.
     */
    keywords?: readonly KeywordPair[] | Iterable<KeywordPair> | { [key: string]: string | null | undefined } | undefined;
}

/** The extension t (RFC 6497 section 2.2). */
export interface Transform {
    /** The language of the string before it was transformed, such as ja-latn. */
    readonly language: string | undefined;
    /** The value of each field, by lowercase keys such as m0. */
    readonly fields: Map<string, string>;
}

/** A range of a header, and its weight in thousandths, from 1 to 1000. */
export interface WeightedRange {
    readonly range: LanguageRange;
    readonly weight: number;
}

/** The best tag for a header: what `matchForHeader` returns. */
export interface BestMatch<Tag> {
    /** The index of the tag in the list. */
    readonly index: number;
    /** The tag, as it is in the list. */
    readonly tag: Tag;
    /** The distance from the range to the tag, as `distance` returns it. If it is 50 or more, only lookup found the tag. */
    readonly distance: number;
    /** The range that the tag serves, as it is written in the header. */
    readonly range: string;
}

/** The 26 grandfathered tags in their registered spelling (RFC 5646 section 2.1). The first seventeen are irregular. */
export const GRANDFATHERED: readonly string[] = Object.freeze([
    "en-GB-oed", "i-ami", "i-bnn", "i-default", "i-enochian", "i-hak", "i-klingon", "i-lux", "i-mingo", "i-navajo", "i-pwn",
    "i-tao", "i-tay", "i-tsu", "sgn-BE-FR", "sgn-BE-NL", "sgn-CH-DE", "art-lojban", "cel-gaulish", "no-bok", "no-nyn",
    "zh-guoyu", "zh-hakka", "zh-min", "zh-min-nan", "zh-xiang",
]);

/** The date of the IANA registry inside this library, in a form like "2025-01-31". */
export const REGISTRY_DATE: string = String(calls.registryDate()).replace(/(....)(..)(..)/, "$1-$2-$3");

/** The version of Unicode's CLDR from which likely subtags, distances and aliases come, such as "48.2". */
export const CLDR_VERSION: string = calls.cldrVersion();


const KINDS: any[] = [undefined, "normal", "private-use", "irregular"];
const PARTS = ["language", "script", "region", "variants", "extensions", "privateUse"];
const FAULTS = [
    "language", "extlang", "second-extlang", "script", "region", "variant", "repeated-variant", "repeated-singleton",
];

// The characters that messages escape: those that are control characters, are invisible, or change the direction of the string. They are
// Unicode's categories Cc, Cf, Zl, Zp and Zs (except for the space), and the property Default_Ignorable_Code_Point. All languages have this
// list. Surrogates are escaped, too.
const ESCAPED =
    /[\\`\0-\x1f\x7f-\xa0\xad\u034f\u0600-\u0605\u061c\u06dd\u070f\u0890-\u0891\u08e2\u115f-\u1160\u1680\u17b4-\u17b5\u180b-\u180f\u2000-\u200f\u2028-\u202f\u205f-\u206f\u3000\u3164\ufe00-\ufe0f\ufeff\uffa0\ufff0-\ufffb\u{110bd}\u{110cd}\u{13430}-\u{1343f}\u{1bca0}-\u{1bca3}\u{1d173}-\u{1d17a}\u{e0000}-\u{e0fff}]|\p{Surrogate}/gu;
const ESCAPES = { "\t": "\\t", "\n": "\\n", "\r": "\\r", "\\": "\\\\", "`": "\\`" };

/** Returns a string as a message shows it: in backticks, with escapes, and only its first 80 characters if it is long. */
function quoted(text) {
    const characters = [...text.slice(0, 161)]; // at least 81 characters, if there are so many
    const shown = characters.slice(0, 80).join("").replace(ESCAPED, (it) => ESCAPES[it] ?? `\\u{${it.codePointAt(0)!.toString(16)}}`);
    return `\`${shown}${characters.length > 80 ? "..." : ""}\``;
}

/** Returns a string without the spaces and tabs around it. */
function withoutSpaces(text) {
    let start = 0, end = text.length;
    while (start < end && " \t".includes(text[start])) start++;
    while (start < end && " \t".includes(text[end - 1])) end--;
    return text.slice(start, end);
}

/** Returns the type of a value as an error message names it. */
const typeName = (value) => (value === null ? "null" : typeof value);

/** Returns a string itself, or the text of an object, such as a tag, also of another copy of this module or made by
 * structuredClone. */
function textOf(value, expected = "a string or a LanguageTag") {
    const text = typeof value === "object" && value !== null ? value.text : value;
    if (typeof text === "string") return text;
    throw new TypeError(`expected ${expected}, got ${typeName(value)}`);
}

/** Returns a list of tags or ranges. A single string is refused, since its letters would be read as the elements. */
function several(values, what) {
    if (typeof values?.[Symbol.iterator] !== "function" || typeof values === "string") throw new TypeError(`expected a list of ${what}, got ${typeName(values)}`);
    return values;
}

/** Returns the text of a header. A request without the header, for which Node has undefined and fetch has null, gives the empty
 * text. */
const headerText = (header) => textOf(header ?? "", "a string");

/** Returns an error. Its constructor is private, because only this module makes errors. */
const refusal = (type: any, ...given: unknown[]): RangeError => new type(...given);

/** Thrown if a string is not a language tag. */
export class InvalidTag extends RangeError {
    declare readonly text: string;
    /** The wrong subtag: DE in de-419-DE, de_CH in de_CH. It is undefined if the string ends too soon. */
    declare readonly subtag: string | undefined;
    /** Where the subtag begins, or the end of a string that ends too soon. */
    declare readonly start: number;
    /** The offset to point at: the start of the subtag, or its first character that is neither a letter nor a digit. */
    declare readonly offset: number;
    /** What is wrong, without the string. */
    declare readonly reason: string;
    private constructor(text) {
        const [answer, start, length, offset] = calls.refused(text);
        const subtag = answer < 3 ? text.slice(start, start + length) : undefined;
        const reason = answer === 1 ? (subtag === "" ? "empty subtag" : `unexpected subtag ${quoted(subtag)}`) :
            answer === 2 ? `invalid character ${quoted(String.fromCodePoint(text.codePointAt(offset)))}: expected a letter, a digit or a hyphen` :
            "unexpected end: expected a subtag";
        super(`invalid language tag ${quoted(text)}: ${reason}`);
        Object.assign(this, { text, subtag, start, offset, reason });
    }
}

/** Thrown if a string is not a language range. */
export class InvalidRange extends RangeError {
    declare readonly text: string;
    private constructor(text) {
        super(`invalid language range ${quoted(text)}`);
        Object.assign(this, { text });
    }
}

/**
 * Thrown if a part or a keyword cannot be changed. `part` names the part that is malformed, and `text` is its string, or undefined if the
 * tag is not a normal tag. For keywords, `part` is "keywords", or the "key" or "value" that is wrong.
 */
export class EditError extends RangeError {
    declare readonly part: keyof Parts | "key" | "value";
    declare readonly text: string | undefined;
    private constructor(part, text?) {
        const message = text === undefined ? "not a normal language tag" :
            part === "key" ? `${quoted(text)} is not a key of the extension u` :
            part === "value" ? `${quoted(text)} is not a value of a key: a subtag needs three to eight letters or digits` :
            part === "language" && text === "" ? "the language cannot be removed" :
            `invalid ${part === "privateUse" ? "private use" : part} ${quoted(text)}`;
        super(message);
        Object.assign(this, { part, text });
    }
}

/** Thrown if a header has a malformed element. `index` is the number of commas before the element, `offset` is where it begins, and `part`
 * says what is malformed. */
export class AcceptLanguageError extends RangeError {
    declare readonly header: string;
    declare readonly index: number;
    declare readonly offset: number;
    declare readonly part: "language range" | "weight";
    private constructor(header, index, offset, part) {
        const end = header.indexOf(",", offset), element = withoutSpaces(header.slice(offset, end < 0 ? header.length : end));
        super(`element ${index + 1} at offset ${offset} has a bad ${part}: ${quoted(element)}`);
        Object.assign(this, { header, index, offset, part });
    }
}

for (const [name, type] of Object.entries({ InvalidTag, InvalidRange, EditError, AcceptLanguageError })) {
    Object.defineProperty(type.prototype, "name", { value: name });
}

const HOW = { "second-extlang": "is the second", "repeated-variant": "is repeated", "repeated-singleton": "is repeated" };

/** The first subtag that makes a tag invalid. `toString` returns a message: "variant 1996 is repeated". */
class InvalidSubtag {
    declare readonly fault: Fault;
    declare readonly subtag: string;
    /** Where the subtag begins. */
    declare readonly start: number;
    /** The registered code that was probably meant, according to CLDR's aliases: "de" for the language ger, "GB" for the region UK. */
    declare readonly suggestion: string | undefined;

    constructor(answer: number, subtag: string, start: number) {
        const suggestion = calls.suggestion(answer, subtag) || undefined;
        Object.freeze(Object.assign(this, { fault: FAULTS[answer - 2], subtag, start, suggestion }));
    }

    toString(): string {
        const kind = this.fault.replace("extlang", "extended language").replace(/^(second|repeated)-/, "");
        const meant = this.suggestion ? `: did you mean ${this.suggestion}?` : "";
        return `${kind} ${this.subtag} ${HOW[this.fault] ?? "is not registered"}${meant}`;
    }
}
export type { InvalidSubtag };

/**
 * Returns the text to which a part is set. null and an empty list remove the part. A list of one empty subtag becomes "-", which is
 * not a part, so it is refused.
 */
function partText(value) {
    if (value === null) return "";
    if (typeof value === "string") return value;
    if (typeof value !== "object") throw new TypeError(`expected a string, a list or null for a part, got ${typeName(value)}`);
    const members = Symbol.iterator in value ? [...value] : Object.entries(value);
    if (members.length === 0) return "";
    const texts = members.map((member) => {
        if (typeof member === "string") return member;
        const [singleton, subtags] = member;
        return [singleton, ...(typeof subtags === "string" ? [subtags] : subtags)].join("-");
    });
    return texts.join("-") || "-";
}

/** Returns the tag with the value of a key, or without the key if the value is undefined, or "" if the library refuses them. */
const withKeyword = (tag, key, value?) => (value === undefined ? calls.withoutKeyword(tag, key) : calls.withKeyword(tag, key, value));

/** Returns the keys and values of keywords as a list of pairs, without the keys whose value is undefined. */
function keywordPairs(value) {
    if (typeof value !== "object" || value === null) throw new TypeError(`expected a Map or an object of keywords, got ${typeName(value)}`);
    const pairs = [...(Symbol.iterator in value ? value : Object.entries(value))];
    for (const pair of pairs) {
        const isPair = Array.isArray(pair) && [pair[0], pair[1] ?? ""].every((text) => typeof text === "string");
        if (!isPair) throw new TypeError("expected a string as the key of a keyword, and a string or null as its value");
    }
    return pairs.filter(([, text]) => text !== undefined);
}

/** A well-formed language tag (RFC 5646 section 2.1). It is immutable, and JSON.stringify writes its text. */
export class LanguageTag {
    /** The tag as it was given. */
    declare readonly text: string;
    #parsed: number[]; // the number of the kind, and the offset and length of each part

    /** Parses a tag; throws InvalidTag if the string is not a tag. */
    constructor(given: Text) {
        const text = textOf(given);
        const found = calls.parse(text);
        if (found[0] === 0) throw refusal(InvalidTag, text);
        this.text = text;
        this.#parsed = found;
        Object.freeze(this);
    }

    /** Parses a tag; throws InvalidTag if the string is not a tag. */
    static parse(text: Text): LanguageTag {
        return new LanguageTag(text);
    }

    /** Returns whether a string is a tag. */
    static canParse(text: Text): boolean {
        return calls.kind(textOf(text)) !== 0;
    }

    /** Returns the tag made of these parts; throws EditError if a part is malformed. */
    static from(parts: Parts & { language: string }): LanguageTag {
        if (parts.language === undefined) throw new TypeError("expected a language, got undefined");
        return new LanguageTag("und").with(parts);
    }

    /**
     * Returns the tag for a POSIX locale name, or undefined if there is none: pt_BR.UTF-8 becomes pt-BR. Names as Java, Android, .NET, ICU
     * and Apple's systems write them are read, too: zh-rTW becomes zh-TW. A modifier that is not known is dropped; `unknownModifier` returns it.
     */
    static fromPosix(name: string): LanguageTag | undefined {
        const made = calls.fromPosix(textOf(name));
        return made === "" ? undefined : new LanguageTag(made);
    }

    /**
     * Compares two tags, ignoring case, for `sort`: returns -1, 0 or 1. A tag sorts after every longer tag that begins with it: zh sorts
     * after zh-Latn. For alphabetical order, sort by `toFolded`.
     */
    static compare(this: void, one: Text, other: Text): -1 | 0 | 1 {
        return calls.cmp(tagOf(one).text, tagOf(other).text);
    }

    #at(offset?, length?) {
        return this.text.slice(offset, offset + length);
    }

    /** Returns the text of the part with a number, or "" if the part is absent. */
    #part(part) {
        return this.#at(this.#parsed[2 * part + 1], this.#parsed[2 * part + 2]);
    }

    #subtags(part) {
        const text = this.#part(part);
        return text === "" ? [] : text.split("-");
    }

    get kind(): Kind {
        return KINDS[this.#parsed[0]];
    }

    /** The primary language with its extended languages, such as zh-yue. */
    get language(): string | undefined {
        return this.#part(0) || undefined;
    }

    /** The primary language only, such as zh. */
    get primaryLanguage(): string | undefined {
        return this.#subtags(0)[0];
    }

    get extendedLanguages(): string[] {
        return this.#subtags(0).slice(1);
    }

    get script(): string | undefined {
        return this.#part(1) || undefined;
    }

    get region(): string | undefined {
        return this.#part(2) || undefined;
    }

    get variants(): string[] {
        return this.#subtags(3);
    }

    /** The subtags of each extension by its lowercase singleton. If a singleton is repeated, the first one counts. */
    get extensions(): Map<string, string[]> {
        const found = new Map();
        let subtags;
        for (const subtag of this.#subtags(4)) {
            if (subtag.length > 1) {
                subtags.push(subtag);
                continue;
            }
            subtags = [];
            if (!found.has(subtag.toLowerCase())) found.set(subtag.toLowerCase(), subtags);
        }
        return found;
    }

    /**
     * Returns the value of a key of the extension u (RFC 6067), ignoring case, or undefined if the key is absent: islamic-civil for
     * ca in ar-u-ca-islamic-civil. The value is "" if the key has none, which means true. If a key is repeated, the first one counts.
     */
    keyword(key: string): string | undefined {
        const found = calls.keyword(this.text, textOf(key));
        return found && this.#at(...found);
    }

    /** The keywords of the extension u, by lowercase keys. If a key is repeated, the first one counts. */
    get keywords(): Map<string, string> {
        return this.#mapOf(calls.everyKeyword(this.text));
    }

    /** The attributes of the extension u, which come before its first key. A repeated attribute is returned once. */
    get attributes(): string[] {
        const found = new Map<string, string>();
        for (const attribute of this.#at(...(calls.attributes(this.text) ?? [0, 0])).split("-")) {
            const key = attribute.toLowerCase();
            if (key !== "" && !found.has(key)) found.set(key, attribute);
        }
        return [...found.values()];
    }

    /** The extension t (RFC 6497), or undefined if the tag has none. */
    get transform(): Transform | undefined {
        const language = calls.transform(this.text);
        if (language === undefined) return undefined;
        return { language: this.#at(...language) || undefined, fields: this.#mapOf(calls.everyField(this.text)) };
    }

    /** Returns a map from lowercase keys to values. Each key occurs once in the list. */
    #mapOf(pairs): Map<string, string> {
        return new Map(pairs.map(([start, length, ...value]) => [this.#at(start, length).toLowerCase(), this.#at(...value)]));
    }

    /** The private-use part with its x, such as x-mine. For a private-use tag it is the whole string. */
    get privateUse(): string | undefined {
        return this.#part(5) || undefined;
    }

    /** The registered spelling if the tag is grandfathered (ignoring case), otherwise undefined. */
    get grandfathered(): string | undefined {
        return GRANDFATHERED[calls.grandfathered(this.text)];
    }

    /** The first variant that equals an earlier one, ignoring case. Such a tag is well-formed but not valid. */
    get repeatedVariant(): string | undefined {
        return this.#at(...calls.repeats(this.text).slice(1, 3)) || undefined;
    }

    /** The first singleton that equals an earlier one, ignoring case. Such a tag is well-formed but not valid. */
    get repeatedSingleton(): string | undefined {
        return this.#at(...calls.repeats(this.text).slice(3)) || undefined;
    }

    /** Whether the tag is valid (RFC 5646 section 2.2.9) according to the registry of REGISTRY_DATE. Deprecated subtags are valid. */
    get isValid(): boolean {
        return calls.validity(this.text)[0] === 1;
    }

    /** The first subtag that makes the tag invalid, or undefined if it is valid. */
    get invalidSubtag(): InvalidSubtag | undefined {
        const [answer, start, length] = calls.validity(this.text);
        return answer > 1 ? new InvalidSubtag(answer, this.#at(start, length), start) : undefined;
    }

    /** Whether the tag equals its canonical form, ignoring case. */
    get isCanonical(): boolean {
        return calls.isCanonical(this.text);
    }

    /** Returns the canonical form (RFC 5646 section 4.5) in the recommended case, according to the registry of REGISTRY_DATE: iw becomes he. */
    canonical(): LanguageTag {
        return new LanguageTag(calls.canonical(this.text));
    }

    /**
     * Returns the tag with its likely subtags (UTS #35): zh-TW becomes zh-Hant-TW. Deprecated subtags stay, and get the
     * likely subtags of their replacements: iw becomes iw-Hebr-IL. To replace them, call localeForm first.
     */
    maximize(): LanguageTag {
        return new LanguageTag(calls.maximized(this.text));
    }

    /** Returns the tag without its likely subtags (UTS #35): zh-Hant-TW becomes zh-TW. */
    minimize(): LanguageTag {
        return new LanguageTag(calls.minimized(this.text));
    }

    /** Whether the tag is written from right to left, by its script or its likely script: true for he, pa-PK and az-Arab. */
    get isRightToLeft(): boolean {
        return calls.isRightToLeft(this.text);
    }

    /** Returns the tag in the case that RFC 5646 section 2.1.1 recommends: zh-hant-tw becomes zh-Hant-TW. */
    toRecommended(): LanguageTag {
        return new LanguageTag(calls.recommend(this.text));
    }

    /** Returns the string in lowercase, which is the same for all equal tags. */
    toFolded(): string {
        return calls.fold(this.text);
    }

    /**
     * Returns the tag with its extensions u and t in canonical form (UTS #35, part 1, Annex C): de-u-nu-thai-ca-roc becomes
     * de-u-ca-roc-nu-thai. A repeated key keeps only its first value. The rest of the tag stays.
     */
    extensionsForm(): LanguageTag {
        return new LanguageTag(calls.extensionsForm(this.text));
    }

    /** The tag without extensions and private use, as baseName of Intl.Locale: de-CH for de-CH-u-co-phonebk. It keeps its case. */
    get base(): LanguageTag {
        return new LanguageTag(this.#at(0, calls.baseLen(this.text)));
    }

    /**
     * Returns the POSIX locale name for the tag, or undefined if no name expresses the whole tag: sr_RS@latin for sr-Latn-RS, zh_TW for
     * zh-Hant-TW. A likely script is left out. Add the codeset yourself, as in zh_TW.UTF-8. `fromPosix` reads the name.
     */
    toPosix(): string | undefined {
        return calls.toPosix(this.text) || undefined;
    }

    /**
     * The parent of the tag in CLDR, which a catalogue of strings asks next, or undefined if there is none: pt-PT for pt-AO, zh-Hant for zh-TW.
     * If CLDR lists the language and does not replace the region (CLDR replaces UK), the parent is written in the same script. So zh-Hant has
     * none: zh is Simplified.
     */
    get parent(): LanguageTag | undefined {
        const parent = calls.parent(this.text);
        return parent === "" ? undefined : new LanguageTag(parent);
    }

    /**
     * The tag and its parents, in the order in which to search a catalogue: zh-Hans-CN, zh-CN, zh-Hans and zh. All tags are written in the
     * same script if CLDR lists the language and does not replace the region (CLDR replaces UK).
     *
     * A likely script is removed first, and comes back just before the language alone. Then extensions and private use are removed, and then
     * each variant, from the last to the first. Then the region is replaced or removed, and the variants come back: ca-ES-valencia, ca-ES,
     * ca-valencia and ca. es-rUS, as Android writes es-US, is followed by es-US and its parents.
     *
     * If a catalogue's folders name scripts, such as zh-Hans, ask for the parents of `maximize()`, which names the script of zh-CN. CLDR does
     * not list replaced codes such as iw and cmn, nor extended languages: ask for the parents of `localeForm()`.
     */
    get parents(): LanguageTag[] {
        const found: LanguageTag[] = [this];
        for (let text; (text = calls.nthParent(this.text, found.length)) !== ""; ) found.push(new LanguageTag(text));
        return found;
    }

    /** Whether the tag is a Unicode locale identifier (UTS #35), as Intl requires: false for zh-yue, i-klingon and x-a. */
    get isLocale(): boolean {
        return calls.isLocale(this.text);
    }

    /**
     * Returns the canonical form of a Unicode locale identifier (UTS #35, part 1, Annex C): eng becomes en, and ger-UK
     * becomes de-GB. A tag that is not such an identifier is first replaced according to the registry of REGISTRY_DATE: zh-yue becomes yue.
     * If the result is not such an identifier, either, returns undefined: x-a, i-default.
     */
    localeForm(): LanguageTag | undefined {
        const form = calls.localeForm(this.text);
        return form === "" ? undefined : new LanguageTag(form);
    }

    /** Returns the tag with other parts; throws EditError if a part is malformed, or the tag is not a normal tag. */
    with(parts: Parts): LanguageTag {
        for (const name of Object.keys(parts)) {
            if (!PARTS.includes(name) && name !== "keywords") throw new TypeError(`a tag has no part ${quoted(name)}`);
        }
        let tag: LanguageTag = this;
        PARTS.forEach((name, part) => {
            if (parts[name] !== undefined) tag = tag.#withPart(part, parts[name]);
        });
        const keywords = parts.keywords === undefined ? [] : keywordPairs(parts.keywords);
        for (const [key, value] of keywords) tag = tag.#withKeyword(key, value ?? undefined);
        return tag;
    }

    #withPart(part, value) {
        if (this.#parsed[0] !== 1) throw refusal(EditError, PARTS[part]);
        const text = partText(value);
        const isList = part === 3 || part === 4;
        const made = text === "" && value !== null && !isList ? "" : calls.withPart(this.text, part, text);
        if (made === "") throw refusal(EditError, PARTS[part], text);
        return new LanguageTag(made);
    }

    #withKeyword(key, value) {
        const made = withKeyword(this.text, key, value);
        if (made !== "") return new LanguageTag(made);
        // Each keyword can be set in und. So if the library refuses to set it there, too, the key or the value is wrong.
        if (withKeyword("und", key) === "") throw refusal(EditError, "key", key);
        if (value !== undefined && withKeyword("und", key, value) === "") throw refusal(EditError, "value", value);
        throw refusal(EditError, "keywords");
    }

    /** Returns whether this tag equals another tag or a string, ignoring case. */
    equals(other: Text): boolean {
        return calls.eq(this.text, textOf(other));
    }

    toString(): string {
        return this.text;
    }

    toJSON(): string {
        return this.text;
    }

    // Intl reads an object as a list of locales. As a list, a tag contains only itself.
    /** 1, because Intl takes an object as a list of locales: `new Intl.NumberFormat(tag)` formats for the tag. */
    get length(): 1 {
        return 1;
    }

    /** The string of the tag, as the only locale of that list. */
    get 0(): string {
        return this.text;
    }
}

const tagOf = (value) => (value instanceof LanguageTag ? value : new LanguageTag(value));

/** A language range, basic or extended (RFC 4647 section 2): de-CH, *, *-CH, de-*-DE. JSON.stringify writes its text. */
export class LanguageRange {
    /** The range as it was given. */
    declare readonly text: string;
    #isBasic: boolean;

    /** Parses a range; throws InvalidRange if the string is not a range. */
    constructor(given: Text) {
        const text = textOf(given, "a string, a LanguageRange or a LanguageTag");
        const kind = calls.rangeKind(text);
        if (kind === 0) throw refusal(InvalidRange, text);
        this.text = text;
        this.#isBasic = kind === 1;
        Object.freeze(this);
    }

    /** Parses a range; throws InvalidRange if the string is not a range. */
    static parse(text: Text): LanguageRange {
        return new LanguageRange(text);
    }

    /** Returns whether a string is a range. */
    static canParse(text: Text): boolean {
        return calls.rangeKind(textOf(text)) !== 0;
    }

    /** Whether this is a basic range (section 2.1): de-CH, or only *. */
    get isBasic(): boolean {
        return this.#isBasic;
    }

    /**
     * Iterates over the ranges that a lookup tries (RFC 4647 section 3.4), from this range to the shortest: zh-Hant-CN, zh-Hant, zh. For a
     * catalogue of strings, use `parents` of LanguageTag.
     */
    *fallbacks(): IterableIterator<LanguageRange> {
        yield this;
        for (const [, length] of calls.everyFallback(this.text)) yield new LanguageRange(this.text.slice(0, length));
    }

    /**
     * Returns whether this range matches a tag by basic filtering (section 3.3.1): de-DE matches de-DE-1996, but not de-Latn-DE. It does not
     * match a string that is not a tag.
     */
    matchesBasic(tag: Text): boolean {
        return calls.matchesBasic(this.text, textOf(tag));
    }

    /**
     * Returns whether this range matches a tag by extended filtering (section 3.3.2): de-DE matches de-Latn-DE. It does not match a string
     * that is not a tag.
     */
    matchesExtended(tag: Text): boolean {
        return calls.matchesExtended(this.text, textOf(tag));
    }

    /** Returns whether this range equals another range or a string, ignoring case. */
    equals(other: Text): boolean {
        return calls.eq(this.text, textOf(other));
    }

    toString(): string {
        return this.text;
    }

    toJSON(): string {
        return this.text;
    }
}

const rangeOf = (value) => (value instanceof LanguageRange ? value : new LanguageRange(value));

/** Returns the tag that a call chooses for a header or for ranges, or `otherwise` if it chooses none. */
function chosen(choose, wanted, tags, otherwise) {
    const list = [...several(tags, "tags")];
    const index = choose(wanted, list.map((tag) => tagOf(tag).text));
    return index < list.length ? list[index] : otherwise;
}

/**
 * Returns the tag of the first range that finds a tag, or the last argument (RFC 4647 section 3.4). A range finds the tag that
 * equals it. If there is none, its fallbacks are tried, the longest first. An extended range is looked up without its *.
 *
 *     lookUp(["nl", "ZH-hant-CN"], ["en", "zh-Hant", "zh"]); // "zh-Hant"
 */
export function lookUp<Tag extends Text>(ranges: List<Text>, tags: List<Tag>): Tag | undefined;
export function lookUp<Tag extends Text, Otherwise>(ranges: List<Text>, tags: List<Tag>, otherwise: Otherwise): Tag | Otherwise;
export function lookUp(ranges: any, tags: any, otherwise?: any) {
    const header = [...several(ranges, "ranges")].map((range) => rangeOf(range).text.replaceAll("-*", "")).join();
    return chosen(calls.tagForHeaderLenient, header, tags, otherwise);
}

const BAD_PARTS = [, , "language range", "weight"];

/** The ranges of an Accept-Language header (RFC 9110 section 12.5.4). */
export class AcceptLanguage {
    /** The ranges by descending weight, without ranges of weight 0. */
    declare readonly ranges: readonly WeightedRange[];
    private constructor(header, isLenient = false) {
        const text = headerText(header);
        const ranges: WeightedRange[] = [];
        for (const [answer, offset, length, weight] of calls.everyAccepted(text)) {
            if (answer > 1 && !isLenient) {
                const index = text.slice(0, offset).split(",").length - 1;
                throw refusal(AcceptLanguageError, text, index, offset, BAD_PARTS[answer]);
            }
            if (weight > 0) ranges.push({ range: new LanguageRange(text.slice(offset, offset + length)), weight });
        }
        this.ranges = Object.freeze(ranges.sort((one, other) => other.weight - one.weight));
        Object.freeze(this);
    }

    /** Parses a header; throws AcceptLanguageError if an element is malformed, such as de_CH or de;q=2. */
    static parse(header: Header): AcceptLanguage {
        return new AcceptLanguage(header);
    }

    /** Parses a header, and skips malformed elements. */
    static lenient(header: Header): AcceptLanguage {
        return new AcceptLanguage(header, true);
    }

    #wanted() {
        return this.ranges.map(({ range }) => range);
    }

    /** Returns the tag that the ranges find by lookup, the greatest weight first, or the last argument. */
    lookUp<Tag extends Text>(tags: List<Tag>): Tag | undefined;
    lookUp<Tag extends Text, Otherwise>(tags: List<Tag>, otherwise: Otherwise): Tag | Otherwise;
    lookUp(tags: any, otherwise?: any) {
        return lookUp(this.#wanted(), tags, otherwise);
    }

    /**
     * Returns the best tag for the ranges by language distance, as bestForRanges does, or the last argument. Malformed elements and ranges
     * of weight 0 are not among the ranges. So de_CH is not repaired, and de-CH;q=0 excludes nothing. Only bestForHeader repairs and
     * excludes.
     */
    best<Tag extends Text>(tags: List<Tag>): Tag | undefined;
    best<Tag extends Text, Otherwise>(tags: List<Tag>, otherwise: Otherwise): Tag | Otherwise;
    best(tags: any, otherwise?: any) {
        return bestForRanges(this.#wanted(), tags, otherwise);
    }
}

/** Returns the tag that a header finds by lookup, or the last argument; throws AcceptLanguageError if an element is malformed. */
export function tagForHeader<Tag extends Text>(header: Header, tags: List<Tag>): Tag | undefined;
export function tagForHeader<Tag extends Text, Otherwise>(header: Header, tags: List<Tag>, otherwise: Otherwise): Tag | Otherwise;
export function tagForHeader(header: any, tags: any, otherwise?: any) {
    return AcceptLanguage.parse(header).lookUp(tags, otherwise);
}

/** Returns the tag that a header finds by lookup, or the last argument. Malformed elements are skipped. */
export function tagForHeaderLenient<Tag extends Text>(header: Header, tags: List<Tag>): Tag | undefined;
export function tagForHeaderLenient<Tag extends Text, Otherwise>(header: Header, tags: List<Tag>, otherwise: Otherwise): Tag | Otherwise;
export function tagForHeaderLenient(header: any, tags: any, otherwise?: any) {
    return chosen(calls.tagForHeaderLenient, headerText(header), tags, otherwise);
}

/**
 * Returns the distance from the desired tag to a supported tag (UTS #35, Language Matching). It is at most
 * 134, or 255 if the tags differ and one of them is only und, a private-use tag, i-default, i-enochian or i-mingo.
 *
 *     distance("zh-TW", "zh-Hant"); // 0
 *     distance("de", "en");         // 84
 */
export function distance(desired: Text, supported: Text): number {
    return calls.distance(tagOf(desired).text, tagOf(supported).text);
}

/**
 * Returns the modifier that `LanguageTag.fromPosix` drops because it is not known, or undefined if there is none. Two folders of
 * translations whose names differ only in such a modifier would become the same tag.
 *
 *     unknownModifier("de_DE@foo");   // "foo"
 *     unknownModifier("sr_RS@latin"); // undefined
 */
export function unknownModifier(name: string): string | undefined {
    const text = textOf(name), found = calls.unknownModifier(text);
    return found && text.slice(found[0], found[0] + found[1]);
}

/**
 * Returns the locale to format dates and numbers with, next to text in a tag that was chosen for a range: the tag with the region and the
 * keywords of the range. The script is written if it would not be likely with the region. Returns the tag if the range asks for nothing.
 *
 *     const match = matchForHeader("en-GB-u-hc-h12,de;q=0.5", ["en", "de"]);
 *     resolvedLocale(match.range, match.tag).text; // "en-GB-u-hc-h12"
 *     resolvedLocale("zh-HK", "zh-CN").text;       // "zh-Hans-HK"
 */
export function resolvedLocale(range: Text, tag: Text): LanguageTag {
    return new LanguageTag(calls.resolvedLocale(textOf(range, "a string, a LanguageRange or a LanguageTag"), tagOf(tag).text));
}

/**
 * Returns the best tag for a header by language distance, or the last argument if none is suitable. Malformed elements are read
 * leniently: de_CH is read as de-CH. A tag whose longest matching range has the weight 0 is not chosen, and * chooses nothing.
 *
 * Among tags at the same distance, these rules decide, one after the other. The tag that has more of the range's variants is better. A tag
 * without the extension t, which marks machine translations, is better, unless the range has t. The tag for which lookup removes fewer
 * subtags from the range is better, where lookup reads `eng` as `en`. The tag with the range's own code is better. A tag whose region is a
 * group with the range's region is better, and the smallest group is best: `es-419` for `es-MX`. A tag with the most likely region of its
 * language is better. One of CLDR's paradigm locales, such as `en-GB`, is better. Otherwise the first in the list is chosen. So list the
 * tags in the order that you prefer.
 *
 * Throws InvalidTag if one of the tags is not a tag: a Site throws it
 * once, when the program starts. Time is at most proportional to the length of the header times the length of the tags.
 *
 *     bestForHeader("gsw", ["fr", "de-CH"], "fr"); // "de-CH"
 */
export function bestForHeader<Tag extends Text>(header: Header, tags: List<Tag>): Tag | undefined;
export function bestForHeader<Tag extends Text, Otherwise>(header: Header, tags: List<Tag>, otherwise: Otherwise): Tag | Otherwise;
export function bestForHeader(header: any, tags: any, otherwise?: any) {
    return chosen(calls.bestForHeader, headerText(header), tags, otherwise);
}

/**
 * Returns the best tag for a header, as bestForHeader does, with its index, range and distance, or undefined. The distance shows whether
 * the list has the language itself, or only a language near it.
 *
 *     matchForHeader("tlh", ["de", "en"]); // { index: 1, tag: "en", distance: 30, range: "tlh" }
 */
export function matchForHeader<Tag extends Text>(header: Header, tags: List<Tag>): BestMatch<Tag> | undefined {
    const list = [...several(tags, "tags")], text = headerText(header);
    const [index, start, length, distance] = calls.matchForHeader(text, list.map((tag) => tagOf(tag).text));
    return index < list.length ? { index, tag: list[index], distance, range: text.slice(start, start + length) } : undefined;
}

/** Returns the tags of a list that a call names by their indices. */
function suitable(choose, wanted, tags, most) {
    const list = [...several(tags, "tags")];
    return choose(wanted, list.map((tag) => tagOf(tag).text), Math.max(0, Math.min(most ?? Infinity, list.length) | 0)).map((index) => list[index]);
}

/**
 * Returns all suitable tags for a header, best first: the tag that bestForHeader chooses, the tag that it chooses among the other tags, and
 * so on. A catalogue looks for a message in this order. `most` limits the number of tags.
 *
 *     suitableForHeader("de-CH,fr;q=0.7", ["en", "fr", "de", "de-AT"]); // ["de", "de-AT", "fr"]
 */
export function suitableForHeader<Tag extends Text>(header: Header, tags: List<Tag>, most = Infinity): Tag[] {
    return suitable(calls.suitableForHeader, headerText(header), tags, most);
}

/**
 * Returns all suitable tags for a list of ranges in order of preference, best first, as suitableForHeader does for a header.
 *
 *     suitableForRanges(["de_CH", "fr"], ["en", "fr", "de"]); // ["de", "fr"]
 */
export function suitableForRanges<Tag extends Text>(ranges: List<Text>, tags: List<Tag>, most = Infinity): Tag[] {
    return suitable(calls.suitableForRanges, rangeTexts(ranges), tags, most);
}

/**
 * Returns the best tag for a list of ranges in order of preference, such as `navigator.languages`. An extended range is read without its
 * *. A string that is not a range, such as de;q=0, is skipped. A name such as sr_RS@latin is read without its modifier: pass names from LANG
 * through fromPosix first.
 *
 *     bestForRanges(["fi", "zh_TW", "en"], ["en", "zh-Hans", "zh-Hant"]); // "zh-Hant"
 */
export function bestForRanges<Tag extends Text>(ranges: List<Text>, tags: List<Tag>): Tag | undefined;
export function bestForRanges<Tag extends Text, Otherwise>(ranges: List<Text>, tags: List<Tag>, otherwise: Otherwise): Tag | Otherwise;
export function bestForRanges(ranges: any, tags: any, otherwise?: any) {
    return chosen(calls.bestForRanges, rangeTexts(ranges), tags, otherwise);
}

function rangeTexts(ranges) {
    return [...several(ranges, "ranges")].map((range) => textOf(range, "a string, a LanguageRange or a LanguageTag"));
}

/**
 * The tags of a site that are known before the requests, such as the languages of its translations. Each tag is prepared once, so a choice
 * takes less time than with a list. The methods return what the functions of the same names return for the same tags. The constructor throws
 * InvalidTag if one of the tags is not a tag. A site does not change.
 *
 *     const site = new Site(["en", "zh-Hans", "zh-Hant"]);
 *     site.bestForHeader("zh-TW,zh;q=0.9,en;q=0.8"); // "zh-Hant"
 *     site.bestForHeader("fi", "en");                // "en"
 */
export class Site<Tag extends Text = string> {
    /** The tags, as they were given. */
    declare readonly tags: readonly Tag[];
    #prepared;

    constructor(tags: List<Tag>) {
        this.tags = Object.freeze([...several(tags, "tags")]);
        this.#prepared = prepareSite(this.tags.map((tag) => tagOf(tag).text));
        Object.freeze(this);
    }

    /** Returns the best tag for a header, or the last argument. */
    bestForHeader(header: Header): Tag | undefined;
    bestForHeader<Otherwise>(header: Header, otherwise: Otherwise): Tag | Otherwise;
    bestForHeader(header: any, otherwise?: any) {
        return this.#at(calls.siteBestForHeader(headerText(header), this.#prepared), otherwise);
    }

    /** Returns the best tag for a header with its index, range and distance, or undefined. */
    matchForHeader(header: Header): BestMatch<Tag> | undefined {
        const text = headerText(header), [index, start, length, distance] = calls.siteMatchForHeader(text, this.#prepared);
        return index < this.tags.length ? { index, tag: this.tags[index], distance, range: text.slice(start, start + length) } : undefined;
    }

    /** Returns the best tag for a list of ranges in order of preference, or the last argument. */
    bestForRanges(ranges: List<Text>): Tag | undefined;
    bestForRanges<Otherwise>(ranges: List<Text>, otherwise: Otherwise): Tag | Otherwise;
    bestForRanges(ranges: any, otherwise?: any) {
        return this.#at(calls.siteBestForRanges(rangeTexts(ranges), this.#prepared), otherwise);
    }

    #at(index, otherwise) {
        return index < this.tags.length ? this.tags[index] : otherwise;
    }
}

// The bytes that begin rows, as data/names/generate.py describes them. A smaller byte is the third letter of a language.
const TWO_LETTERS = 27, SUBTAG = 28, OWN = 29, REPLACED = 30;
let rows: string | undefined;

/** Returns the bytes for which the bytes of a packed name stand. */
function expanded(packed: string): string {
    return [...packed].map((byte) => PAIRS[byte.charCodeAt(0)] === "" ? byte : expanded(PAIRS[byte.charCodeAt(0)])).join("");
}

/** Returns the name in the row of a key. */
function nameIn(kind: number, key: string): string | undefined {
    rows ??= atob(ROWS);
    const group = parseInt(key.slice(0, 2), 36);
    const start = String.fromCharCode(kind) + (kind > TWO_LETTERS ? `${key.slice(2)} ` : "");
    const packed = rows.slice(INDEX[group], INDEX[group + 1]).split(start)[1]?.split(/[\0-\x1f]/)[0];
    if (packed === undefined) return undefined;
    return new TextDecoder().decode(Uint8Array.from(kind === OWN ? packed : expanded(packed), (byte) => byte.charCodeAt(0)));
}

/** Returns the English name of a language. The code is in lowercase. */
function languageName(code: string): string | undefined {
    if (code.length > 3) return undefined;
    return nameIn(code.length === 2 ? TWO_LETTERS : code.charCodeAt(2) & 31, code);
}

/** The length of a tag up to which names use its locale form. For longer tags that would take too long, because its time is quadratic. */
const LONGEST_NAMED = 262144;

/** Returns the form of a tag whose subtags have the names: de for ger. */
function named(tag: Text): LanguageTag {
    const read = tagOf(tag);
    return (read.text.length > LONGEST_NAMED ? undefined : read.localeForm()) ?? read.canonical();
}

/**
 * Returns an English name of a tag, made of CLDR's names for the subtags of its locale form: "Portuguese (Brazil)" for pt-BR. If there is no
 * locale form, or the tag has more than 262,144 bytes, the canonical form is used. If CLDR does not name the language, the name is IANA's
 * description of the tag's own language: "Himachali languages" for him. A subtag without a name is shown as it is. Extensions and
 * private use are left out, but a tag that is only private use is shown as it is. For names in other languages, use `Intl.DisplayNames`.
 */
export function describe(tag: Text): string {
    const form = named(tag);
    if (form.language === undefined) return form.text;
    // If the tag's language is replaced with one that CLDR does not name, the tag's own language is named.
    const language = nameIn(REPLACED, (tagOf(tag).language ?? form.language).toLowerCase()) ?? languageName(form.language) ?? form.language;
    const subtags = [form.script ?? [], form.region ?? [], ...form.variants].flat().map((subtag) => nameIn(SUBTAG, subtag) ?? subtag);
    const inside = subtags.join(", ").replaceAll("(", "[").replaceAll(")", "]");
    return inside === "" ? language : `${language} (${inside})`;
}

/**
 * Returns the name of a tag's language in the language itself, from CLDR: "Deutsch" for de-DE, "繁體中文" for zh-TW. Returns undefined if
 * CLDR has none. CLDR's name for the language in the tag's script or region is preferred. The script is the tag's own, or the likely script
 * of the language in the region. If there is no name in that script, the result is undefined.
 */
export function autonym(tag: Text): string | undefined {
    const form = named(tag);
    if (form.language === undefined) return undefined;
    const { script } = form.base.maximize();
    const isUsual = script === undefined || script === new LanguageTag(form.language).maximize().script;
    const written = form.script ?? (isUsual ? undefined : script);
    const asked = [[written, form.region, ...form.variants], [written, form.region], [written], ...(isUsual ? [[]] : [])];
    return asked.map((subtags) => nameIn(OWN, [form.language, ...subtags.filter(Boolean)].join("-"))).find((name) => name !== undefined);
}
