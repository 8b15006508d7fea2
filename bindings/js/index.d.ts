/* Written by tsc from index.ts. Do not edit. */
/**
 * Parses, compares, edits and matches language tags (BCP 47: RFC 5646, RFC 4647), and picks the best language for an Accept-Language
 * header.
 *
 *     const tag = LanguageTag.parse("zh-yue-Hant-HK-u-co-pinyin-x-mine");
 *     [tag.primaryLanguage, tag.script, tag.region];                              // ["zh", "Hant", "HK"]
 *     tag.extensions.get("u");                                                    // ["co", "pinyin"]
 *     tag.equals("ZH-YUE-hant-hk-U-CO-pinyin-x-MINE");                            // true
 *     bestForHeader("zh-TW,zh;q=0.9,en;q=0.8", ["en", "zh-Hans", "zh-Hant"]);     // "zh-Hant"
 *
 * Offsets and lengths count UTF-16 code units, as in JavaScript's strings. `isValid`, `invalidSubtag`, `isCanonical`, `canonical`,
 * `localeForm`, `describe` and `autonym` use the IANA registry. Of the registry, other calls use at most the extended languages and the
 * list of replaced tags, such as i-klingon. Functions that take a tag or a range also accept a string. An invalid string throws
 * `InvalidTag` or `InvalidRange`, and any other value throws a `TypeError`.
 */
/** A string, or an object with a `text`, such as a tag or a range, also from another copy of this module or from `structuredClone`. */
export declare type Text = string | {
    readonly text: string;
};
/** The value of an Accept-Language header. For a request without the header, Node has undefined and fetch has null; both are read as an
 * empty header. */
export declare type Header = string | null | undefined;
/** The kinds of tags (RFC 5646 section 2.1). Regular grandfathered tags, such as zh-min-nan, are normal. */
export declare type Kind = "normal" | "private-use" | "irregular";
/** What is wrong with a subtag: it is not registered, it is a second extended language, or it is repeated. */
export declare type Fault = "language" | "extlang" | "second-extlang" | "script" | "region" | "variant" | "repeated-variant" | "repeated-singleton";
/** Tags or ranges, in any iterable but a string. */
export declare type List<Item> = Iterable<Item> & object;
/** The subtags of an extension: "co-pinyin", or ["co", "pinyin"]. */
export declare type Subtags = string | Iterable<string>;
/** A key of the extension u and its new value: ["ca", "buddhist"]. null removes the key. */
export declare type KeywordPair = readonly [key: string, value: string | null | undefined];
/** The parts that `with` changes. A part that is undefined stays as it is, and null removes the part. */
export interface Parts {
    /** The primary language with its extended languages, such as zh-yue. */
    language?: string | undefined;
    script?: string | null | undefined;
    region?: string | null | undefined;
    variants?: Subtags | null | undefined;
    /** "u-co-pinyin", or the subtags of each singleton: { u: ["co", "pinyin"] }, or a Map. */
    extensions?: string | Iterable<readonly [string, Subtags]> | {
        [singleton: string]: Subtags;
    } | null | undefined;
    /** The private-use part with its x, such as x-mine. */
    privateUse?: string | null | undefined;
    /**
     * The values of keys of the extension u: { ca: "buddhist", nu: null }, or a Map. Keys that are not named stay, null removes a key, and
     * "" means true. They are set one after another, after all other parts. A new key is put before the first greater key.
     */
    keywords?: readonly KeywordPair[] | Iterable<KeywordPair> | {
        [key: string]: string | null | undefined;
    } | undefined;
}
/** The extension t (RFC 6497 section 2.2). */
export interface Transform {
    /** The language of the string before it was transformed, such as ja-latn. */
    readonly language: string | undefined;
    /** The value of each field, by lowercase keys such as m0. */
    readonly fields: Map<string, string>;
}
/** A range of a header, and its weight in thousandths, from 1 to 1000. */
export interface WeightedRange {
    readonly range: LanguageRange;
    readonly weight: number;
}
/** The best tag for a header: what `matchForHeader` returns. */
export interface BestMatch<Tag> {
    /** The index of the tag in the list. */
    readonly index: number;
    /** The tag, as it is in the list. */
    readonly tag: Tag;
    /** The distance from the range to the tag, as `distance` returns it. If it is 50 or more, only lookup found the tag. */
    readonly distance: number;
    /** The range that the tag serves, as it is written in the header. */
    readonly range: string;
}
/** The 26 grandfathered tags in their registered spelling (RFC 5646 section 2.1). The first seventeen are irregular. */
export declare const GRANDFATHERED: readonly string[];
/** The date of the IANA registry inside this library, in a form like "2025-01-31". */
export declare const REGISTRY_DATE: string;
/** The version of Unicode's CLDR from which likely subtags, distances and aliases come, such as "48.2". */
export declare const CLDR_VERSION: string;
/** Thrown if a string is not a language tag. */
export declare class InvalidTag extends RangeError {
    readonly text: string;
    /** The wrong subtag: DE in de-419-DE, de_CH in de_CH. It is undefined if the string ends too soon. */
    readonly subtag: string | undefined;
    /** Where the subtag begins, or the end of a string that ends too soon. */
    readonly start: number;
    /** The offset to point at: the start of the subtag, or its first character that is neither a letter nor a digit. */
    readonly offset: number;
    /** What is wrong, without the string. */
    readonly reason: string;
    private constructor();
}
/** Thrown if a string is not a language range. */
export declare class InvalidRange extends RangeError {
    readonly text: string;
    private constructor();
}
/**
 * Thrown if a part or a keyword cannot be changed. `part` names the part that is malformed, and `text` is its string, or undefined if the
 * tag is not a normal tag. For keywords, `part` is "keywords", or the "key" or "value" that is wrong.
 */
export declare class EditError extends RangeError {
    readonly part: keyof Parts | "key" | "value";
    readonly text: string | undefined;
    private constructor();
}
/** Thrown if a header has a malformed element. `index` is the number of commas before the element, `offset` is where it begins, and `part`
 * says what is malformed. */
export declare class AcceptLanguageError extends RangeError {
    readonly header: string;
    readonly index: number;
    readonly offset: number;
    readonly part: "language range" | "weight";
    private constructor();
}
/** The first subtag that makes a tag invalid. `toString` returns a message: "variant 1996 is repeated". */
declare class InvalidSubtag {
    readonly fault: Fault;
    readonly subtag: string;
    /** Where the subtag begins. */
    readonly start: number;
    /** The registered code that was probably meant, according to CLDR's aliases: "de" for the language ger, "GB" for the region UK. */
    readonly suggestion: string | undefined;
    constructor(answer: number, subtag: string, start: number);
    toString(): string;
}
export type { InvalidSubtag };
/** A well-formed language tag (RFC 5646 section 2.1). It is immutable, and JSON.stringify writes its text. */
export declare class LanguageTag {
    #private;
    /** The tag as it was given. */
    readonly text: string;
    /** Parses a tag; throws InvalidTag if the string is not a tag. */
    constructor(given: Text);
    /** Parses a tag; throws InvalidTag if the string is not a tag. */
    static parse(text: Text): LanguageTag;
    /** Returns whether a string is a tag. */
    static canParse(text: Text): boolean;
    /** Returns the tag made of these parts; throws EditError if a part is malformed. */
    static from(parts: Parts & {
        language: string;
    }): LanguageTag;
    /**
     * Returns the tag for a POSIX locale name, or undefined if there is none: pt_BR.UTF-8 becomes pt-BR. Names as Java, Android, .NET, ICU
     * and Apple's systems write them are read, too: zh-rTW becomes zh-TW. A modifier that is not known is dropped; `unknownModifier` returns it.
     */
    static fromPosix(name: string): LanguageTag | undefined;
    /**
     * Compares two tags, ignoring case, for `sort`: returns -1, 0 or 1. A tag sorts after every longer tag that begins with it: zh sorts
     * after zh-Latn. For alphabetical order, sort by `toFolded`.
     */
    static compare(this: void, one: Text, other: Text): -1 | 0 | 1;
    get kind(): Kind;
    /** The primary language with its extended languages, such as zh-yue. */
    get language(): string | undefined;
    /** The primary language only, such as zh. */
    get primaryLanguage(): string | undefined;
    get extendedLanguages(): string[];
    get script(): string | undefined;
    get region(): string | undefined;
    get variants(): string[];
    /** The subtags of each extension by its lowercase singleton. If a singleton is repeated, the first one counts. */
    get extensions(): Map<string, string[]>;
    /**
     * Returns the value of a key of the extension u (RFC 6067), ignoring case, or undefined if the key is absent: islamic-civil for
     * ca in ar-u-ca-islamic-civil. The value is "" if the key has none, which means true. If a key is repeated, the first one counts.
     */
    keyword(key: string): string | undefined;
    /** The keywords of the extension u, by lowercase keys. If a key is repeated, the first one counts. */
    get keywords(): Map<string, string>;
    /** The attributes of the extension u, which come before its first key. A repeated attribute is returned once. */
    get attributes(): string[];
    /** The extension t (RFC 6497), or undefined if the tag has none. */
    get transform(): Transform | undefined;
    /** The private-use part with its x, such as x-mine. For a private-use tag it is the whole string. */
    get privateUse(): string | undefined;
    /** The registered spelling if the tag is grandfathered (ignoring case), otherwise undefined. */
    get grandfathered(): string | undefined;
    /** The first variant that equals an earlier one, ignoring case. Such a tag is well-formed but not valid. */
    get repeatedVariant(): string | undefined;
    /** The first singleton that equals an earlier one, ignoring case. Such a tag is well-formed but not valid. */
    get repeatedSingleton(): string | undefined;
    /** Whether the tag is valid (RFC 5646 section 2.2.9) according to the registry of REGISTRY_DATE. Deprecated subtags are valid. */
    get isValid(): boolean;
    /** The first subtag that makes the tag invalid, or undefined if it is valid. */
    get invalidSubtag(): InvalidSubtag | undefined;
    /** Whether the tag equals its canonical form, ignoring case. */
    get isCanonical(): boolean;
    /** Returns the canonical form (RFC 5646 section 4.5) in the recommended case, according to the registry of REGISTRY_DATE: iw becomes he. */
    canonical(): LanguageTag;
    /**
     * Returns the tag with its likely subtags (UTS #35): zh-TW becomes zh-Hant-TW. Deprecated subtags stay, and get the
     * likely subtags of their replacements: iw becomes iw-Hebr-IL. To replace them, call localeForm first.
     */
    maximize(): LanguageTag;
    /** Returns the tag without its likely subtags (UTS #35): zh-Hant-TW becomes zh-TW. */
    minimize(): LanguageTag;
    /** Whether the tag is written from right to left, by its script or its likely script: true for he, pa-PK and az-Arab. */
    get isRightToLeft(): boolean;
    /** Returns the tag in the case that RFC 5646 section 2.1.1 recommends: zh-hant-tw becomes zh-Hant-TW. */
    toRecommended(): LanguageTag;
    /** Returns the string in lowercase, which is the same for all equal tags. */
    toFolded(): string;
    /**
     * Returns the tag with its extensions u and t in canonical form (UTS #35, part 1, Annex C): de-u-nu-thai-ca-roc becomes
     * de-u-ca-roc-nu-thai. A repeated key keeps only its first value. The rest of the tag stays.
     */
    extensionsForm(): LanguageTag;
    /** The tag without extensions and private use, as baseName of Intl.Locale: de-CH for de-CH-u-co-phonebk. It keeps its case. */
    get base(): LanguageTag;
    /**
     * Returns the POSIX locale name for the tag, or undefined if no name expresses the whole tag: sr_RS@latin for sr-Latn-RS, zh_TW for
     * zh-Hant-TW. A likely script is left out. Add the codeset yourself, as in zh_TW.UTF-8. `fromPosix` reads the name.
     */
    toPosix(): string | undefined;
    /**
     * The parent of the tag in CLDR, which a catalogue of strings asks next, or undefined if there is none: pt-PT for pt-AO, zh-Hant for zh-TW.
     * If CLDR lists the language and does not replace the region (CLDR replaces UK), the parent is written in the same script. So zh-Hant has
     * none: zh is Simplified.
     */
    get parent(): LanguageTag | undefined;
    /**
     * The tag and its parents, in the order in which to search a catalogue: zh-Hans-CN, zh-CN, zh-Hans and zh. All tags are written in the
     * same script if CLDR lists the language and does not replace the region (CLDR replaces UK).
     *
     * A likely script is removed first, and comes back just before the language alone. Then extensions and private use are removed, and then
     * each variant, from the last to the first. Then the region is replaced or removed, and the variants come back: ca-ES-valencia, ca-ES,
     * ca-valencia and ca. es-rUS, as Android writes es-US, is followed by es-US and its parents.
     *
     * If a catalogue's folders name scripts, such as zh-Hans, ask for the parents of `maximize()`, which names the script of zh-CN. CLDR does
     * not list replaced codes such as iw and cmn, nor extended languages: ask for the parents of `localeForm()`.
     */
    get parents(): LanguageTag[];
    /** Whether the tag is a Unicode locale identifier (UTS #35), as Intl requires: false for zh-yue, i-klingon and x-a. */
    get isLocale(): boolean;
    /**
     * Returns the canonical form of a Unicode locale identifier (UTS #35, part 1, Annex C): eng becomes en, and ger-UK
     * becomes de-GB. A tag that is not such an identifier is first replaced according to the registry of REGISTRY_DATE: zh-yue becomes yue.
     * If the result is not such an identifier, either, returns undefined: x-a, i-default.
     */
    localeForm(): LanguageTag | undefined;
    /** Returns the tag with other parts; throws EditError if a part is malformed, or the tag is not a normal tag. */
    with(parts: Parts): LanguageTag;
    /** Returns whether this tag equals another tag or a string, ignoring case. */
    equals(other: Text): boolean;
    toString(): string;
    toJSON(): string;
    /** 1, because Intl takes an object as a list of locales: `new Intl.NumberFormat(tag)` formats for the tag. */
    get length(): 1;
    /** The string of the tag, as the only locale of that list. */
    get 0(): string;
}
/** A language range, basic or extended (RFC 4647 section 2): de-CH, *, *-CH, de-*-DE. JSON.stringify writes its text. */
export declare class LanguageRange {
    #private;
    /** The range as it was given. */
    readonly text: string;
    /** Parses a range; throws InvalidRange if the string is not a range. */
    constructor(given: Text);
    /** Parses a range; throws InvalidRange if the string is not a range. */
    static parse(text: Text): LanguageRange;
    /** Returns whether a string is a range. */
    static canParse(text: Text): boolean;
    /** Whether this is a basic range (section 2.1): de-CH, or only *. */
    get isBasic(): boolean;
    /**
     * Iterates over the ranges that a lookup tries (RFC 4647 section 3.4), from this range to the shortest: zh-Hant-CN, zh-Hant, zh. For a
     * catalogue of strings, use `parents` of LanguageTag.
     */
    fallbacks(): IterableIterator<LanguageRange>;
    /**
     * Returns whether this range matches a tag by basic filtering (section 3.3.1): de-DE matches de-DE-1996, but not de-Latn-DE. It does not
     * match a string that is not a tag.
     */
    matchesBasic(tag: Text): boolean;
    /**
     * Returns whether this range matches a tag by extended filtering (section 3.3.2): de-DE matches de-Latn-DE. It does not match a string
     * that is not a tag.
     */
    matchesExtended(tag: Text): boolean;
    /** Returns whether this range equals another range or a string, ignoring case. */
    equals(other: Text): boolean;
    toString(): string;
    toJSON(): string;
}
/**
 * Returns the tag of the first range that finds a tag, or the last argument (RFC 4647 section 3.4). A range finds the tag that
 * equals it. If there is none, its fallbacks are tried, the longest first. An extended range is looked up without its *.
 *
 *     lookUp(["nl", "ZH-hant-CN"], ["en", "zh-Hant", "zh"]); // "zh-Hant"
 */
export declare function lookUp<Tag extends Text>(ranges: List<Text>, tags: List<Tag>): Tag | undefined;
export declare function lookUp<Tag extends Text, Otherwise>(ranges: List<Text>, tags: List<Tag>, otherwise: Otherwise): Tag | Otherwise;
/** The ranges of an Accept-Language header (RFC 9110 section 12.5.4). */
export declare class AcceptLanguage {
    #private;
    /** The ranges by descending weight, without ranges of weight 0. */
    readonly ranges: readonly WeightedRange[];
    private constructor();
    /** Parses a header; throws AcceptLanguageError if an element is malformed, such as de_CH or de;q=2. */
    static parse(header: Header): AcceptLanguage;
    /** Parses a header, and skips malformed elements. */
    static lenient(header: Header): AcceptLanguage;
    /** Returns the tag that the ranges find by lookup, the greatest weight first, or the last argument. */
    lookUp<Tag extends Text>(tags: List<Tag>): Tag | undefined;
    lookUp<Tag extends Text, Otherwise>(tags: List<Tag>, otherwise: Otherwise): Tag | Otherwise;
    /**
     * Returns the best tag for the ranges by language distance, as bestForRanges does, or the last argument. Malformed elements and ranges
     * of weight 0 are not among the ranges. So de_CH is not repaired, and de-CH;q=0 excludes nothing. Only bestForHeader repairs and
     * excludes.
     */
    best<Tag extends Text>(tags: List<Tag>): Tag | undefined;
    best<Tag extends Text, Otherwise>(tags: List<Tag>, otherwise: Otherwise): Tag | Otherwise;
}
/** Returns the tag that a header finds by lookup, or the last argument; throws AcceptLanguageError if an element is malformed. */
export declare function tagForHeader<Tag extends Text>(header: Header, tags: List<Tag>): Tag | undefined;
export declare function tagForHeader<Tag extends Text, Otherwise>(header: Header, tags: List<Tag>, otherwise: Otherwise): Tag | Otherwise;
/** Returns the tag that a header finds by lookup, or the last argument. Malformed elements are skipped. */
export declare function tagForHeaderLenient<Tag extends Text>(header: Header, tags: List<Tag>): Tag | undefined;
export declare function tagForHeaderLenient<Tag extends Text, Otherwise>(header: Header, tags: List<Tag>, otherwise: Otherwise): Tag | Otherwise;
/**
 * Returns the distance from the desired tag to a supported tag (UTS #35, Language Matching). It is at most
 * 134, or 255 if the tags differ and one of them is only und, a private-use tag, i-default, i-enochian or i-mingo.
 *
 *     distance("zh-TW", "zh-Hant"); // 0
 *     distance("de", "en");         // 84
 */
export declare function distance(desired: Text, supported: Text): number;
/**
 * Returns the modifier that `LanguageTag.fromPosix` drops because it is not known, or undefined if there is none. Two folders of
 * translations whose names differ only in such a modifier would become the same tag.
 *
 *     unknownModifier("de_DE@foo");   // "foo"
 *     unknownModifier("sr_RS@latin"); // undefined
 */
export declare function unknownModifier(name: string): string | undefined;
/**
 * Returns the locale to format dates and numbers with, next to text in a tag that was chosen for a range: the tag with the region and the
 * keywords of the range. The script is written if it would not be likely with the region. Returns the tag if the range asks for nothing.
 *
 *     const match = matchForHeader("en-GB-u-hc-h12,de;q=0.5", ["en", "de"]);
 *     resolvedLocale(match.range, match.tag).text; // "en-GB-u-hc-h12"
 *     resolvedLocale("zh-HK", "zh-CN").text;       // "zh-Hans-HK"
 */
export declare function resolvedLocale(range: Text, tag: Text): LanguageTag;
/**
 * Returns the best tag for a header by language distance, or the last argument if none is suitable. Malformed elements are read
 * leniently: de_CH is read as de-CH. A tag whose longest matching range has the weight 0 is not chosen, and * chooses nothing.
 *
 * Among tags at the same distance, these rules decide, one after the other. The tag that has more of the range's variants is better. A tag
 * without the extension t, which marks machine translations, is better, unless the range has t. The tag for which lookup removes fewer
 * subtags from the range is better, where lookup reads `eng` as `en`. The tag with the range's own code is better. A tag whose region is a
 * group with the range's region is better, and the smallest group is best: `es-419` for `es-MX`. A tag with the most likely region of its
 * language is better. One of CLDR's paradigm locales, such as `en-GB`, is better. Otherwise the first in the list is chosen. So list the
 * tags in the order that you prefer.
 *
 * Throws InvalidTag if one of the tags is not a tag: a Site throws it
 * once, when the program starts. Time is at most proportional to the length of the header times the length of the tags.
 *
 *     bestForHeader("gsw", ["fr", "de-CH"], "fr"); // "de-CH"
 */
export declare function bestForHeader<Tag extends Text>(header: Header, tags: List<Tag>): Tag | undefined;
export declare function bestForHeader<Tag extends Text, Otherwise>(header: Header, tags: List<Tag>, otherwise: Otherwise): Tag | Otherwise;
/**
 * Returns the best tag for a header, as bestForHeader does, with its index, range and distance, or undefined. The distance shows whether
 * the list has the language itself, or only a language near it.
 *
 *     matchForHeader("tlh", ["de", "en"]); // { index: 1, tag: "en", distance: 30, range: "tlh" }
 */
export declare function matchForHeader<Tag extends Text>(header: Header, tags: List<Tag>): BestMatch<Tag> | undefined;
/**
 * Returns all suitable tags for a header, best first: the tag that bestForHeader chooses, the tag that it chooses among the other tags, and
 * so on. A catalogue looks for a message in this order. `most` limits the number of tags.
 *
 *     suitableForHeader("de-CH,fr;q=0.7", ["en", "fr", "de", "de-AT"]); // ["de", "de-AT", "fr"]
 */
export declare function suitableForHeader<Tag extends Text>(header: Header, tags: List<Tag>, most?: number): Tag[];
/**
 * Returns all suitable tags for a list of ranges in order of preference, best first, as suitableForHeader does for a header.
 *
 *     suitableForRanges(["de_CH", "fr"], ["en", "fr", "de"]); // ["de", "fr"]
 */
export declare function suitableForRanges<Tag extends Text>(ranges: List<Text>, tags: List<Tag>, most?: number): Tag[];
/**
 * Returns the best tag for a list of ranges in order of preference, such as `navigator.languages`. An extended range is read without its
 * *. A string that is not a range, such as de;q=0, is skipped. A name such as sr_RS@latin is read without its modifier: pass names from LANG
 * through fromPosix first.
 *
 *     bestForRanges(["fi", "zh_TW", "en"], ["en", "zh-Hans", "zh-Hant"]); // "zh-Hant"
 */
export declare function bestForRanges<Tag extends Text>(ranges: List<Text>, tags: List<Tag>): Tag | undefined;
export declare function bestForRanges<Tag extends Text, Otherwise>(ranges: List<Text>, tags: List<Tag>, otherwise: Otherwise): Tag | Otherwise;
/**
 * The tags of a site that are known before the requests, such as the languages of its translations. Each tag is prepared once, so a choice
 * takes less time than with a list. The methods return what the functions of the same names return for the same tags. The constructor throws
 * InvalidTag if one of the tags is not a tag. A site does not change.
 *
 *     const site = new Site(["en", "zh-Hans", "zh-Hant"]);
 *     site.bestForHeader("zh-TW,zh;q=0.9,en;q=0.8"); // "zh-Hant"
 *     site.bestForHeader("fi", "en");                // "en"
 */
export declare class Site<Tag extends Text = string> {
    #private;
    /** The tags, as they were given. */
    readonly tags: readonly Tag[];
    constructor(tags: List<Tag>);
    /** Returns the best tag for a header, or the last argument. */
    bestForHeader(header: Header): Tag | undefined;
    bestForHeader<Otherwise>(header: Header, otherwise: Otherwise): Tag | Otherwise;
    /** Returns the best tag for a header with its index, range and distance, or undefined. */
    matchForHeader(header: Header): BestMatch<Tag> | undefined;
    /** Returns the best tag for a list of ranges in order of preference, or the last argument. */
    bestForRanges(ranges: List<Text>): Tag | undefined;
    bestForRanges<Otherwise>(ranges: List<Text>, otherwise: Otherwise): Tag | Otherwise;
}
/**
 * Returns an English name of a tag, made of CLDR's names for the subtags of its locale form: "Portuguese (Brazil)" for pt-BR. If there is no
 * locale form, or the tag has more than 262,144 bytes, the canonical form is used. If CLDR does not name the language, the name is IANA's
 * description of the tag's own language: "Himachali languages" for him. A subtag without a name is shown as it is. Extensions and
 * private use are left out, but a tag that is only private use is shown as it is. For names in other languages, use `Intl.DisplayNames`.
 */
export declare function describe(tag: Text): string;
/**
 * Returns the name of a tag's language in the language itself, from CLDR: "Deutsch" for de-DE, "繁體中文" for zh-TW. Returns undefined if
 * CLDR has none. CLDR's name for the language in the tag's script or region is preferred. The script is the tag's own, or the likely script
 * of the language in the region. If there is no name in that script, the result is undefined.
 */
export declare function autonym(tag: Text): string | undefined;
