// Code that tsc has to accept, and code that it has to refuse.
import { AcceptLanguage, bestForHeader, bestForRanges, EditError, InvalidTag, LanguageRange, LanguageTag, lookUp, REGISTRY_DATE, Site, tagForHeader, tagForHeaderLenient, type Fault } from "langtag-verified";

const tag: LanguageTag = LanguageTag.parse("zh-Hant");
const script: string | undefined = tag.script;
const subtags: string[] | undefined = tag.extensions.get("u");
const fault: Fault | undefined = tag.invalidSubtag?.fault;
const meant: string | undefined = tag.invalidSubtag?.suggestion;
const other = tag.with({ script: "Latn", region: null, variants: ["1996"], extensions: { u: ["co", "pinyin"] }, privateUse: undefined });
const again = LanguageTag.from({ language: "de", extensions: other.extensions, keywords: tag.keywords });
const form: LanguageTag = again.with({ keywords: { ca: "buddhist", nu: null, kn: undefined } }).with({ keywords: [["ca", "roc"]] }).extensionsForm();
const identifier: LanguageTag | undefined = form.isLocale ? form.localeForm() : undefined;
const found: "de" | "fr" = tagForHeader("fr", ["de", "fr"] as const, "de");
const none: LanguageTag | undefined = lookUp(["fr", LanguageRange.parse("*")], [tag, again]);
const best: "de" | "fr" | undefined = bestForRanges([...(["fr"] as readonly string[]), LanguageRange.parse("de")], ["de", "fr"] as const);
const request: { headers: { "accept-language"?: string } } = { headers: {} }; // as node:http has it
const site = new Site(["de", "fr"] as const);
const ofSite: "de" | "fr" = site.bestForHeader(request.headers["accept-language"], "de");
const bare: Site = new Site(["de"]);
const ofBare: string = bare.bestForHeader("fi", "en");
const index: number | undefined = site.matchForHeader(null)?.index;
const ofRanges: LanguageTag | null = new Site([tag, again]).bestForRanges(["fr", LanguageRange.parse("*")], null);
const absent = [
    bestForHeader(request.headers["accept-language"], ["de"], "en"), bestForHeader(new Headers().get("accept-language"), ["de"], "en"),
    tagForHeader(undefined, ["de"], "en"), tagForHeaderLenient(null, ["de"], "en"), AcceptLanguage.parse(undefined).best(["de"], "en"),
    AcceptLanguage.lenient(null).lookUp(["de"], "en"),
];
const fallback: string | undefined = request.headers["accept-language"];
const either: "de" | string | undefined = bestForHeader("fi", ["de"] as const, fallback);
const weights: number[] = AcceptLanguage.lenient("fr").ranges.map(({ weight }) => weight);
const sorted: string[] = ["zh", "de"].sort(LanguageTag.compare);
const kinds: "normal" | "private-use" | "irregular" = tag.kind;
try {
    LanguageTag.parse(structuredClone(tag));
} catch (error) {
    if (error instanceof InvalidTag) console.log(error.text, error.offset, error.message);
    if (error instanceof EditError) console.log(error.part === "script" || error.part === "key");
}
console.log(ofSite, ofBare, index, ofRanges, script, subtags, form, identifier, fault, found, none, best, absent, weights, sorted, kinds, either, REGISTRY_DATE.length, tag.equals("ZH"));

// @ts-expect-error a number is not a text
LanguageTag.parse(5);
// @ts-expect-error a number is not a header
bestForHeader(5, ["de"]);
// @ts-expect-error a string is not a list
bestForHeader("de", "en");
// @ts-expect-error the language can't be taken out
tag.with({ language: null });
// @ts-expect-error there is no such part
tag.with({ scripts: "Latn" });
// @ts-expect-error a tag does not change
tag.text = "de";
// @ts-expect-error a tag may have no form
const named: LanguageTag = tag.localeForm();
// @ts-expect-error a script may be absent
const certain: string = tag.script;

// Without the last argument, each choice may return undefined.
const choices = [
    bestForHeader("fi", ["de"]), bestForRanges(["fi"], ["de"]), tagForHeader("fi", ["de"]), tagForHeaderLenient("fi", ["de"]), lookUp(["fi"], ["de"]),
    AcceptLanguage.parse("fi").best(["de"]), AcceptLanguage.parse("fi").lookUp(["de"]), new Site(["de"] as const).bestForHeader("fi"),
    new Site(["de"] as const).bestForRanges(["fi"]), new Site(["de"]).matchForHeader("fi")?.index,
] as const;
type MayFail<Choices> = { [Place in keyof Choices]: undefined extends Choices[Place] ? true : false };
const mayFail: MayFail<typeof choices> = [true, true, true, true, true, true, true, true, true, true];
// @ts-expect-error a site does not change
site.tags[0] = "fr";
function language(header: string | undefined): string {
    // @ts-expect-error no tag may be suitable
    return bestForHeader(header, ["de", "en"]);
}
language(undefined);
