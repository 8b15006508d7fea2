/*
 * A site with pages in five languages: node server.js [PORT]
 *
 *     curl 'localhost:8080/?lang=sr'; curl -H 'Accept-Language: ger-CH, fr;q=0.5' localhost:8080
 *
 * The language is the user's choice (?lang=, kept in a cookie), or else the best language for the browser's header.
 */
import { createServer } from "node:http";
import { autonym, describe, LanguageTag, Site } from "langtag-verified";

const PAGES = new Map([["en", "Hello"], ["de", "Guten Tag"], ["sr-Latn", "Dobar dan"], ["zh-Hant", "你好"], ["ar", "مرحبا"]]);
const site = new Site(PAGES.keys()); // what the choice needs of each tag is computed once
const SAME = 16; // from this distance on, a tag is of another language

/** Returns the language that the user picked. A language that is only near the picked one does not count: ?lang=tlh is not
 *  English. */
function picked(request) {
    const asked = new URLSearchParams(request.url.split("?")[1]).get("lang");
    const kept = /(?:^|; )lang=([\w-]*)/.exec(request.headers.cookie)?.[1];
    return [asked, kept].map((text) => site.matchForHeader(text)).find((match) => match?.distance < SAME)?.tag;
}

/** Returns the name of a language in itself, for HTML: a name may contain `&`. */
const nameOf = (tag) => (autonym(tag) ?? describe(tag)).replaceAll("&", "&amp;").replaceAll("<", "&lt;");
const direction = (tag) => (LanguageTag.parse(tag).isRightToLeft ? "rtl" : "ltr");

/** Returns the menu of languages, each by its name in itself. The language of the page comes first. */
function menu(page) {
    const tags = [page, ...site.tags.filter((tag) => tag !== page)];
    return tags.map((tag) => `<a href="?lang=${tag}" lang="${tag}" dir="${direction(tag)}">${nameOf(tag)}</a>`).join(" ");
}

const server = createServer((request, response) => {
    const wish = picked(request);
    const tag = wish ?? site.matchForHeader(request.headers["accept-language"]?.slice(0, 1000))?.tag ?? "en";
    response.writeHead(200, {
        "Content-Type": "text/html; charset=utf-8",
        "Content-Language": tag,
        Vary: "Accept-Language, Cookie",
        ...(wish === undefined ? {} : { "Set-Cookie": `lang=${tag}; Path=/` }),
    });
    response.end(`<html lang="${tag}" dir="${direction(tag)}"><p>${PAGES.get(tag)}<p>${menu(tag)}</html>\n`);
});

server.listen(Number(process.argv[2] ?? 8080), "127.0.0.1", () => console.log(`http://127.0.0.1:${server.address().port}`));
