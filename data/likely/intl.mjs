// Compares maximal forms with those of Intl in this JavaScript engine, which has Unicode's CLDR, too.
//
// usage: node intl.mjs FORMS VERSION < TAGS   counts the tags whose maximal form by Intl.Locale is another than the form on the same
//                                             line of FORMS; VERSION is the major version of CLDR that FORMS come from
import { readFileSync } from "node:fs";

const lines = (file) => readFileSync(file, "utf8").trimEnd().split("\n");
const [forms, version] = process.argv.slice(2);
const own = process.versions.cldr?.split(".")[0];
if (own !== version) {
  console.log(`not compared: Intl has CLDR ${process.versions.cldr}`);
  process.exit(0);
}
const tags = lines(0);
const given = lines(forms);
const wrong = tags.filter((tag, line) => new Intl.Locale(tag).maximize().toString() !== given[line]);
for (const tag of wrong.slice(0, 20)) {
  console.log(`differs: ${tag} is ${given[tags.indexOf(tag)]}, by Intl ${new Intl.Locale(tag).maximize()}`);
}
console.log(`${tags.length} tags, ${wrong.length} differ`);
process.exit(wrong.length > 0 || given.length !== tags.length ? 1 : 0);
