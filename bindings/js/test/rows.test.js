/* Runs the rows. If LANGTAG_ANSWERS names a file, also compares C's answers to random calls. */
import assert from "node:assert/strict";
import { readFileSync } from "node:fs";
import test from "node:test";
import { adapted, answers } from "./answers.js";
import { ask, counts, floors } from "./rows.js";

const FOLDER = new URL("../../../vectors/", import.meta.url);
const calls = counts(readFileSync(new URL("calls.txt", FOLDER), "latin1"));
const asked = {};

function askFile(name, content, floor) {
    const found = ask(name, content, calls, floor, answers, adapted);
    for (const [call, count] of Object.entries(found.asked)) asked[call] = (asked[call] ?? 0) + count;
    console.log(`${name}: ${found.count} rows`);
    assert.ok(found.differing.length === 0, `${found.differing.slice(0, 3).join("\n")}\n${found.differing.length} differ`);
}

for (const [name, floor] of floors(readFileSync(new URL("floors.txt", FOLDER), "latin1"))) {
    test(name, () => askFile(name, readFileSync(new URL(name, FOLDER), "latin1"), floor));
}

test("the answers of C to random calls", { skip: process.env.LANGTAG_ANSWERS === undefined }, () => {
    askFile("answers", readFileSync(process.env.LANGTAG_ANSWERS, "latin1"), 1000);
});

test("each call is asked", () => {
    assert.deepEqual(Object.keys(answers).filter((call) => calls[call] !== undefined && !asked[call]), []);
});
