/*
 * Reads the rows that the tests of all languages run: a call, its arguments and its answer. They are in vectors/, whose README
 * describes their form.
 */

/** Returns the number of arguments of each call, from the content of vectors/calls.txt. */
export const counts = (content) => Object.fromEntries(content.match(/^[\w-]+ \d$/gm).map((line) => [line.split(" ")[0], Number(line.at(-1))]));

/** Returns [file, the least number of rows to be run] for each file of rows, from the content of vectors/floors.txt. */
export const floors = (content) => content.match(/^\w+\.txt.*/gm).map((line) => line.split(/ +/)).filter((words) => words[4] !== "-").map((words) => [words[0], Number(words[4])]);

const expand = (line) => line.replace(/\{(\d+):([^}]*)\}/g, (_, count, piece) => piece.repeat(Number(count)));

/** Returns the text of a word. Each byte becomes the character with its number. */
const unescape = (word) =>
    word === "''" ? "" : word.replace(/\\x(..)/g, (_, digits) => String.fromCharCode(Number.parseInt(digits, 16)));

/** Returns the rows of a file. The lines that belong to a row are in its answer. */
export function* read(name, content, calls) {
    const lines = content.split("\n");
    for (const [at, line] of lines.entries()) {
        if (line === "" || line[0] === "#" || line[0] === " ") continue;
        const words = expand(line).split(" | ");
        const end = calls[words[0]] + 1;
        let wanted = words.slice(end).join(" | ");
        for (let next = at + 1; lines[next]?.startsWith(" "); next++) wanted += `\n${expand(lines[next])}`;
        yield { place: `${name}:${at + 1}`, call: words[0], texts: words.slice(1, end).map(unescape), wanted };
    }
}

/**
 * Runs the rows of a file, which has to have at least `floor` rows. `answers` returns the answer to a call, or undefined if the
 * language has none, and `adapted` returns the expected answer of a row. Returns how many rows of each call were run, and the
 * differences.
 */
export function ask(name, content, calls, floor, answers, adapted) {
    const asked = {}, differing = [];
    for (const row of read(name, content, calls)) {
        if (answers[row.call] === undefined) continue;
        let found;
        try {
            found = answers[row.call](...row.texts);
        } catch (error) {
            found = String(error.stack);
        }
        if (found === undefined) continue;
        asked[row.call] = (asked[row.call] ?? 0) + 1;
        const wanted = adapted(row);
        if (found !== wanted) {
            const shown = [row.texts.join(" "), wanted, found].map((text) => text.slice(0, 300));
            differing.push(`${row.place}: ${row.call} ${shown[0]}\n  wanted ${shown[1]}\n  found  ${shown[2]}`);
        }
    }
    const count = Object.values(asked).reduce((sum, it) => sum + it, 0);
    if (count < floor) differing.push(`${name}: at least ${floor} rows were to be asked, and ${count} were`);
    return { asked, count, differing };
}
