/*
 * The memory of the WebAssembly module of proved code. Only this file and calls.js, which bindings/generate.py writes, know addresses:
 * other files pass strings, and get strings, offsets and numbers.
 *
 * The strings of a call are in one block after the module's own data. The next call reuses the block, so nothing is kept. The block
 * grows with the strings. A new instance of the module is made after a call that made the block large, because its memory cannot
 * shrink. The same happens after a call that did not return, for example because JavaScript's stack overflowed: the instance's own
 * stack pointer was not restored then.
 *
 * A code unit that is not ASCII becomes the byte 0xFF, which no tag, range or header contains. So an offset in bytes is also an
 * offset in the string, and a lone surrogate is refused like every other character that is not ASCII.
 */
import { MODULE } from "./module.js";

const PAGE = 65536;
const KEPT = 1 << 20; // the bytes that the block may keep between calls
const OUTS = 16; // the numbers that a call may write besides strings: at most langtag_parts, which has 12
const ALIGNED = 8; // where spans begin

/** The bytes of a size. */
export const WORD = 4;

/** The bytes of a span: an offset and a length. */
export const SPAN = 2 * WORD;

/** Returns a size that the module returned. */
export const count = (number) => number >>> 0;

/** Returns the bytes of a string in base64. Where neither function is there, a loop takes a twentieth of the time of Uint8Array.from. */
function decoded(text) {
    if (Uint8Array.fromBase64) return Uint8Array.fromBase64(text);
    if (globalThis.Buffer) return globalThis.Buffer.from(text, "base64");
    const characters = atob(text), made = new Uint8Array(characters.length);
    for (let index = 0; index < made.length; index++) made[index] = characters.charCodeAt(index);
    return made;
}

const compiled = new WebAssembly.Module(decoded(MODULE));

/** The functions of the module, and the addresses of the block and of each number that a call writes, as the module takes them. */
export const module = { calls: undefined, begin: undefined, outs: undefined };

let memory, bytes, view, most;
let isOpen = true; // whether a call has begun and not ended; true at first, so that the first call makes the instance
let out, texts; // the addresses of what a call writes and of its strings

function start() {
    module.calls = new WebAssembly.Instance(compiled).exports;
    memory = module.calls.memory;
    out = (Number(module.calls.__heap_base.value) + 15) & -16;
    texts = out + OUTS * WORD;
    module.begin = texts;
    module.outs = Array.from({ length: OUTS }, (_, index) => out + WORD * index);
    look();
    most = Math.max(bytes.length, texts + KEPT);
    isOpen = false;
}

function look() {
    bytes = new Uint8Array(memory.buffer);
    view = new DataView(memory.buffer);
}

/** Begins a call that needs a number of bytes in the block, besides what `aligned` skips. Returns the address of the block. */
export function open(length) {
    if (isOpen) start();
    isOpen = true;
    const missing = texts + length + ALIGNED - bytes.length;
    if (missing > 0) {
        memory.grow(Math.ceil(missing / PAGE));
        look();
    }
    return texts;
}

/** Ends a call, and returns its result. */
export function close(answer) {
    isOpen = false;
    if (bytes.length > most) start();
    return answer;
}

/** Writes a string, and returns the address after it. */
export function write(text, at) {
    for (let index = 0; index < text.length; index++) {
        const unit = text.charCodeAt(index);
        bytes[at + index] = unit < 0x80 ? unit : 0xff;
    }
    return at + text.length;
}

/** Writes bytes, and returns the address after them. */
export function writeBytes(array, at) {
    bytes.set(array, at);
    return at + array.length;
}

/** Returns the first address, at or after an address, where spans can begin. */
export const aligned = (at) => (at + ALIGNED - 1) & -ALIGNED;

const decoder = new TextDecoder();

/** Returns ASCII bytes as a string. */
export function read(at, length) {
    if (length > 32) return decoder.decode(bytes.subarray(at, at + length));
    let text = ""; // a loop is quicker for most tags
    for (let index = at; index < at + length; index++) text += String.fromCharCode(bytes[index]);
    return text;
}

/** Returns the sizes of an array. */
export const readSizes = (at, length) => Array.from({ length }, (_, index) => view.getUint32(at + WORD * index, true));

function writeSize(at, number) {
    view.setUint32(at, number, true);
}

/** Writes the numbers that a call reads before it writes them. */
export function prepare(...numbers) {
    numbers.forEach((number, index) => writeSize(out + WORD * index, number));
}

/** Returns the number at an index of what a call wrote: an offset or a length. If it has 64 bits, the upper 32 bits are 0. */
export const written = (index) => view.getUint32(out + WORD * index, true);

/** Returns the length of all strings of a list. */
export function lengthOf(list) {
    let length = 0;
    for (let index = 0; index < list.length; index++) length += list[index].length;
    return length;
}

/** Writes strings one after another to `at`, and their spans to `spans`, a span for each `step` bytes. Returns the address after them. */
export function writeList(list, at, spans, step = SPAN) {
    let end = at;
    for (let index = 0; index < list.length; index++) {
        writeSize(spans + step * index, end - at);
        writeSize(spans + step * index + WORD, list[index].length);
        end = write(list[index], end);
    }
    return end;
}

const PREPARED = SPAN + 16; // the bytes of a langtag_prepared_tag

/**
 * Returns the tags of a site: their joined strings, what langtag_prepare writes, and their number. They are kept outside the block, and
 * each choice copies them into it.
 */
export function prepareSite(list) {
    const length = lengthOf(list), at = open(length + PREPARED * list.length), tags = aligned(at + length);
    writeList(list, at, tags, PREPARED);
    for (let index = 0; index < list.length; index++) {
        module.calls.langtag_prepare(module.begin, length, tags + PREPARED * index);
    }
    return close({ text: bytes.slice(at, at + length), tags: bytes.slice(tags, tags + PREPARED * list.length), count: list.length });
}
