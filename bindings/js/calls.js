/*
 * The functions of langtag.h as functions of strings and numbers. Written by bindings/generate.py from crates/langtag_c. Do not edit.
 *
 * A function has the parameters that it has in C, without those to which it only writes. A list of strings is passed for a string and the
 * spans in it. The result is that of C, with these exceptions:
 *
 * - If C writes a string to a buffer, the string is returned, or "" if C writes nothing. `room` is the length of the buffer. If it is too
 *   short, the function calls itself with the length that C returned.
 * - If C writes numbers, the list of the result and these numbers is returned. If the result is only true or false, the list of the numbers
 *   or undefined is returned.
 * - If C removes one item after another, the list of all items is returned.
 * - If C writes numbers to an array, the list of the numbers that it wrote is returned, at most `room`, the length of the array.
 * - `site`, which prepareSite of memory.js returns, is passed for a string and the prepared tags in it.
 */
import { aligned, close, count, lengthOf, module, open, prepare, read, readSizes, SPAN, WORD, write, writeBytes, writeList, written } from "./memory.js";

export function kind(text) {
    const at0 = open(text.length);
    write(text, at0);
    return close(module.calls.langtag_kind(module.begin, text.length) >>> 0);
}

/** Returns [result, parts.language.start, parts.language.len, parts.script.start, parts.script.len, parts.region.start, parts.region.len, parts.variants.start, parts.variants.len, parts.extensions.start, parts.extensions.len, parts.private_use.start, parts.private_use.len]. */
export function parse(text) {
    const at0 = open(text.length);
    write(text, at0);
    const result = module.calls.langtag_parse(module.begin, text.length, module.outs[0]) >>> 0;
    return close([result, written(0), written(1), written(2), written(3), written(4), written(5), written(6), written(7), written(8), written(9), written(10), written(11)]);
}

export function baseLen(text) {
    const at0 = open(text.length);
    write(text, at0);
    return close(count(module.calls.langtag_base_len(module.begin, text.length)));
}

/** Returns [result, subtag.start, subtag.len, offset]. */
export function refused(text) {
    const at0 = open(text.length);
    write(text, at0);
    const result = module.calls.langtag_refused(module.begin, text.length, module.outs[0], module.outs[2]) >>> 0;
    return close([result, written(0), written(1), written(2)]);
}

export function eq(a, b) {
    const at0 = open(a.length + b.length);
    const at1 = write(a, at0);
    write(b, at1);
    return close(module.calls.langtag_eq(module.begin, a.length, at1, b.length) !== 0);
}

export function cmp(a, b) {
    const at0 = open(a.length + b.length);
    const at1 = write(a, at0);
    write(b, at1);
    return close(module.calls.langtag_cmp(module.begin, a.length, at1, b.length));
}

/** Returns the changed string. */
export function fold(text) {
    const at0 = open(text.length);
    write(text, at0);
    module.calls.langtag_fold(module.begin, text.length);
    return close(read(at0, text.length));
}

/** Returns the changed string. */
export function recommend(text) {
    const at0 = open(text.length);
    write(text, at0);
    module.calls.langtag_recommend(module.begin, text.length);
    return close(read(at0, text.length));
}

/** Returns a list of [subtag.start, subtag.len]. */
export function everySubtag(text) {
    const at0 = open(text.length);
    write(text, at0);
    prepare(0, text.length);
    const items = [];
    while (module.calls.langtag_next_subtag(module.begin, text.length, module.outs[0], module.outs[2]) !== 0) {
        items.push([written(2), written(3)]);
    }
    return close(items);
}

/** Returns a list of [extension.start, extension.len]. */
export function everyExtension(text) {
    const at0 = open(text.length);
    write(text, at0);
    prepare(0, text.length);
    const items = [];
    while (module.calls.langtag_next_extension(module.begin, text.length, module.outs[0], module.outs[2]) !== 0) {
        items.push([written(2), written(3)]);
    }
    return close(items);
}

/** Returns [value.start, value.len] or undefined. */
export function keyword(text, key) {
    const at0 = open(text.length + key.length);
    const at1 = write(text, at0);
    write(key, at1);
    return close(module.calls.langtag_keyword(module.begin, text.length, at1, key.length, module.outs[0]) !== 0 ? [written(0), written(1)] : undefined);
}

/** Returns a list of [key.start, key.len, value.start, value.len]. */
export function everyKeyword(text) {
    const at0 = open(text.length);
    write(text, at0);
    prepare(0);
    const items = [];
    while (module.calls.langtag_next_keyword(module.begin, text.length, module.outs[0], module.outs[1], module.outs[3]) !== 0) {
        items.push([written(1), written(2), written(3), written(4)]);
    }
    return close(items);
}

/** Returns [attributes.start, attributes.len] or undefined. */
export function attributes(text) {
    const at0 = open(text.length);
    write(text, at0);
    return close(module.calls.langtag_attributes(module.begin, text.length, module.outs[0]) !== 0 ? [written(0), written(1)] : undefined);
}

/** Returns [language.start, language.len] or undefined. */
export function transform(text) {
    const at0 = open(text.length);
    write(text, at0);
    return close(module.calls.langtag_transform(module.begin, text.length, module.outs[0]) !== 0 ? [written(0), written(1)] : undefined);
}

/** Returns [value.start, value.len] or undefined. */
export function field(text, key) {
    const at0 = open(text.length + key.length);
    const at1 = write(text, at0);
    write(key, at1);
    return close(module.calls.langtag_field(module.begin, text.length, at1, key.length, module.outs[0]) !== 0 ? [written(0), written(1)] : undefined);
}

/** Returns a list of [key.start, key.len, value.start, value.len]. */
export function everyField(text) {
    const at0 = open(text.length);
    write(text, at0);
    prepare(0);
    const items = [];
    while (module.calls.langtag_next_field(module.begin, text.length, module.outs[0], module.outs[1], module.outs[3]) !== 0) {
        items.push([written(1), written(2), written(3), written(4)]);
    }
    return close(items);
}

/** Returns the written string. */
export function withPart(tag, part, text, room = tag.length + text.length + 32) {
    const at0 = open(tag.length + text.length + room);
    const at1 = write(tag, at0);
    const at2 = write(text, at1);
    const length = count(module.calls.langtag_with_part(module.begin, tag.length, part, at1, text.length, at2, room));
    if (length <= room) return close(read(at2, length));
    close();
    return withPart(tag, part, text, length);
}

/** Returns the written string. */
export function withKeyword(tag, key, value, room = tag.length + key.length + value.length + 32) {
    const at0 = open(tag.length + key.length + value.length + room);
    const at1 = write(tag, at0);
    const at2 = write(key, at1);
    const at3 = write(value, at2);
    const length = count(module.calls.langtag_with_keyword(module.begin, tag.length, at1, key.length, at2, value.length, at3, room));
    if (length <= room) return close(read(at3, length));
    close();
    return withKeyword(tag, key, value, length);
}

/** Returns the written string. */
export function withoutKeyword(tag, key, room = tag.length + key.length + 32) {
    const at0 = open(tag.length + key.length + room);
    const at1 = write(tag, at0);
    const at2 = write(key, at1);
    const length = count(module.calls.langtag_without_keyword(module.begin, tag.length, at1, key.length, at2, room));
    if (length <= room) return close(read(at2, length));
    close();
    return withoutKeyword(tag, key, length);
}

/** Returns the written string. */
export function extensionsForm(text, room = text.length + 32) {
    const at0 = open(text.length + room);
    const at1 = write(text, at0);
    const length = count(module.calls.langtag_extensions_form(module.begin, text.length, at1, room));
    if (length <= room) return close(read(at1, length));
    close();
    return extensionsForm(text, length);
}

export function isLocale(text) {
    const at0 = open(text.length);
    write(text, at0);
    return close(module.calls.langtag_is_locale(module.begin, text.length) !== 0);
}

/** Returns the written string. */
export function localeForm(text, room = text.length + 32) {
    const at0 = open(text.length + room);
    const at1 = write(text, at0);
    const length = count(module.calls.langtag_locale_form(module.begin, text.length, at1, room));
    if (length <= room) return close(read(at1, length));
    close();
    return localeForm(text, length);
}

/** Returns the written string. */
export function resolvedLocale(range, tag, room = range.length + tag.length + 32) {
    const at0 = open(range.length + tag.length + room);
    const at1 = write(range, at0);
    const at2 = write(tag, at1);
    const length = count(module.calls.langtag_resolved_locale(module.begin, range.length, at1, tag.length, at2, room));
    if (length <= room) return close(read(at2, length));
    close();
    return resolvedLocale(range, tag, length);
}

/** Returns [result, repeated.variant.start, repeated.variant.len, repeated.singleton.start, repeated.singleton.len]. */
export function repeats(text) {
    const at0 = open(text.length);
    write(text, at0);
    const result = module.calls.langtag_repeats(module.begin, text.length, module.outs[0]) >>> 0;
    return close([result, written(0), written(1), written(2), written(3)]);
}

/** Returns [result, invalid.start, invalid.len]. */
export function validity(text) {
    const at0 = open(text.length);
    write(text, at0);
    const result = module.calls.langtag_validity(module.begin, text.length, module.outs[0]) >>> 0;
    return close([result, written(0), written(1)]);
}

/** Returns the written string. */
export function suggestion(fault, subtag, room = subtag.length + 32) {
    const at0 = open(subtag.length + room);
    const at1 = write(subtag, at0);
    const length = count(module.calls.langtag_suggestion(fault, module.begin, subtag.length, at1, room));
    if (length <= room) return close(read(at1, length));
    close();
    return suggestion(fault, subtag, length);
}

/** Returns the written string. */
export function canonical(text, room = text.length + 32) {
    const at0 = open(text.length + room);
    const at1 = write(text, at0);
    const length = count(module.calls.langtag_canonical(module.begin, text.length, at1, room));
    if (length <= room) return close(read(at1, length));
    close();
    return canonical(text, length);
}

export function isCanonical(text) {
    const at0 = open(text.length);
    write(text, at0);
    return close(module.calls.langtag_is_canonical(module.begin, text.length) !== 0);
}

export function registryDate() {
    open(0);
    return close(module.calls.langtag_registry_date() >>> 0);
}

/** Returns the written string. */
export function maximized(text, room = text.length + 32) {
    const at0 = open(text.length + room);
    const at1 = write(text, at0);
    const length = count(module.calls.langtag_maximized(module.begin, text.length, at1, room));
    if (length <= room) return close(read(at1, length));
    close();
    return maximized(text, length);
}

/** Returns the written string. */
export function minimized(text, room = text.length + 32) {
    const at0 = open(text.length + room);
    const at1 = write(text, at0);
    const length = count(module.calls.langtag_minimized(module.begin, text.length, at1, room));
    if (length <= room) return close(read(at1, length));
    close();
    return minimized(text, length);
}

/** Returns the written string. */
export function cldrVersion(room = 32) {
    const at0 = open(room);
    const length = count(module.calls.langtag_cldr_version(module.begin, room));
    if (length <= room) return close(read(at0, length));
    close();
    return cldrVersion(length);
}

/** Returns the written string. */
export function parent(text, room = text.length + 32) {
    const at0 = open(text.length + room);
    const at1 = write(text, at0);
    const length = count(module.calls.langtag_parent(module.begin, text.length, at1, room));
    if (length <= room) return close(read(at1, length));
    close();
    return parent(text, length);
}

/** Returns the written string. */
export function nthParent(text, index, room = text.length + 32) {
    const at0 = open(text.length + room);
    const at1 = write(text, at0);
    const length = count(module.calls.langtag_nth_parent(module.begin, text.length, index, at1, room));
    if (length <= room) return close(read(at1, length));
    close();
    return nthParent(text, index, length);
}

export function isRightToLeft(text) {
    const at0 = open(text.length);
    write(text, at0);
    return close(module.calls.langtag_is_right_to_left(module.begin, text.length) !== 0);
}

export function distance(desired, supported) {
    const at0 = open(desired.length + supported.length);
    const at1 = write(desired, at0);
    write(supported, at1);
    return close(module.calls.langtag_distance(module.begin, desired.length, at1, supported.length) >>> 0);
}

export function bestForHeader(header, tags) {
    const tagsLength = lengthOf(tags);
    const at0 = open(header.length + tagsLength + SPAN * tags.length);
    const tagsAt = aligned(at0 + header.length + tagsLength);
    const at1 = write(header, at0);
    writeList(tags, at1, tagsAt);
    return close(count(module.calls.langtag_best_for_header(module.begin, header.length, at1, tagsLength, tagsAt, tags.length)));
}

export function bestForRanges(ranges, tags) {
    const rangesLength = lengthOf(ranges);
    const tagsLength = lengthOf(tags);
    const at0 = open(rangesLength + tagsLength + SPAN * ranges.length + SPAN * tags.length);
    const rangesAt = aligned(at0 + rangesLength + tagsLength);
    const tagsAt = aligned(rangesAt + SPAN * ranges.length);
    const at1 = writeList(ranges, at0, rangesAt);
    writeList(tags, at1, tagsAt);
    return close(count(module.calls.langtag_best_for_ranges(module.begin, rangesLength, rangesAt, ranges.length, at1, tagsLength, tagsAt, tags.length)));
}

/** Returns [result, found.range.start, found.range.len, found.distance]. */
export function matchForHeader(header, tags) {
    const tagsLength = lengthOf(tags);
    const at0 = open(header.length + tagsLength + SPAN * tags.length);
    const tagsAt = aligned(at0 + header.length + tagsLength);
    const at1 = write(header, at0);
    writeList(tags, at1, tagsAt);
    const result = count(module.calls.langtag_match_for_header(module.begin, header.length, at1, tagsLength, tagsAt, tags.length, module.outs[0]));
    return close([result, written(0), written(1), written(2)]);
}

/** Returns the numbers that C writes. */
export function suitableForHeader(header, tags, room) {
    const tagsLength = lengthOf(tags);
    const at0 = open(header.length + tagsLength + SPAN * tags.length + WORD * room);
    const tagsAt = aligned(at0 + header.length + tagsLength);
    const foundAt = tagsAt + SPAN * tags.length;
    const at1 = write(header, at0);
    writeList(tags, at1, tagsAt);
    return close(readSizes(foundAt, Math.min(room, count(module.calls.langtag_suitable_for_header(module.begin, header.length, at1, tagsLength, tagsAt, tags.length, foundAt, room)))));
}

/** Returns the numbers that C writes. */
export function suitableForRanges(ranges, tags, room) {
    const rangesLength = lengthOf(ranges);
    const tagsLength = lengthOf(tags);
    const at0 = open(rangesLength + tagsLength + SPAN * ranges.length + SPAN * tags.length + WORD * room);
    const rangesAt = aligned(at0 + rangesLength + tagsLength);
    const tagsAt = aligned(rangesAt + SPAN * ranges.length);
    const foundAt = tagsAt + SPAN * tags.length;
    const at1 = writeList(ranges, at0, rangesAt);
    writeList(tags, at1, tagsAt);
    return close(readSizes(foundAt, Math.min(room, count(module.calls.langtag_suitable_for_ranges(module.begin, rangesLength, rangesAt, ranges.length, at1, tagsLength, tagsAt, tags.length, foundAt, room)))));
}

export function siteBestForHeader(header, site) {
    const at0 = open(header.length + site.text.length + site.tags.length);
    const siteAt = aligned(at0 + header.length + site.text.length);
    writeBytes(site.tags, siteAt);
    const at1 = write(header, at0);
    writeBytes(site.text, at1);
    return close(count(module.calls.langtag_site_best_for_header(module.begin, header.length, at1, site.text.length, siteAt, site.count)));
}

export function siteBestForRanges(ranges, site) {
    const rangesLength = lengthOf(ranges);
    const at0 = open(rangesLength + site.text.length + SPAN * ranges.length + site.tags.length);
    const rangesAt = aligned(at0 + rangesLength + site.text.length);
    const siteAt = aligned(rangesAt + SPAN * ranges.length);
    writeBytes(site.tags, siteAt);
    const at1 = writeList(ranges, at0, rangesAt);
    writeBytes(site.text, at1);
    return close(count(module.calls.langtag_site_best_for_ranges(module.begin, rangesLength, rangesAt, ranges.length, at1, site.text.length, siteAt, site.count)));
}

/** Returns [result, found.range.start, found.range.len, found.distance]. */
export function siteMatchForHeader(header, site) {
    const at0 = open(header.length + site.text.length + site.tags.length);
    const siteAt = aligned(at0 + header.length + site.text.length);
    writeBytes(site.tags, siteAt);
    const at1 = write(header, at0);
    writeBytes(site.text, at1);
    const result = count(module.calls.langtag_site_match_for_header(module.begin, header.length, at1, site.text.length, siteAt, site.count, module.outs[0]));
    return close([result, written(0), written(1), written(2)]);
}

/** Returns the written string. */
export function fromPosix(name, room = name.length + 32) {
    const at0 = open(name.length + room);
    const at1 = write(name, at0);
    const length = count(module.calls.langtag_from_posix(module.begin, name.length, at1, room));
    if (length <= room) return close(read(at1, length));
    close();
    return fromPosix(name, length);
}

/** Returns the written string. */
export function toPosix(text, room = text.length + 32) {
    const at0 = open(text.length + room);
    const at1 = write(text, at0);
    const length = count(module.calls.langtag_to_posix(module.begin, text.length, at1, room));
    if (length <= room) return close(read(at1, length));
    close();
    return toPosix(text, length);
}

/** Returns [modifier.start, modifier.len] or undefined. */
export function unknownModifier(name) {
    const at0 = open(name.length);
    write(name, at0);
    return close(module.calls.langtag_unknown_modifier(module.begin, name.length, module.outs[0]) !== 0 ? [written(0), written(1)] : undefined);
}

export function grandfathered(text) {
    const at0 = open(text.length);
    write(text, at0);
    return close(module.calls.langtag_grandfathered(module.begin, text.length) >>> 0);
}

export function rangeKind(text) {
    const at0 = open(text.length);
    write(text, at0);
    return close(module.calls.langtag_range_kind(module.begin, text.length) >>> 0);
}

export function matchesBasic(range, tag) {
    const at0 = open(range.length + tag.length);
    const at1 = write(range, at0);
    write(tag, at1);
    return close(module.calls.langtag_matches_basic(module.begin, range.length, at1, tag.length) !== 0);
}

export function matchesExtended(range, tag) {
    const at0 = open(range.length + tag.length);
    const at1 = write(range, at0);
    write(tag, at1);
    return close(module.calls.langtag_matches_extended(module.begin, range.length, at1, tag.length) !== 0);
}

/** Returns a list of [rest.start, rest.len]. */
export function everyFallback(text) {
    const at0 = open(text.length);
    write(text, at0);
    prepare(0, text.length);
    const items = [];
    while (module.calls.langtag_next_fallback(module.begin, text.length, module.outs[0]) !== 0) {
        items.push([written(0), written(1)]);
    }
    return close(items);
}

/** Returns a list of [result, range.start, range.len, weight]. */
export function everyAccepted(text) {
    const at0 = open(text.length);
    write(text, at0);
    prepare(0, text.length);
    const items = [];
    for (;;) {
        const result = module.calls.langtag_next_accepted(module.begin, text.length, module.outs[0], module.outs[2], module.outs[4]) >>> 0;
        if (result === 0) return close(items);
        items.push([result, written(2), written(3), written(4)]);
    }
}

/** Returns [result, index, bad.start, bad.len]. */
export function tagForHeader(header, tags) {
    const tagsLength = lengthOf(tags);
    const at0 = open(header.length + tagsLength + SPAN * tags.length);
    const tagsAt = aligned(at0 + header.length + tagsLength);
    const at1 = write(header, at0);
    writeList(tags, at1, tagsAt);
    const result = module.calls.langtag_tag_for_header(module.begin, header.length, at1, tagsLength, tagsAt, tags.length, module.outs[0], module.outs[1]) >>> 0;
    return close([result, written(0), written(1), written(2)]);
}

export function tagForHeaderLenient(header, tags) {
    const tagsLength = lengthOf(tags);
    const at0 = open(header.length + tagsLength + SPAN * tags.length);
    const tagsAt = aligned(at0 + header.length + tagsLength);
    const at1 = write(header, at0);
    writeList(tags, at1, tagsAt);
    return close(count(module.calls.langtag_tag_for_header_lenient(module.begin, header.length, at1, tagsLength, tagsAt, tags.length)));
}
