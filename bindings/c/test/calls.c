/* The library's answers to the calls of the rows, in the form of the rows. */
#include "rows.h"

#include <langtag.h>
#include <stdlib.h>
#include <string.h>

/* The name of each number of an enum, as in the header. */
static const char *named(const char *const *names, size_t count, uint32_t number) {
    return number < count && names[number] ? names[number] : "unknown";
}
#define NAMED(names, number) named(names, sizeof(names) / sizeof *(names), number)

/* The answer to a call of one argument, and of two. */
#define OF_ONE(name, a)                                                                                                \
    static void name##_of(text *to, text a);                                                                           \
    static void answer_##name(text *to, const text *arguments) { name##_of(to, arguments[0]); }                        \
    static void name##_of(text *to, text a)
#define OF_TWO(name, a, b)                                                                                             \
    static void name##_of(text *to, text a, text b);                                                                   \
    static void answer_##name(text *to, const text *arguments) { name##_of(to, arguments[0], arguments[1]); }          \
    static void name##_of(text *to, text a, text b)

/* Writes bytes as the rows have them. */
static void put_bytes(text *to, const char *bytes, size_t len) {
    char escaped[8];
    put_word(to, len == 0 ? " ''" : " ");
    for (size_t index = 0; index < len; index++) {
        unsigned char byte = (unsigned char)bytes[index];
        if (byte > ' ' && byte < 0x7f && !strchr("\\{}", byte)) {
            put(to, bytes + index, 1);
            continue;
        }
        snprintf(escaped, sizeof escaped, "\\x%02x", byte);
        put_word(to, escaped);
    }
}

static void put_number(text *to, const char *name, unsigned long long number) {
    char digits[32];
    snprintf(digits, sizeof digits, " %llu", number);
    put_word(to, name);
    put_word(to, digits);
}

/* Writes the name and the subtags of a part. */
static void put_part(text *to, const char *name, text from, langtag_span part) {
    langtag_span rest = part, subtag;
    if (part.len > 0) put_word(to, name);
    while (langtag_next_subtag(from.at, from.len, &rest, &subtag)) put_bytes(to, from.at + subtag.start, subtag.len);
}

static void put_changed(text *to, const char *name, text from, void (*change)(char *, size_t)) {
    char *copy = fenced(BUFFER, from.len);
    memcpy(copy, from.at, from.len);
    change(copy, from.len);
    put_word(to, name);
    put_bytes(to, copy, from.len);
}

static const char *name_of_kind(uint32_t kind) {
    static const char *const names[] = {[LANGTAG_NONE] = "none", [LANGTAG_NORMAL] = "normal", [LANGTAG_PRIVATE_USE] = "private", [LANGTAG_IRREGULAR] = "irregular"};
    return NAMED(names, kind);
}

static void put_repeats(text *to, text from) {
    langtag_repeated repeated = {{1, 2}, {1, 2}}; /* the call does not read an out argument */
    uint32_t answer = langtag_repeats(from.at, from.len, &repeated);
    if (answer & LANGTAG_REPEATED_VARIANT) {
        put_part(to, "\n  repeated_variant", from, repeated.variant);
        put_number(to, "\n  at_variant", repeated.variant.start);
    } else if (repeated.variant.len != 0) put_word(to, " with a variant");
    if (answer & LANGTAG_REPEATED_SINGLETON) {
        put_part(to, "\n  repeated_singleton", from, repeated.singleton);
        put_number(to, "\n  at_singleton", repeated.singleton.start);
    } else if (repeated.singleton.len != 0) put_word(to, " with a singleton");
}

OF_ONE(tag, a) {
    static const langtag_parts none;
    langtag_parts parts;
    langtag_span rest, extension;
    char hash[32];
    memset(&parts, 0xaa, sizeof parts); /* the call does not read an out argument */
    uint32_t kind = langtag_parse(a.at, a.len, &parts);
    put_word(to, " "), put_word(to, name_of_kind(kind));
    if ((kind == LANGTAG_NONE || kind == LANGTAG_IRREGULAR) && memcmp(&parts, &none, sizeof none) != 0) put_word(to, " with parts");
    if (kind == LANGTAG_NONE) {
        put_repeats(to, a);
        return;
    }
    put_part(to, "\n  language", a, parts.language);
    put_part(to, "\n  script", a, parts.script);
    put_part(to, "\n  region", a, parts.region);
    put_part(to, "\n  variants", a, parts.variants);
    if (parts.extensions.len > 0) put_word(to, "\n  extensions");
    for (rest = parts.extensions; langtag_next_extension(a.at, a.len, &rest, &extension);)
        put_bytes(to, a.at + extension.start, extension.len);
    put_part(to, "\n  private_use", a, parts.private_use);
    put_repeats(to, a);
    put_changed(to, "\n  recommended", a, langtag_recommend);
    put_changed(to, "\n  folded", a, langtag_fold);
    snprintf(hash, sizeof hash, "\n  hash %016llx", (unsigned long long)langtag_hash(LANGTAG_HASH, a.at, a.len));
    put_word(to, hash);
}

OF_ONE(validity, a) {
    static const char *const names[] = {
        [LANGTAG_VALIDITY_NONE] = "none", [LANGTAG_VALID] = "valid", [LANGTAG_INVALID_LANGUAGE] = "language", [LANGTAG_INVALID_EXTLANG] = "extlang",
        [LANGTAG_INVALID_SECOND_EXTLANG] = "second-extlang", [LANGTAG_INVALID_SCRIPT] = "script", [LANGTAG_INVALID_REGION] = "region",
        [LANGTAG_INVALID_VARIANT] = "variant", [LANGTAG_INVALID_REPEATED_VARIANT] = "repeated-variant",
        [LANGTAG_INVALID_REPEATED_SINGLETON] = "repeated-singleton",
    };
    langtag_span invalid = {1, 2}; /* the call does not read an out argument */
    uint32_t answer = langtag_validity(a.at, a.len, &invalid);
    put_word(to, " "), put_word(to, NAMED(names, answer));
    if (answer == LANGTAG_VALIDITY_NONE || answer == LANGTAG_VALID) {
        if (invalid.start != 0 || invalid.len != 0) put_word(to, " with a span");
        return;
    }
    put_number(to, "", invalid.start);
    put_bytes(to, a.at + invalid.start, invalid.len);
}

typedef size_t write_form(const char *, size_t, char *, size_t);

/* A call that writes a text, for the arguments of a row. */
typedef size_t write_text(const text *arguments, char *buffer, size_t room);

/* Writes what a call writes, and returns its length. The buffer is too long, exactly long enough, and too short. A call changes only
 * the bytes of its text, and none if the text does not fit, unless `is_partly` is true. */
static size_t put_written(text *to, const text *arguments, write_text *write, bool is_partly) {
    size_t len = write(arguments, fenced(BUFFER, 0), 0), start = to->len + 1;
    const size_t rooms[] = {len + 8, len, len > 0 ? len - 1 : 0};
    for (int k = 0; k < 3; k++) {
        bool fits = len <= rooms[k];
        size_t room = rooms[k], at = fits ? len : is_partly ? room : 0;
        char *buffer = fenced(BUFFER, room);
        memset(buffer, '~', room);
        if (write(arguments, buffer, room) != len) put_word(to, " whose length changes with the room");
        if (fits && len > 0 && k == 0) put_bytes(to, buffer, len);
        if (fits && len > 0 && memcmp(to->at + start, buffer, len) != 0) put_word(to, " that changes with the room");
        for (; at < room; at++)
            if (buffer[at] != '~') put_word(to, " and another byte");
    }
    return len;
}

static write_form *form_of_row;
static size_t write_form_of_row(const text *arguments, char *buffer, size_t room) {
    return form_of_row(arguments->at, arguments->len, buffer, room);
}

static void put_form(text *to, text a, write_form *write) {
    form_of_row = write;
    bool is_partly = write == langtag_extensions_form || write == langtag_locale_form;
    if (put_written(to, &a, write_form_of_row, is_partly) == 0) put_word(to, " -");
}

OF_ONE(canonical, a) {
    put_form(to, a, langtag_canonical);
    bool is_tag = langtag_kind(a.at, a.len) != LANGTAG_NONE;
    bool is_form = is_tag && to->len == a.len + 1 && langtag_eq(a.at, a.len, to->at + 1, a.len);
    if (langtag_is_canonical(a.at, a.len) != is_form) put_word(to, " but langtag_is_canonical says otherwise");
}

/* The suggestion for the first invalid subtag. */
static size_t write_suggestion(const char *bytes, size_t len, char *buffer, size_t room) {
    langtag_span invalid;
    uint32_t fault = langtag_validity(bytes, len, &invalid);
    return langtag_suggestion(fault, bytes + invalid.start, invalid.len, buffer, room);
}

static size_t write_version(const char *bytes, size_t len, char *buffer, size_t room) {
    (void)bytes, (void)len;
    return langtag_cldr_version(buffer, room);
}

static void answer_cldr_version(text *to, const text *arguments) {
    (void)arguments;
    put_form(to, (text){NULL, 0, 0}, write_version);
}

OF_ONE(suggestion, a) { put_form(to, a, write_suggestion); }
OF_ONE(maximized, a) { put_form(to, a, langtag_maximized); }
OF_ONE(minimized, a) { put_form(to, a, langtag_minimized); }
OF_ONE(extensions_form, a) { put_form(to, a, langtag_extensions_form); }
OF_ONE(posix, a) { put_form(to, a, langtag_from_posix); }
OF_ONE(posix_name, a) { put_form(to, a, langtag_to_posix); }

/* The tag and its parents. `parent` is the second one. */
static uint32_t parent_index;
static size_t write_parent(const char *bytes, size_t len, char *buffer, size_t buffer_len) {
    return parent_index == 1 ? langtag_parent(bytes, len, buffer, buffer_len) : langtag_nth_parent(bytes, len, parent_index, buffer, buffer_len);
}
OF_ONE(parents, a) {
    for (parent_index = 0; parent_index == 0 || langtag_nth_parent(a.at, a.len, parent_index, (char[1]){0}, 0) > 0; parent_index++)
        put_form(to, a, write_parent);
}

OF_ONE(base, a) {
    size_t len = langtag_base_len(a.at, a.len);
    if (len > 0) put_bytes(to, a.at, len);
    else put_word(to, " -");
}

OF_ONE(is_locale, a) { put_word(to, langtag_is_locale(a.at, a.len) ? " yes" : " no"); }

/* The form, which has to be a Unicode locale identifier. Each such identifier has a form. */
OF_ONE(locale_form, a) {
    put_form(to, a, langtag_locale_form);
    bool has_form = to->len != 2 || to->at[1] != '-';
    if (has_form != langtag_is_locale(to->at + 1, to->len - 1)) put_word(to, " which langtag_is_locale refuses");
    if (!has_form && langtag_is_locale(a.at, a.len)) put_word(to, " but langtag_is_locale accepts the tag");
}

static size_t write_resolved(const text *arguments, char *buffer, size_t room) {
    text range = arguments[0], tag = arguments[1];
    return langtag_resolved_locale(range.at, range.len, tag.at, tag.len, buffer, room);
}

static void answer_resolved_locale(text *to, const text *arguments) {
    if (put_written(to, arguments, write_resolved, true) == 0) put_word(to, " -");
}

/* Writes the bytes of a span that a call found. A call that found nothing leaves the span {1, 2} as it was. */
static bool put_found(text *to, text from, bool is_found, langtag_span span) {
    if (is_found) put_bytes(to, from.at + span.start, span.len);
    else put_word(to, span.start == 1 && span.len == 2 ? " -" : " - with a span");
    return is_found;
}

OF_ONE(unknown_modifier, name) {
    langtag_span modifier = {1, 2};
    bool is_found = langtag_unknown_modifier(name.at, name.len, &modifier);
    if (put_found(to, name, is_found, modifier) && (name.at[modifier.start - 1] != '@' || modifier.start + modifier.len != name.len))
        put_word(to, " in another place");
}

OF_ONE(right_to_left, a) {
    bool is_tag = langtag_kind(a.at, a.len) != LANGTAG_NONE;
    put_word(to, langtag_is_right_to_left(a.at, a.len) ? " yes" : is_tag ? " no" : " -");
}

OF_TWO(distance, a, b) {
    uint32_t distance = langtag_distance(a.at, a.len, b.at, b.len);
    if (distance == LANGTAG_NO_DISTANCE) put_word(to, " -");
    else put_number(to, "", distance);
}

OF_ONE(grandfathered, a) {
    put_number(to, "", langtag_grandfathered(a.at, a.len));
    put_word(to, " "), put_word(to, name_of_kind(langtag_kind(a.at, a.len)));
}

OF_ONE(refused, a) {
    static const char *const names[] = {[LANGTAG_REFUSED_NONE] = "none", [LANGTAG_REFUSED_SUBTAG] = "subtag", [LANGTAG_REFUSED_BYTE] = "byte", [LANGTAG_REFUSED_END] = "end"};
    langtag_span subtag = {1, 2}; /* the call does not read an out argument */
    size_t offset = 3;
    uint32_t answer = langtag_refused(a.at, a.len, &subtag, &offset);
    put_word(to, " "), put_word(to, NAMED(names, answer));
    put_number(to, "", subtag.start), put_number(to, "", subtag.len), put_number(to, "", offset);
}

OF_ONE(viable, a) {
    put_number(to, "", langtag_viable_len(a.at, a.len)), put_number(to, "", langtag_stop_len(a.at, a.len));
}

/* How many bytes have to be read, how many prefixes are tags, the kind of the text, and where the parts of a normal tag end. */
OF_ONE(scan, a) {
    size_t tags = 0;
    langtag_parts parts;
    uint32_t kind = langtag_parse(a.at, a.len, &parts);
    const langtag_span spans[] = {parts.language, parts.script, parts.region, parts.variants, parts.extensions, parts.private_use};
    for (size_t len = 0; len <= a.len; len++) tags += langtag_kind(a.at, len) != LANGTAG_NONE;
    put_number(to, "", langtag_stop_len(a.at, a.len)), put_number(to, "", tags);
    put_word(to, " "), put_word(to, name_of_kind(kind));
    for (size_t k = 0; k < sizeof spans / sizeof *spans && kind == LANGTAG_NORMAL; k++) put_number(to, "", spans[k].start + spans[k].len);
    if (kind == LANGTAG_IRREGULAR) put_number(to, "", langtag_grandfathered(a.at, a.len));
}

OF_ONE(recommended, a) { put_changed(to, "", a, langtag_recommend); }

OF_ONE(fallbacks, a) {
    langtag_span rest = {0, a.len};
    if (langtag_range_kind(a.at, a.len) == LANGTAG_RANGE_NONE) {
        put_word(to, " refused");
        return;
    }
    do put_bytes(to, a.at, rest.len);
    while (langtag_next_fallback(a.at, a.len, &rest));
}

static size_t commas_before(text header, size_t end) {
    size_t commas = 0;
    for (size_t at = 0; at < end; at++) commas += header.at[at] == ',';
    return commas;
}

/* Whether a span begins or ends with a space or a tab. */
static bool has_blank_end(text a, langtag_span span) {
    return span.len > 0 && (memchr(" \t", a.at[span.start], 2) || memchr(" \t", a.at[span.start + span.len - 1], 2));
}

/* Writes the elements of a weight, and returns the next lower weight. */
static uint32_t put_elements(text *to, text a, uint32_t of) {
    langtag_span rest = {0, a.len}, range;
    uint32_t answer, weight, next = 0;
    while ((answer = langtag_next_accepted(a.at, a.len, &rest, &range, &weight)) != LANGTAG_ACCEPTED_END) {
        if (answer != LANGTAG_ACCEPTED_RANGE) continue;
        if (weight < of && weight > next) next = weight;
        if (weight == of) put_bytes(to, a.at + range.start, range.len), put_number(to, "", weight);
    }
    return next;
}

/* The message for the first malformed element, and the ranges by descending weight. */
OF_ONE(elements, a) {
    langtag_span rest = {0, a.len}, range;
    uint32_t weight, answer;
    do answer = langtag_next_accepted(a.at, a.len, &rest, &range, &weight);
    while (answer == LANGTAG_ACCEPTED_RANGE);
    if (answer != LANGTAG_ACCEPTED_END) {
        put_number(to, has_blank_end(a, range) ? " blank element" : " element", commas_before(a, range.start));
        put_word(to, answer == LANGTAG_ACCEPTED_BAD_RANGE ? " has a bad language range |" : " has a bad weight |");
    }
    size_t before = to->len;
    for (uint32_t of = put_elements(to, a, 1001); of > 0;) of = put_elements(to, a, of);
    if (to->len == before) put_word(to, " -");
}

OF_ONE(range, a) {
    static const char *const names[] = {[LANGTAG_RANGE_NONE] = "none", [LANGTAG_RANGE_BASIC] = "basic", [LANGTAG_RANGE_EXTENDED] = "extended"};
    put_word(to, " "), put_word(to, NAMED(names, langtag_range_kind(a.at, a.len)));
}

OF_TWO(match, a, b) {
    bool basic = langtag_matches_basic(a.at, a.len, b.at, b.len);
    bool extended = langtag_matches_extended(a.at, a.len, b.at, b.len);
    put_word(to, basic ? extended ? " both" : " basic" : extended ? " extended" : " neither");
}

OF_TWO(order, a, b) {
    int32_t order = langtag_cmp(a.at, a.len, b.at, b.len);
    bool is_equal = langtag_eq(a.at, a.len, b.at, b.len);
    put_word(to, order == -1 ? " before" : order == 0 ? " equal" : order == 1 ? " after" : " unknown");
    if (is_equal != (order == 0)) put_word(to, " but langtag_eq says otherwise");
}

static uint32_t part_named(text name) {
    static const char *const names[] = {
        [LANGTAG_PART_LANGUAGE] = "language",     [LANGTAG_PART_SCRIPT] = "script",
        [LANGTAG_PART_REGION] = "region",         [LANGTAG_PART_VARIANTS] = "variants",
        [LANGTAG_PART_EXTENSIONS] = "extensions", [LANGTAG_PART_PRIVATE_USE] = "private_use",
    };
    uint32_t part = 0;
    while (part < 6 && (strlen(names[part]) != name.len || memcmp(names[part], name.at, name.len) != 0)) part++;
    return part;
}

/* In C the empty text removes any part, as `none` does. */
static size_t write_part(const text *arguments, char *buffer, size_t room) {
    text tag = arguments[0], given = arguments[2];
    bool is_none = given.len == 4 && memcmp(given.at, "none", 4) == 0;
    return langtag_with_part(tag.at, tag.len, part_named(arguments[1]), given.at, is_none ? 0 : given.len, buffer, room);
}

/* An empty script, region or private-use part is no question for other languages. */
static void answer_edit(text *to, const text *arguments) {
    text tag = arguments[0], given = arguments[2];
    uint32_t part = part_named(arguments[1]);
    bool is_optional = part == LANGTAG_PART_SCRIPT || part == LANGTAG_PART_REGION || part == LANGTAG_PART_PRIVATE_USE;
    bool is_normal = langtag_kind(tag.at, tag.len) == LANGTAG_NORMAL;
    if (given.len == 0 && is_optional && is_normal) return;
    if (put_written(to, arguments, write_part, false) == 0) put_word(to, is_normal ? " refused" : " no parts");
}

enum { MOST_TAGS = 1 << 20 };

/* The ranges and the tags of a row, as spans of its texts. */
static langtag_span ranges[MOST_TAGS], tags[MOST_TAGS];

/* The tags of a text as spans of it, and one more span that reaches beyond the text. */
static size_t find_tags(text words, langtag_span *found) {
    size_t count = 0;
    for (size_t at = 0; at < words.len;) {
        if (count == MOST_TAGS - 1) abort();
        const char *blank = memchr(words.at + at, ' ', words.len - at);
        size_t end = blank ? (size_t)(blank - words.at) : words.len;
        if (end > at) found[count++] = (langtag_span){at, end - at};
        at = end + 1;
    }
    found[count] = (langtag_span){words.len, SIZE_MAX};
    return count;
}

typedef size_t choice(const char *header, size_t header_len, const char *bytes, size_t len, const langtag_span *tags, size_t count);

static void put_tag(text *to, text words, size_t count, size_t index) {
    if (index < count) put_bytes(to, words.at + tags[index].start, tags[index].len);
    else put_word(to, index == count ? " -" : " beyond the tags");
}

/* Writes the tag that a call chooses, without and with a span that reaches beyond the text. Returns its index. */
static size_t put_chosen(text *to, choice *choose, text header, text words) {
    size_t count = find_tags(words, tags);
    size_t index = choose(header.at, header.len, words.at, words.len, tags, count);
    put_tag(to, words, count, index);
    size_t again = choose(header.at, header.len, words.at, words.len, tags, count + 1);
    if (again != (index < count ? index : count + 1)) put_word(to, " but another beside a span out of the text");
    return index;
}

/* The result of the strict call: the tag, or the malformed element. */
static void put_strictly(text *to, text header, text words) {
    langtag_span bad;
    size_t count = find_tags(words, tags), index;
    uint32_t answer = langtag_tag_for_header(header.at, header.len, words.at, words.len, tags, count, &index, &bad);
    if (answer == LANGTAG_ACCEPTED_END) {
        put_tag(to, words, count, index);
        if (bad.start != header.len || bad.len != 0) put_word(to, " and a bad element");
        return;
    }
    put_number(to, " bad", commas_before(header, bad.start)), put_number(to, "", bad.start);
    put_word(to, answer == LANGTAG_ACCEPTED_BAD_RANGE ? " range" : answer == LANGTAG_ACCEPTED_BAD_WEIGHT ? " weight" : " unknown");
    const char *behind = header.at + bad.start + bad.len;
    while (behind < header.at + header.len && memchr(" \t", *behind, 2)) behind++;
    if (index != count || memchr(header.at + bad.start, ',', bad.len) || (behind < header.at + header.len && *behind != ',') ||
        has_blank_end(header, bad))
        put_word(to, " and another element");
}

OF_TWO(header, header, words) {
    put_strictly(to, header, words);
    put_word(to, " |"), put_chosen(to, langtag_tag_for_header_lenient, header, words);
}

/* Makes a header from ranges: they are joined by commas, and each "-*" is removed. */
OF_TWO(ranges, a, b) {
    text header = {NULL, 0, 0};
    put(&header, "", 0);
    for (size_t at = 0; at < a.len; at++) {
        const char *here = a.at + at;
        if (*here == '-' && at + 1 < a.len && here[1] == '*') at++;
        else put(&header, *here == ' ' ? "," : here, 1);
    }
    put_chosen(to, langtag_tag_for_header_lenient, header, b);
    free(header.at);
}

typedef bool find_value(const char *, size_t, const char *, size_t, langtag_span *);
typedef bool next_pair(const char *, size_t, size_t *, langtag_span *, langtag_span *);

/* Says so if a span is not in the first extension with a singleton. */
static void put_place(text *to, text tag, char singleton, langtag_span span) {
    langtag_parts parts;
    langtag_span extension = {0, 0};
    langtag_parse(tag.at, tag.len, &parts);
    while (langtag_next_extension(tag.at, tag.len, &parts.extensions, &extension) && (tag.at[extension.start] | 32) != singleton) continue;
    bool is_in = span.start > extension.start + 1 && span.start + span.len <= extension.start + extension.len;
    if (!is_in) put_word(to, " in another place");
}

OF_TWO(keyword, tag, key) {
    langtag_span value = {1, 2};
    bool is_found = langtag_keyword(tag.at, tag.len, key.at, key.len, &value);
    if (put_found(to, tag, is_found, value)) put_place(to, tag, 'u', value);
}

/* Calls langtag_without_keyword if the value is -, otherwise langtag_with_keyword. */
static size_t write_keyword(const text *arguments, char *buffer, size_t room) {
    text tag = arguments[0], key = arguments[1], value = arguments[2];
    if (value.len == 1 && value.at[0] == '-') return langtag_without_keyword(tag.at, tag.len, key.at, key.len, buffer, room);
    return langtag_with_keyword(tag.at, tag.len, key.at, key.len, value.at, value.len, buffer, room);
}

/* Asks what langtag.h says how to find out what was refused. */
static void answer_with_keyword(text *to, const text *arguments) {
    const text und[] = {{(char[]){'u', 'n', 'd'}, 3, 3}, arguments[1], arguments[2]};
    char none[] = {'~'};
    if (put_written(to, arguments, write_keyword, false) > 0) return;
    if (langtag_without_keyword("und", 3, und[1].at, und[1].len, none, 0) == 0) put_word(to, " bad key");
    else if (write_keyword(und, none, 0) == 0) put_word(to, " bad value");
    else put_word(to, langtag_kind(arguments->at, arguments->len) == LANGTAG_NORMAL ? " refused for no reason" : " no parts");
}

/* Writes KEY=VALUE for each, and checks that each is found by its key. */
static int put_pairs(text *to, text tag, char singleton, next_pair *next, find_value *find) {
    size_t passed = 0;
    langtag_span key, value, found;
    int count = 0;
    for (; next(tag.at, tag.len, &passed, &key, &value); count++) {
        put_bytes(to, tag.at + key.start, key.len), put_word(to, "=");
        if (value.len > 0) put(to, tag.at + value.start, value.len);
        if (!find(tag.at, tag.len, tag.at + key.start, key.len, &found) || found.start != value.start || found.len != value.len)
            put_word(to, " which has another value");
        put_place(to, tag, singleton, key), put_place(to, tag, singleton, value);
    }
    return count;
}

OF_ONE(keywords, a) { if (put_pairs(to, a, 'u', langtag_next_keyword, langtag_keyword) == 0) put_word(to, " -"); }

/* Writes each attribute once: an attribute that equals an earlier one is left out. */
OF_ONE(attributes, tag) {
    langtag_span rest, one, earlier, before, all;
    if (!langtag_attributes(tag.at, tag.len, &all)) put_word(to, all.len == 0 ? " -" : " - with a span");
    else put_place(to, tag, 'u', all);
    for (rest = all; langtag_next_subtag(tag.at, tag.len, &rest, &one);) {
        bool is_new = true;
        for (before = all; langtag_next_subtag(tag.at, tag.len, &before, &earlier) && earlier.start < one.start;)
            if (langtag_eq(tag.at + earlier.start, earlier.len, tag.at + one.start, one.len)) is_new = false;
        if (is_new) put_bytes(to, tag.at + one.start, one.len);
    }
}

OF_ONE(transform, tag) {
    langtag_span language = {1, 2};
    bool is_found = langtag_transform(tag.at, tag.len, &language);
    if (!put_found(to, tag, is_found, language)) return;
    put_place(to, tag, 't', language);
    put_pairs(to, tag, 't', langtag_next_field, langtag_field);
}

static langtag_prepared_tag site[MOST_TAGS], stale[MOST_TAGS];
static langtag_span left[MOST_TAGS];

/* Prepares the tags of a text, and one more span that reaches beyond the text. In `stale` each second tag has what was prepared for the
 * next. */
static size_t prepare_tags(text words) {
    size_t count = find_tags(words, tags);
    for (size_t i = 0; i <= count; i++) {
        site[i].tag = tags[i];
        langtag_prepare(words.at, words.len, &site[i]);
    }
    for (size_t i = 0; i < count; i++) {
        stale[i] = site[i % 2 ? i : i + 1 < count ? i + 1 : 0];
        stale[i].tag = tags[i];
    }
    return count;
}

/* Whether what an entry of `stale` has is true of its tag, or is nothing, because nothing was kept of the next tag. */
static bool is_current(size_t index) {
    return memcmp(stale[index].opaque, site[index].opaque, sizeof site->opaque) == 0 || (stale[index].opaque[0] & 0xFFFF) == 0;
}

/* Leaves out the tags for which an entry of `stale` was not prepared. */
static void leave_out_stale(size_t count) {
    for (size_t i = 0; i < count; i++) left[i] = is_current(i) ? tags[i] : (langtag_span){0, 0};
}

/* The choice of a site is that of the tags, and each tag is skipped for which it was not prepared. */
OF_TWO(best, header, words) {
    size_t index = put_chosen(to, langtag_best_for_header, header, words), count = prepare_tags(words);
    size_t of_site = langtag_site_best_for_header(header.at, header.len, words.at, words.len, site, count + 1);
    if (of_site != (index < count ? index : count + 1)) put_word(to, " but another of a site");
    size_t wrong = langtag_site_best_for_header(header.at, header.len, words.at, words.len, stale, count);
    leave_out_stale(count);
    if (wrong != langtag_best_for_header(header.at, header.len, words.at, words.len, left, count)) put_word(to, " but another beside stale tags of a site");
}

/* Also with spans that reach beyond the texts. */
OF_TWO(best_ranges, from, words) {
    size_t wanted = find_tags(from, ranges), count = find_tags(words, tags);
    size_t index = langtag_best_for_ranges(from.at, from.len, ranges, wanted, words.at, words.len, tags, count);
    put_tag(to, words, count, index);
    size_t again = langtag_best_for_ranges(from.at, from.len, ranges, wanted + 1, words.at, words.len, tags, count + 1);
    if (again != (index < count ? index : count + 1)) put_word(to, " but another beside spans out of the texts");
    prepare_tags(words);
    if (langtag_site_best_for_ranges(from.at, from.len, ranges, wanted, words.at, words.len, site, count) != index)
        put_word(to, " but another of a site");
    leave_out_stale(count);
    if (langtag_site_best_for_ranges(from.at, from.len, ranges, wanted, words.at, words.len, stale, count) !=
        langtag_best_for_ranges(from.at, from.len, ranges, wanted, words.at, words.len, left, count))
        put_word(to, " but another beside stale tags of a site");
}

/* The index, the distance and the range. All out arguments are written even if no tag is suitable. */
OF_TWO(best_match, header, words) {
    size_t count = find_tags(words, tags);
    langtag_best_match match = {{1, 2}, 3};
    size_t index = langtag_match_for_header(header.at, header.len, words.at, words.len, tags, count, &match);
    if (index != langtag_best_for_header(header.at, header.len, words.at, words.len, tags, count)) put_word(to, " another tag");
    langtag_best_match of_site = {{1, 2}, 3};
    prepare_tags(words);
    if (langtag_site_match_for_header(header.at, header.len, words.at, words.len, site, count, &of_site) != index ||
        of_site.range.start != match.range.start || of_site.range.len != match.range.len || of_site.distance != match.distance)
        put_word(to, " another of a site");
    leave_out_stale(count);
    langtag_best_match of_left = {{1, 2}, 3};
    if (langtag_site_match_for_header(header.at, header.len, words.at, words.len, stale, count, &of_site) !=
            langtag_match_for_header(header.at, header.len, words.at, words.len, left, count, &of_left) ||
        of_site.range.start != of_left.range.start || of_site.range.len != of_left.range.len || of_site.distance != of_left.distance)
        put_word(to, " another beside stale tags of a site");
    if (index < count) {
        put_number(to, "", index), put_number(to, "", match.distance);
        put_word(to, " "), put(to, header.at + match.range.start, match.range.len);
        return;
    }
    put_word(to, " -");
    if (index != count || match.range.start != header.len || match.range.len != 0 || match.distance != LANGTAG_NO_DISTANCE)
        put_word(to, " and a match");
}

/* How many items of an array of indices are compared: some more than the call may write. */
static size_t compared(size_t count) { return count + 64 < MOST_TAGS ? count + 64 : MOST_TAGS; }

/* Puts the tags at the indices. The rest of the array has to stay unchanged. */
static void put_tags(text *to, text words, size_t count, const size_t *found, size_t found_len) {
    for (size_t k = 0; k < found_len; k++) put_tag(to, words, count, found[k]);
    if (found_len == 0) put_word(to, " -");
    for (size_t k = found_len; k < compared(count); k++)
        if (found[k] != SIZE_MAX) put_word(to, " and a changed array");
}

/* All suitable tags. An array that is too short has to get the first of them, and the number is that of all. */
OF_TWO(suitable, header, words) {
    static size_t found[MOST_TAGS], some[MOST_TAGS];
    size_t count = find_tags(words, tags);
    memset(found, 0xff, compared(count) * sizeof *found);
    size_t found_len = langtag_suitable_for_header(header.at, header.len, words.at, words.len, tags, count + 1, found, count + 1);
    put_tags(to, words, count, found, found_len);
    for (size_t room = 0; room <= found_len; room++) {
        memset(some, 0xff, compared(count) * sizeof *some);
        if (langtag_suitable_for_header(header.at, header.len, words.at, words.len, tags, count, some, room) != found_len) put_word(to, " but another number");
        if (memcmp(some, found, room * sizeof *some) || some[room] != SIZE_MAX) put_word(to, " but others in a short array");
    }
}

OF_TWO(suitable_ranges, from, words) {
    static size_t found[MOST_TAGS];
    size_t wanted = find_tags(from, ranges), count = find_tags(words, tags);
    memset(found, 0xff, compared(count) * sizeof *found);
    size_t found_len = langtag_suitable_for_ranges(from.at, from.len, ranges, wanted + 1, words.at, words.len, tags, count + 1, found, count + 1);
    put_tags(to, words, count, found, found_len);
    if (langtag_suitable_for_ranges(from.at, from.len, ranges, wanted + 1, words.at, words.len, tags, count, found, 0) != found_len)
        put_word(to, " but another number");
}

#define CALL(name, answer) {name, answer_##answer, 0, 0}
call calls[] = {
    CALL("tag", tag), CALL("validity", validity), CALL("suggestion", suggestion), CALL("canonical", canonical),
    CALL("maximized", maximized), CALL("minimized", minimized), CALL("parents", parents), CALL("posix", posix),
    CALL("posix-name", posix_name), CALL("unknown-modifier", unknown_modifier), CALL("right-to-left", right_to_left),
    CALL("distance", distance), CALL("grandfathered", grandfathered), CALL("viable", viable), CALL("refused", refused),
    CALL("range", range), CALL("fallbacks", fallbacks), CALL("elements", elements), CALL("scan", scan),
    CALL("recommended", recommended), CALL("match", match), CALL("order", order), CALL("edit", edit), CALL("header", header),
    CALL("ranges", ranges), CALL("best", best), CALL("best-ranges", best_ranges), CALL("suitable", suitable),
    CALL("suitable-ranges", suitable_ranges), CALL("keyword", keyword), CALL("keywords", keywords),
    CALL("attributes", attributes), CALL("transform", transform), CALL("best-match", best_match),
    CALL("with-keyword", with_keyword), CALL("extensions-form", extensions_form), CALL("base", base),
    CALL("is-locale", is_locale), CALL("locale-form", locale_form), CALL("resolved-locale", resolved_locale), CALL("cldr-version", cldr_version),
    {NULL, NULL, 0, 0},
};
