/*
 * Names of tags from Unicode's CLDR and IANA's registry, for the wrappers of the C library: langtag_names.hpp, PostgreSQL and SQLite. The
 * functions do not allocate. They are not proved: tests compare them with the other languages.
 *
 * Each function takes the form of a tag that langtag_name_form writes. It is in the recommended case.
 */
#ifndef LANGTAG_NAMES_H
#define LANGTAG_NAMES_H

#include "langtag.h"
#include "langtag_names_data.h"
#include <string.h>

/* The bytes that begin rows, as data/names/generate.py describes them. A smaller byte is the third letter of a language, and a greater one
 * is text. While a byte is expanded, at most LANGTAG_NAME_DEPTH bytes wait. */
enum { LANGTAG_NAME_TWO_LETTERS = 27, LANGTAG_NAME_SUBTAG, LANGTAG_NAME_OWN, LANGTAG_NAME_REPLACED, LANGTAG_NAME_TEXT = 32, LANGTAG_NAME_DEPTH = 16 };

/* The greatest length of a tag whose locale form is written for a name, because that takes quadratic time. */
enum { LANGTAG_NAME_LONGEST = 262144 };

/* Writes the form of a tag whose subtags have the names, as langtag_canonical writes its form: the locale form, "de" for "ger", or the
 * canonical form if there is no locale form, or the tag has more than LANGTAG_NAME_LONGEST bytes. */
static inline size_t langtag_name_form(const char *tag, size_t len, char *buffer, size_t buffer_len) {
    const size_t form_len = len <= LANGTAG_NAME_LONGEST ? langtag_locale_form(tag, len, buffer, buffer_len) : 0;
    return form_len > 0 ? form_len : langtag_canonical(tag, len, buffer, buffer_len);
}

/* A string that is written to a buffer. Bytes that do not fit are counted. Parentheses inside parentheses are written as brackets. */
typedef struct langtag_name {
    char *buffer;
    size_t room, len;
    bool is_inside;
} langtag_name;

static inline void langtag_name_put(langtag_name *to, char byte) {
    if (to->is_inside && (byte == '(' || byte == ')')) byte = byte == '(' ? '[' : ']';
    if (to->len < to->room) to->buffer[to->len] = byte;
    to->len++;
}

/* The bytes of a name, as C's strings have them. C++ may refuse the casts of C. */
static inline const char *langtag_name_chars(const unsigned char *name) {
#ifdef __cplusplus
    return reinterpret_cast<const char *>(name);
#else
    return (const char *)name;
#endif
}

/* Writes the bytes for which a byte of a packed name stands. */
static inline void langtag_name_expand(langtag_name *to, unsigned char packed) {
    unsigned char waiting[LANGTAG_NAME_DEPTH] = {packed};
    for (size_t count = 1; count > 0;) {
        const unsigned char *pair = langtag_name_pairs[waiting[count - 1]];
        if (pair[0] == 0) langtag_name_put(to, *langtag_name_chars(waiting + --count));
        else waiting[count - 1] = pair[1], waiting[count++] = pair[0];
    }
}

/* Returns the name in the row of a key of at least two bytes, or NULL if there is none. It is packed unless it is a language's own name. */
static inline const unsigned char *langtag_name_row(int kind, const char *key, size_t len) {
    const unsigned char *row, *end;
    int group = 0;
    for (size_t k = 0; k < 2; k++) group = 36 * group + (key[k] <= '9' ? key[k] - '0' : (key[k] | 0x20) - 'a' + 10);
    end = langtag_name_rows + langtag_name_index[group + 1];
    for (row = langtag_name_rows + langtag_name_index[group]; row < end; row++) {
        if (*row != kind) continue;
        if (kind <= LANGTAG_NAME_TWO_LETTERS) return row + 1;
        if (strncmp(langtag_name_chars(row + 1), key + 2, len - 2) == 0 && row[len - 1] == ' ') return row + len;
    }
    return NULL;
}

static inline const unsigned char *langtag_name_language(const char *code, size_t len) {
    if (len != 2 && len != 3) return NULL;
    if (*code < 'a') return langtag_name_row(LANGTAG_NAME_REPLACED, code, len);
    return langtag_name_row(len == 2 ? LANGTAG_NAME_TWO_LETTERS : code[2] & 31, code, len);
}

/* Writes a packed name, or the subtag if it has no name. */
static inline void langtag_name_write(langtag_name *to, const unsigned char *name, const char *subtag, size_t len) {
    if (name)
        while (*name >= LANGTAG_NAME_TEXT) langtag_name_expand(to, *name++);
    else
        for (size_t k = 0; k < len; k++) langtag_name_put(to, subtag[k]);
}

/* Adds the English name of a subtag after the language, or the subtag if it has no name. */
static inline void langtag_name_subtag(langtag_name *to, const char *form, langtag_span subtag) {
    const char *bytes = form + subtag.start;
    if (subtag.len == 0) return;
    langtag_name_write(to, NULL, to->is_inside ? ", " : " (", 2);
    to->is_inside = true;
    langtag_name_write(to, langtag_name_row(LANGTAG_NAME_SUBTAG, bytes, subtag.len), bytes, subtag.len);
}

/* Puts the tag's own language in its form, its first letter in uppercase, if it is replaced with a language that CLDR does not name: Him,
 * not srx. Such languages have three letters. */
static inline void langtag_name_keep_language(const char *tag, size_t len, char *form) {
    char own[3];
    langtag_parts parts;
    if (langtag_parse(tag, len, &parts) != LANGTAG_NORMAL || parts.language.len != sizeof own) return;
    for (size_t k = 0; k < sizeof own; k++) own[k] = tag[k] | 0x20; /* in lowercase */
    if (!langtag_name_row(LANGTAG_NAME_REPLACED, own, sizeof own)) return;
    memcpy(form, own, sizeof own);
    form[0] &= 0x5f;
}

/*
 * Writes an English name of a tag, and returns its length: "Portuguese (Brazil)" for pt-BR. As with snprintf, the result may be greater
 * than `buffer_len`. The name is then cut off. A string that is not a tag, a private-use tag and an irregular tag are written as they are.
 * Call langtag_name_keep_language first.
 */
static inline size_t langtag_name_describe(const char *form, size_t len, char *buffer, size_t buffer_len) {
    langtag_name to = {buffer, buffer_len, 0, false};
    langtag_parts parts;
    if (langtag_parse(form, len, &parts) != LANGTAG_NORMAL) {
        langtag_name_write(&to, NULL, form, len);
        return to.len;
    }
    langtag_name_write(&to, langtag_name_language(form, parts.language.len), form, parts.language.len);
    langtag_name_subtag(&to, form, parts.script);
    langtag_name_subtag(&to, form, parts.region);
    for (langtag_span rest = parts.variants, variant; langtag_next_subtag(form, len, &rest, &variant);) langtag_name_subtag(&to, form, variant);
    if (to.is_inside) to.is_inside = false, langtag_name_put(&to, ')');
    return to.len;
}

/* The likely subtags of a tag without variants have at most as many bytes. */
enum { LANGTAG_NAME_ROOM = 64 };

/* Writes the likely script of a language, with its script and region if it has them, and returns the length of the script. */
static inline size_t langtag_name_script(const char *short_tag, size_t len, char script[4]) {
    char likely[LANGTAG_NAME_ROOM];
    langtag_parts parts;
    const size_t likely_len = langtag_maximized(short_tag, len, likely, sizeof likely);
    if (likely_len == 0 || likely_len > sizeof likely) return 0;
    langtag_parse(likely, likely_len, &parts);
    memcpy(script, likely + parts.script.start, parts.script.len);
    return parts.script.len;
}

/* Appends a hyphen and a part to a key, which has room for the longest key with a name. Returns the new length of the key. */
static inline size_t langtag_name_key(char *key, size_t len, const char *part, size_t part_len) {
    if (part_len == 0) return len;
    if (len + 1 + part_len > LANGTAG_NAME_ROOM) return LANGTAG_NAME_ROOM; /* no name has a key of this length */
    key[len] = '-';
    memcpy(key + len + 1, part, part_len);
    return len + 1 + part_len;
}

/* Writes the longest key of a tag, and the lengths of the beginnings of it that may have a name, the longest first. A length of 0 is none. */
static inline void langtag_name_keys(const char *form, const langtag_parts *parts, char *key, size_t lens[4]) {
    char likely[4], usual[4];
    const langtag_span script = parts->script, region = parts->region, variants = parts->variants;
    const size_t language_len = parts->language.len;
    const size_t short_len = region.len > 0 ? region.start + region.len : script.len > 0 ? script.start + script.len : language_len;
    const size_t likely_len = langtag_name_script(form, short_len, likely), usual_len = langtag_name_script(form, language_len, usual);
    const bool is_usual = likely_len == 0 || (likely_len == usual_len && memcmp(likely, usual, likely_len) == 0);
    memcpy(key, form, language_len);
    lens[3] = is_usual ? language_len : 0;
    lens[2] = script.len > 0 ? langtag_name_key(key, language_len, form + script.start, script.len)
                             : langtag_name_key(key, language_len, likely, is_usual ? 0 : likely_len);
    lens[1] = langtag_name_key(key, lens[2], form + region.start, region.len);
    lens[0] = langtag_name_key(key, lens[1], form + variants.start, variants.len);
}

/*
 * Returns the name of the tag's language in the language itself: "Deutsch" for de-DE. Returns NULL if CLDR has none in the tag's script.
 * The name is that of the longest beginning of the tag that has one.
 */
static inline const char *langtag_name_autonym(const char *form, size_t len) {
    char key[LANGTAG_NAME_ROOM];
    size_t lens[4];
    langtag_parts parts;
    if (langtag_parse(form, len, &parts) != LANGTAG_NORMAL) return NULL;
    langtag_name_keys(form, &parts, key, lens);
    for (size_t k = 0; k < sizeof lens / sizeof *lens; k++) {
        const bool is_asked = lens[k] > 0 && lens[k] < LANGTAG_NAME_ROOM;
        const unsigned char *name = is_asked ? langtag_name_row(LANGTAG_NAME_OWN, key, lens[k]) : NULL;
        if (name) return langtag_name_chars(name);
    }
    return NULL;
}

#endif
