/* Written by bindings/generate.py from langtag.h.in and crates/langtag_c. Do not edit. */
/*
 * langtag: language tags and language ranges by BCP 47 (RFC 5646 and RFC 4647).
 *
 *     const char *text = "zh-Hant-TW";
 *     langtag_parts parts;
 *     if (langtag_parse(text, strlen(text), &parts) != LANGTAG_NONE)
 *         printf("%.*s\n", (int)parts.script.len, text + parts.script.start); // Hant
 *
 * For every input, each function ends, returns and writes what its comment says, and touches only the memory of its
 * arguments. This is proved for the source. No function allocates, keeps state between calls, calls back,
 * prints, exits or sets errno. So the functions may be called from several threads at once, and from signal handlers.
 * Time grows linearly with the length of the strings, except for langtag_repeats, langtag_extensions_form,
 * langtag_is_locale, langtag_locale_form, langtag_resolved_locale, and the calls that take a list of tags. langtag_next_keyword and
 * langtag_next_field read the string from its start in each call. So a walk reads the string once for each different
 * key, of which there are at most 1,296.
 *
 * langtag_validity, langtag_canonical, langtag_is_canonical, langtag_locale_form and langtag_resolved_locale use the IANA
 * registry. The choice of a tag, distance, direction and likely subtags use only its extended languages, and its list of
 * replaced tags, such as i-klingon.
 *
 * WHAT THE CALLER MUST ENSURE. Nothing checks these rules at run time.
 *
 *   1. A pointer with a length after it points to that many bytes, at most PTRDIFF_MAX. They are readable, and also
 *      writable if the pointer is not const. Nothing else writes to them until the call returns. They may be any
 *      bytes, with or without NUL.
 *   2. No pointer is NULL, not even that of an empty string: pass "" instead. langtag_bytes turns NULL into a valid pointer.
 *   3. A pointer to a struct is aligned as C requires, and its memory is writable. An argument that a comment marks
 *      with "(out)" is only written, so it need not be initialised.
 *   4. Memory that a call may write through one argument (an out struct, `rest`, `passed`, a buffer, the bytes of langtag_fold and
 *      langtag_recommend) does not overlap the memory of any other argument. Strings that are only read may overlap.
 *   5. 4 KiB of the stack is free for each call, and 16 KiB for langtag_repeats,
 *      langtag_extensions_form, langtag_is_locale, langtag_locale_form, langtag_resolved_locale, langtag_best_for_header, langtag_best_for_ranges,
 *      langtag_match_for_header, langtag_site_best_for_header, langtag_site_best_for_ranges, langtag_site_match_for_header,
 *      langtag_suitable_for_header and langtag_suitable_for_ranges.
 *
 * Offsets and lengths are in bytes, and offsets count from the start of the string. Case is that of ASCII letters only.
 */
#ifndef LANGTAG_H
#define LANGTAG_H

#include <stddef.h>
#include <stdint.h>
#ifndef __cplusplus
#include <stdbool.h>
#endif

/* The version of the bindings, and the number in the library's soname, which changes if programs have to be rebuilt. */
#define LANGTAG_VERSION "0.2.0-dev"
#define LANGTAG_ABI_VERSION 1

#ifdef __cplusplus
extern "C" {
#endif

/* Marks a function that only reads memory, and whose only effect is its result. */
#if defined(__GNUC__) || defined(__clang__)
#define LANGTAG_PURE __attribute__((pure, warn_unused_result))
#define LANGTAG_NONNULL __attribute__((nonnull)) /* rule 2 */
#else
#define LANGTAG_PURE
#define LANGTAG_NONNULL
#endif

/* Returns a valid pointer for NULL, which some programs use for an empty string, and every other pointer unchanged. */
static inline const char *langtag_bytes(const void *pointer) {
#ifdef __cplusplus
    return pointer ? static_cast<const char *>(pointer) : "";
#else
    return pointer ? (const char *)pointer : "";
#endif
}

/* What langtag_kind and langtag_parse return. Regular grandfathered tags, such as zh-min-nan, are normal. */
enum langtag_kind_answer {
    LANGTAG_NONE = 0,        /* not a language tag */
    LANGTAG_NORMAL = 1,      /* rule langtag: zh-Hant-TW */
    LANGTAG_PRIVATE_USE = 2, /* rule privateuse: x-fr-CH */
    LANGTAG_IRREGULAR = 3    /* rule irregular: one of seventeen, such as i-klingon */
};

/* A span of a string: the offset of its first byte, and its number of bytes. An absent part has no bytes. */
typedef struct langtag_span {
    size_t start;
    size_t len;
} langtag_span;

/* Where each part of a tag is, for example in "zh-yue-Hant-HK-rozaj-1994-u-co-pinyin-x-mine": */
typedef struct langtag_parts {
    langtag_span language;    /* zh-yue: the primary subtag and up to three extended ones */
    langtag_span script;      /* Hant */
    langtag_span region;      /* HK */
    langtag_span variants;    /* rozaj-1994 */
    langtag_span extensions;  /* u-co-pinyin */
    langtag_span private_use; /* x-mine */
} langtag_parts;

/* Returns what langtag_parse returns, without the parts. */
LANGTAG_PURE uint32_t langtag_kind(const char *bytes, size_t len) LANGTAG_NONNULL;

/*
 * Parses a tag (RFC 5646 section 2.1): returns an enum langtag_kind_answer, and writes where the parts are (out).
 *
 * All of `parts` is written, even if the result is LANGTAG_NONE. No span reaches beyond the string.
 *
 * - For a normal tag, an absent part has the length 0, and starts at the end of the part before it.
 * - For a private-use tag such as x-fr-CH, `private_use` is the whole string, and all other members are 0.
 * - For an irregular tag, and for a string that is not a tag, all members are 0.
 */
uint32_t langtag_parse(const char *bytes, size_t len, langtag_parts *parts) LANGTAG_NONNULL;

/*
 * Returns the length of a tag without its extensions and private use, which is 10 for de-CH-1996-u-co-phonebk-x-mine.
 * A private-use tag and an irregular tag have no extensions, so this is their length. Returns 0 for bytes that are not
 * a tag.
 */
LANGTAG_PURE size_t langtag_base_len(const char *bytes, size_t len) LANGTAG_NONNULL;

/*
 * Returns the length of the longest prefix with which some tag begins: 3 for "i-no" and for "en-". It is `len` if and
 * only if the string is a tag, or more bytes can make it one.
 */
LANGTAG_PURE size_t langtag_viable_len(const char *bytes, size_t len) LANGTAG_NONNULL;

/*
 * Returns the length of the shortest prefix with which no tag begins, or `len` if there is none: 4 for "i-no", 3 for
 * "en-". A program that reads the string byte by byte can stop there.
 */
LANGTAG_PURE size_t langtag_stop_len(const char *bytes, size_t len) LANGTAG_NONNULL;

/* What langtag_refused returns: that a string is a tag, or why it is not. */
enum langtag_refused_answer {
    LANGTAG_REFUSED_NONE = 0,   /* it is a tag */
    LANGTAG_REFUSED_SUBTAG = 1, /* a subtag is empty or not allowed in its place: DE in de-419-DE, the empty subtag in de--AT */
    LANGTAG_REFUSED_BYTE = 2,   /* a byte is neither a letter nor a digit: _ in de_CH */
    LANGTAG_REFUSED_END = 3     /* the string ends too soon: en-, en-a, i-kling */
};

/*
 * Returns why a string is not a tag, as an enum langtag_refused_answer. Writes the wrong subtag (out) and the offset
 * to point at (out).
 *
 *     langtag_span subtag;
 *     size_t offset;
 *     langtag_refused("de-419-DE", 9, &subtag, &offset);
 *     printf("%.*s %zu\n", (int)subtag.len, "de-419-DE" + subtag.start, offset); // DE 7
 *
 * The subtag is the first wrong one: no tag begins with the whole subtags up to and including this one. The offset is
 * the start of the subtag, or for LANGTAG_REFUSED_BYTE its first byte that is neither a letter nor a digit. For
 * LANGTAG_REFUSED_NONE and LANGTAG_REFUSED_END the subtag is empty, and subtag and offset are at the end of the
 * string.
 */
uint32_t langtag_refused(const char *bytes, size_t len, langtag_span *subtag, size_t *offset) LANGTAG_NONNULL;

#define LANGTAG_HASH UINT64_C(0xcbf29ce484222325)

/*
 * Returns whether two strings are equal, ignoring case, which has no meaning in tags (RFC 5646 section 2.1.1). They
 * may be any bytes.
 */
LANGTAG_PURE bool langtag_eq(const char *a, size_t a_len, const char *b, size_t b_len) LANGTAG_NONNULL;

/*
 * Compares two strings, ignoring case: returns -1, 0 or 1, and 0 if and only if langtag_eq returns true. They may be
 * any bytes.
 *
 * A string sorts after every longer string that begins with it: zh sorts after zh-Latn. For alphabetical order (de
 * before de-AT), change copies with langtag_fold, and compare these as strings.
 */
LANGTAG_PURE int32_t langtag_cmp(const char *a, size_t a_len, const char *b, size_t b_len) LANGTAG_NONNULL;

/*
 * Returns the 64-bit FNV-1a hash of a string in lowercase. `state` is LANGTAG_HASH, or the hash of the bytes that come
 * before the string in a longer key.
 *
 * An attacker who controls the strings can cause collisions. To prevent that, change a copy with langtag_fold and use
 * a keyed hash.
 */
LANGTAG_PURE uint64_t langtag_hash(uint64_t state, const char *bytes, size_t len) LANGTAG_NONNULL;

/* Changes the ASCII uppercase letters among any bytes to lowercase, in place. */
void langtag_fold(char *bytes, size_t len) LANGTAG_NONNULL;

/*
 * Changes a string to the case that RFC 5646 section 2.1.1 recommends, in place: zh-hant-tw becomes zh-Hant-TW.
 *
 * Letters become lowercase, except in subtags of two bytes, which become uppercase (CH), and of four bytes, which get
 * one uppercase letter (Latn). The exceptions do not apply to the first subtag, or to any subtag that comes after a
 * subtag of one byte. The string may be any bytes. A tag keeps its kind, and its parts keep their offsets.
 */
void langtag_recommend(char *bytes, size_t len) LANGTAG_NONNULL;

/*
 * Removes the first subtag from `rest`, and writes it to `subtag` (out). `rest` then begins after the next hyphen.
 * Begin with a copy of the span of a part:
 *
 *     const char *text = "sl-rozaj-1994";
 *     size_t len = strlen(text);
 *     langtag_parts parts;
 *     langtag_parse(text, len, &parts);
 *     langtag_span rest = parts.variants, variant;
 *     while (langtag_next_subtag(text, len, &rest, &variant))
 *         printf("%.*s ", (int)variant.len, text + variant.start); // rozaj 1994
 *
 * Returns false if and only if `rest` is empty or reaches beyond the string, and then leaves both spans unchanged. So
 * an empty subtag after the last hyphen is not returned: "a-" has one subtag. In "a--b", the second of three subtags
 * is empty.
 */
bool langtag_next_subtag(const char *bytes, size_t len, langtag_span *rest, langtag_span *subtag) LANGTAG_NONNULL;

/*
 * Removes the first extension, such as u-co-pinyin, from `rest`, as langtag_next_subtag removes a subtag. Begin with
 * `parts.extensions`. From any other span, the bytes before the first hyphen that is followed by a subtag of one byte
 * are removed.
 */
bool langtag_next_extension(const char *bytes, size_t len, langtag_span *rest,
                            langtag_span *extension) LANGTAG_NONNULL;

/*
 * Returns whether the extension u has a key (RFC 6067 section 2.1), ignoring case, and writes where its value is
 * (out).
 *
 *     const char *text = "ar-EG-u-ca-islamic-civil-nu-latn";
 *     langtag_span value;
 *     if (langtag_keyword(text, strlen(text), "ca", 2, &value))
 *         printf("%.*s\n", (int)value.len, text + value.start); // islamic-civil
 *
 * The value is empty if the key has none, such as kn in de-u-kn. An empty value means true. If a key or the extension
 * is repeated, the first one counts.
 *
 * Returns false and leaves `value` unchanged if the key is absent, or the string is not a tag.
 */
bool langtag_keyword(const char *bytes, size_t len, const char *key, size_t key_len,
                     langtag_span *value) LANGTAG_NONNULL;

/*
 * Writes where the key and the value of the next keyword of the extension u are (out). The value may be empty. Each
 * key is returned once, with its first value. `passed` counts the subtags of u that were passed. Begin with 0, and let
 * the calls change it:
 *
 *     const char *text = "ar-u-ca-islamic-civil-nu-latn";
 *     size_t passed = 0, len = strlen(text);
 *     langtag_span key, value;
 *     while (langtag_next_keyword(text, len, &passed, &key, &value))
 *         printf("%.*s=%.*s ", (int)key.len, text + key.start, (int)value.len, text + value.start); // ca=islamic-civil nu=latn
 *
 * Returns false and leaves all three unchanged if no keyword is left, or the string is not a tag.
 */
bool langtag_next_keyword(const char *bytes, size_t len, size_t *passed, langtag_span *key,
                          langtag_span *value) LANGTAG_NONNULL;

/*
 * Writes where the attributes of the extension u are (out), which come before its first key (RFC 6067 section 2.1):
 * attr-foo in de-u-attr-foo-ca-buddhist. langtag_next_subtag returns them one by one. A repeated attribute, which has
 * no meaning, is returned too.
 *
 * Returns false, and writes an empty span, if there are none.
 */
bool langtag_attributes(const char *bytes, size_t len, langtag_span *attributes) LANGTAG_NONNULL;

/*
 * Returns whether a tag has the extension t (RFC 6497 section 2.2), and writes where the language of t is (out),
 * before its first field: ja-latn in und-t-ja-latn-m0-hepburn. The language is empty if there is none, and it need not
 * be a tag.
 *
 * Returns false and leaves `language` unchanged if there is no t.
 */
bool langtag_transform(const char *bytes, size_t len, langtag_span *language) LANGTAG_NONNULL;

/* Finds the value of a field of the extension t, as langtag_keyword does for u: hepburn for m0 in und-t-ja-m0-hepburn. */
bool langtag_field(const char *bytes, size_t len, const char *key, size_t key_len,
                   langtag_span *value) LANGTAG_NONNULL;

/* Writes the next field of the extension t, as langtag_next_keyword does for the keywords of u. */
bool langtag_next_field(const char *bytes, size_t len, size_t *passed, langtag_span *key,
                        langtag_span *value) LANGTAG_NONNULL;

/* The parts of a normal tag, by number. */
enum langtag_part {
    LANGTAG_PART_LANGUAGE = 0,   /* zh-yue */
    LANGTAG_PART_SCRIPT = 1,     /* Hant */
    LANGTAG_PART_REGION = 2,     /* HK */
    LANGTAG_PART_VARIANTS = 3,   /* rozaj-1994 */
    LANGTAG_PART_EXTENSIONS = 4, /* u-co-pinyin */
    LANGTAG_PART_PRIVATE_USE = 5 /* x-mine */
};

/*
 * Writes a normal tag with one part changed to `buffer`, and returns the length of the new tag. `part` is an enum
 * langtag_part. An empty string removes the part. All other parts stay, and the new part keeps its case.
 *
 *     char buffer[64];
 *     size_t len = langtag_with_part("sl-IT-rozaj", 11, LANGTAG_PART_SCRIPT, "Latn", 4, buffer, sizeof buffer);
 *     if (len > 0 && len <= sizeof buffer) printf("%.*s\n", (int)len, buffer); // sl-Latn-IT-rozaj
 *
 * As with snprintf, the result may be greater than `buffer_len`. It is then the size that is needed, and nothing is
 * written. A size of tag_len + text_len + 1 is always enough. No NUL is written, and bytes after the new tag are left
 * unchanged.
 *
 * Returns 0 and writes nothing if the tag is not LANGTAG_NORMAL, if `part` is not a value of enum langtag_part, or if
 * the string is not such a part: Latin is not a script. The language cannot be removed.
 */
size_t langtag_with_part(const char *tag, size_t tag_len, uint32_t part, const char *text, size_t text_len,
                         char *buffer, size_t buffer_len) LANGTAG_NONNULL;

/*
 * Writes a normal tag with a value of a key of the extension u to `buffer` (RFC 6067 section 2.1), and returns the
 * length of the new tag. An empty value means true: the key then has no value. langtag_without_keyword removes a key.
 *
 *     char buffer[64];
 *     size_t len = langtag_with_keyword("th-u-ca-gregory-nu-thai", 23, "ca", 2, "buddhist", 8, buffer, sizeof buffer);
 *     if (len > 0 && len <= sizeof buffer) printf("%.*s\n", (int)len, buffer); // th-u-ca-buddhist-nu-thai
 *
 * A key that the tag already has keeps its position and its case, and its repetitions are removed. A new key is put
 * before the first greater key, and a new extension u before the first greater singleton. All other bytes stay.
 *
 * As with snprintf, the result may be greater than `buffer_len`. It is then the size that is needed, and nothing is
 * written. A size of tag_len + key_len + value_len + 4 is always enough. This sum must fit into a size_t. No NUL is
 * written, and bytes after the new tag are left unchanged.
 *
 * Returns 0 and writes nothing in three cases. To find out which, ask in this order:
 *
 * 1. The key, such as c4, does not consist of a letter or digit and then a letter: langtag_without_keyword("und", 3,
 *    key, key_len, buffer, 0) returns 0.
 * 2. A subtag of the value does not have three to eight letters or digits: this call with the tag "und" returns 0.
 * 3. Otherwise the tag is not LANGTAG_NORMAL, and has no place for a keyword.
 */
size_t langtag_with_keyword(const char *tag, size_t tag_len, const char *key, size_t key_len, const char *value,
                            size_t value_len, char *buffer, size_t buffer_len) LANGTAG_NONNULL;

/*
 * Writes a normal tag without a key of the extension u to `buffer`, and returns its length, as langtag_with_keyword
 * does: without ca, th-u-ca-gregory-nu-thai becomes th-u-nu-thai. Each keyword of the key is removed from the first u,
 * and so is this u if nothing else is in it. All other bytes stay. A size of tag_len is always enough.
 *
 * Returns 0 and writes nothing if the tag is not LANGTAG_NORMAL, or if the key does not consist of a letter or digit
 * and then a letter.
 */
size_t langtag_without_keyword(const char *tag, size_t tag_len, const char *key, size_t key_len, char *buffer,
                               size_t buffer_len) LANGTAG_NONNULL;

/*
 * Writes a tag with its extensions u and t in canonical form to `buffer` (UTS #35, part 1, Annex C), and returns its
 * length: en-u-nu-thai-ca-gregory-kn-true becomes en-u-ca-gregory-kn-nu-thai. If the buffer is too short, its bytes
 * are unspecified, and the result is the size that is needed.
 *
 *     char buffer[64];
 *     size_t len = langtag_extensions_form("de-u-CO-phonebk-ca-islamicc", 27, buffer, sizeof buffer);
 *     if (len > 0 && len <= sizeof buffer) printf("%.*s\n", (int)len, buffer); // de-u-ca-islamic-civil-co-phonebk
 *
 * Attributes, keywords and fields are put in alphabetical order, each once and in lowercase. If a key is repeated, its
 * first value counts. Types and subdivisions that CLDR replaces become their replacements. The value true is left out
 * of u. The variants in the language of t are put in alphabetical order.
 *
 * All other bytes stay, and so does a tag without these extensions. Only the first u and the first t are changed. A t
 * that UTS #35 does not allow, such as t-m0, stays as it is. The order of the extensions stays, too; langtag_canonical
 * sorts them.
 *
 * Time is quadratic beyond 512 attributes, or variants in the language of t: up to 2 s for 1 MB. The form may be
 * longer than the tag.
 *
 * Returns 0 and writes nothing if the string is not a tag.
 */
size_t langtag_extensions_form(const char *bytes, size_t len, char *buffer, size_t buffer_len) LANGTAG_NONNULL;

/*
 * Returns whether a string is a Unicode locale identifier (UTS #35, part 1, section "Unicode Locale Identifier"), as
 * Intl of JavaScript requires: true for de-1996-u-co-phonebk, false for x-a, i-klingon, zh-yue and und-t-m0, which are
 * tags, and for a string that is not a tag.
 *
 * The language has two, three, or five to eight letters, and no extended language. No variant and no singleton is
 * repeated. Each key of u ends with a letter. In t, the language meets the same rules, and each field has a value.
 *
 * Time is quadratic beyond 1,152 variants, and beyond 512 in the language of t: less than a second for 1 MB.
 */
LANGTAG_PURE bool langtag_is_locale(const char *bytes, size_t len) LANGTAG_NONNULL;

/*
 * Writes the canonical form of a tag as a Unicode locale identifier to `buffer` (UTS #35, part 1, Annex C), and
 * returns its length: eng becomes en, ger-UK becomes de-GB, and sh becomes sr-Latn. If the buffer is too short, its
 * bytes are unspecified, and the result is the size that is needed.
 *
 *     char buffer[64];
 *     size_t len = langtag_locale_form("ger-UK-u-ca-islamicc", 20, buffer, sizeof buffer);
 *     if (len > 0 && len <= sizeof buffer) printf("%.*s\n", (int)len, buffer); // de-GB-u-ca-islamic-civil
 *
 * CLDR's aliases replace the language, the script, the region and the variants. Variants are put in alphabetical
 * order, and extensions in the order of their singletons. u and t get the form of langtag_extensions_form. The script
 * is in titlecase, the region in uppercase, and everything else in lowercase. sgn-NO becomes nsl, as in the IANA
 * registry, where CLDR has nsi.
 *
 * A tag that is not a Unicode locale identifier is replaced first. A tag with a Preferred-Value in the IANA registry
 * becomes that value: i-klingon becomes tlh. In any other tag, a registered extended language replaces the language
 * before it: zh-yue-HK becomes yue-HK. If the result is not a Unicode locale identifier, either, the tag has no form.
 * r before a region, as Android writes it, is left out: es-rUS becomes es-US.
 *
 * Time is quadratic beyond 512 variants or attributes: up to 2 s for 1 MB.
 *
 * Returns 0 and writes nothing if the tag has no form, such as x-a, i-default and und-t-m0, or if the string is not a
 * tag.
 */
size_t langtag_locale_form(const char *bytes, size_t len, char *buffer, size_t buffer_len) LANGTAG_NONNULL;

/*
 * Writes the locale to format dates and numbers with, next to text in a tag that was chosen for a range, to `buffer`,
 * and returns its length: en-GB-u-hc-h12 for the range en-GB-u-hc-h12 and the tag en.
 *
 *     char buffer[64];
 *     size_t len = langtag_resolved_locale("zh-HK", 5, "zh-CN", 5, buffer, sizeof buffer);
 *     if (len > 0 && len <= sizeof buffer) printf("%.*s\n", (int)len, buffer); // zh-Hans-HK
 *
 * The region comes from the range, and so do all keywords of u, in the form of langtag_locale_form. All other bytes are
 * those of the tag, with these exceptions:
 *
 * 1. If the script of the tag would not be likely with the new region, it is written: zh-Hans-HK, not zh-HK.
 * 2. If the range has a region or the keyword rg, the keywords rg and sd of the tag are removed.
 *
 * If the range has no region, or ZZ, or if the language of the tag is und, the region of the tag stays. Each keyword of
 * the range stands before the first greater key. A range such as de_AT is read as the name of a POSIX locale, and es-rUS
 * as Android writes it. The tag is written unchanged if it is for private use or grandfathered, or if the range has no
 * form, such as *.
 *
 * If the buffer is too short, its bytes are unspecified, and the result is the size that is needed. Time grows with the
 * product of the lengths of both extensions u.
 *
 * Returns 0 and writes nothing if the second string is not a tag.
 */
size_t langtag_resolved_locale(const char *range, size_t range_len, const char *tag, size_t tag_len, char *buffer,
                               size_t buffer_len) LANGTAG_NONNULL;

/* The bits of the result of langtag_repeats. */
enum langtag_repeats_answer { LANGTAG_REPEATED_VARIANT = 1, LANGTAG_REPEATED_SINGLETON = 2 };

/* Where the repeated subtags of a tag are. A span has the length 0 if no such subtag is repeated. */
typedef struct langtag_repeated {
    langtag_span variant;   /* the first variant that equals an earlier one, ignoring case */
    langtag_span singleton; /* the first singleton, one byte, that equals an earlier one, ignoring case */
} langtag_repeated;

/*
 * Returns whether a variant or a singleton occurs twice in a normal tag, as bits of enum langtag_repeats_answer, and
 * writes where the first repetition of each is (out). Such a tag is well-formed but not valid (RFC 5646 section
 * 2.2.9). Returns 0 for any other string. `repeated` is always written.
 *
 * Beyond 1,152 variants, the time is quadratic in the length: less than a second for 1 MB, 20 s for 10 MB. Limit the
 * length of untrusted strings.
 */
uint32_t langtag_repeats(const char *bytes, size_t len, langtag_repeated *repeated) LANGTAG_NONNULL;

/* What langtag_validity returns: that a tag is valid, or what is wrong with its first invalid subtag. */
enum langtag_validity_answer {
    LANGTAG_VALIDITY_NONE = 0,              /* not a language tag */
    LANGTAG_VALID = 1,                      /* fr-FR, the grandfathered zh-min, x-qt */
    LANGTAG_INVALID_LANGUAGE = 2,           /* not registered: qt in qt-FR */
    LANGTAG_INVALID_EXTLANG = 3,            /* not registered: fra in zh-fra */
    LANGTAG_INVALID_SECOND_EXTLANG = 4,     /* a second extended language (section 2.2.2): yue in zh-cmn-yue */
    LANGTAG_INVALID_SCRIPT = 5,             /* not registered: Abcd in fr-Abcd */
    LANGTAG_INVALID_REGION = 6,             /* not registered: FQ in fr-FQ */
    LANGTAG_INVALID_VARIANT = 7,            /* not registered: 1997 in de-1997 */
    LANGTAG_INVALID_REPEATED_VARIANT = 8,   /* equals an earlier variant: the second 1996 in de-1996-1996 */
    LANGTAG_INVALID_REPEATED_SINGLETON = 9  /* equals an earlier singleton: the A in fr-a-bb-A-cc */
};

/*
 * Returns whether a tag is valid (RFC 5646 section 2.2.9), as an enum langtag_validity_answer, and writes where its
 * first invalid subtag is (out), which is empty if there is none.
 *
 *     langtag_span invalid;
 *     langtag_validity("qt-FR", 5, &invalid);
 *     printf("%.*s\n", (int)invalid.len, "qt-FR" + invalid.start); // qt
 *
 * A tag is valid if it is grandfathered, or if its language, extended language, script, region and variants are
 * registered, it has at most one extended language, and no variant or singleton is repeated. It uses the registry whose
 * date langtag_registry_date returns. Deprecated subtags are valid. Whether a variant follows one of its prefixes is
 * not checked.
 */
uint32_t langtag_validity(const char *bytes, size_t len, langtag_span *invalid) LANGTAG_NONNULL;

/*
 * Writes the registered code that is probably meant by a subtag that is not registered, and returns its length, which
 * is 2 or 3: de for the language deu or ger, GB for the region UK, US for 840. `fault` is what langtag_validity
 * returned, and `subtag` the invalid subtag.
 *
 *     langtag_span invalid;
 *     uint32_t fault = langtag_validity("ger-AT", 6, &invalid);
 *     char code[3];
 *     size_t len = langtag_suggestion(fault, "ger-AT" + invalid.start, invalid.len, code, sizeof code);
 *     if (len > 0) printf("did you mean %.*s?\n", (int)len, code); // did you mean de?
 *
 * The codes are from the aliases of Unicode's CLDR. Returns 0 and writes nothing if the aliases have no code for the
 * subtag, or more than one region, or if a script or a region comes with the language. Also returns 0 if `fault` is
 * neither LANGTAG_INVALID_LANGUAGE nor LANGTAG_INVALID_REGION. If `buffer` is too short, nothing is written, and the
 * result is the size that is needed. No NUL is written.
 */
size_t langtag_suggestion(uint32_t fault, const char *subtag, size_t subtag_len, char *buffer,
                          size_t buffer_len) LANGTAG_NONNULL;

/*
 * Writes the canonical form of a tag to `buffer` (RFC 5646 section 4.5) in the recommended case (section 2.1.1), and returns
 * its length: iw becomes he, DE-at becomes de-AT, zh-yue becomes yue, art-lojban becomes jbo, en-b-ccc-a-aaa becomes
 * en-a-aaa-b-ccc. It uses the registry whose date langtag_registry_date returns.
 *
 *     char buffer[64];
 *     size_t len = langtag_canonical("en-BU", 5, buffer, sizeof buffer);
 *     if (len > 0 && len <= sizeof buffer) printf("%.*s\n", (int)len, buffer); // en-MM
 *
 * As with snprintf, the result may be greater than `buffer_len`. It is then the size that is needed, and nothing is
 * written. The form may be longer than the tag: heploc becomes alalc97. No NUL is written, and bytes after the form
 * are left unchanged.
 *
 * Tags that differ only in case have the same form, byte for byte. Variants keep their order. Step 2 of
 * section 4.5 is repeated after step 3, so that canonicalizing a form again changes nothing: sgn-DD becomes gsg. The
 * tag need not be valid: subtags that are not registered stay, and so do two extended languages and the language
 * before them.
 *
 * Returns 0 and writes nothing if the string is not a tag.
 */
size_t langtag_canonical(const char *bytes, size_t len, char *buffer, size_t buffer_len) LANGTAG_NONNULL;

/*
 * Returns whether a string is a tag that equals its canonical form, ignoring case: true for HE and x-iw, false for iw,
 * for en-b-ccc-a-aaa, and for a string that is not a tag.
 */
LANGTAG_PURE bool langtag_is_canonical(const char *bytes, size_t len) LANGTAG_NONNULL;

/*
 * Returns the date of the IANA registry inside this library (its File-Date, RFC 5646 section 3.1.1) as one number:
 * year, month and day, so that 20250131 is 2025-01-31. A later date is a greater number.
 */
LANGTAG_PURE uint32_t langtag_registry_date(void);

/*
 * Writes a tag with its likely subtags to `buffer` (UTS #35, part 1, Add Likely Subtags), and returns its length:
 * zh-TW becomes zh-Hant-TW, and en and und become en-Latn-US. The data are those of langtag_cldr_version. As with
 * langtag_canonical, nothing is written if the buffer is too short.
 *
 *     char buffer[64];
 *     size_t len = langtag_maximized("zh-TW", 5, buffer, sizeof buffer);
 *     if (len > 0 && len <= sizeof buffer) printf("%.*s\n", (int)len, buffer); // zh-Hant-TW
 *
 * The tag's own subtags stay, with their case. Only und, Zzzz and ZZ, which mean that something is unknown, are
 * replaced. Deprecated subtags stay, too, and get the likely subtags of their replacements: iw becomes iw-Hebr-IL, and
 * und-SU becomes ru-Cyrl-SU. To replace them, call langtag_locale_form first. A tag without likely subtags, such as
 * x-a or qaa, stays as it is.
 *
 * Returns 0 and writes nothing if the string is not a tag.
 */
size_t langtag_maximized(const char *bytes, size_t len, char *buffer, size_t buffer_len) LANGTAG_NONNULL;

/*
 * Writes a tag without its likely subtags to `buffer` (UTS #35, part 1, Remove Likely Subtags), and returns its
 * length, as langtag_maximized does: zh-Hant-TW becomes zh-TW, en-Latn-US becomes en, and iw-Hebr-IL becomes iw. If it
 * is enough to keep either the script or the region, the region is kept.
 */
size_t langtag_minimized(const char *bytes, size_t len, char *buffer, size_t buffer_len) LANGTAG_NONNULL;

/*
 * Writes the version of Unicode's CLDR inside this library to `buffer`, such as 48.2, and returns its length. Likely
 * subtags, distances and aliases come from that version. As with langtag_canonical, nothing is written if the buffer
 * is too short.
 */
size_t langtag_cldr_version(char *buffer, size_t buffer_len) LANGTAG_NONNULL;

/*
 * Writes the parent of a tag in CLDR to `buffer` (UTS #35, part 1, Parent Locales), and returns its length: pt-PT for
 * pt-AO, zh-Hant for zh-TW. If a catalogue has no string for a tag, it looks for the parent of the tag next, and then
 * for the other tags of langtag_nth_parent, which says more. As with langtag_canonical, nothing is written if the
 * buffer is too short.
 *
 * Returns 0 and writes nothing if the tag has no parent, such as pt and x-a, or if the string is not a tag.
 */
size_t langtag_parent(const char *bytes, size_t len, char *buffer, size_t buffer_len) LANGTAG_NONNULL;

/*
 * Writes the tag at an index of the chain of a tag and its parents in CLDR to `buffer`, and returns its length. At 0 is
 * the tag itself, and at 1 its parent. A catalogue looks for a string in this order. The data are those of
 * langtag_cldr_version. As with langtag_canonical, nothing is written if the buffer is too short.
 *
 *     char tag[64];
 *     size_t len;
 *     for (uint32_t at = 0; (len = langtag_nth_parent("pt-Latn-AO", 10, at, tag, sizeof tag)) > 0 && len <= sizeof tag; at++)
 *         printf("%.*s ", (int)len, tag); // pt-Latn-AO pt-AO pt-PT pt-Latn pt
 *
 * All tags of a chain are written in the same script if CLDR lists the language and does not replace the region, as it
 * does UK. So zh-Hant has no parent: zh is Simplified. A script that is likely anyway goes first, and comes back
 * before the language alone: zh-Hans-CN, zh-CN, zh-Hans, zh. Extensions and private use are removed next, then each
 * variant, the last one first, and then the region. The variants come back with each parent: ca-ES-valencia, ca-ES,
 * ca-valencia, ca. Case is ignored. es-rUS, as Android writes es-US, stands before es-US and its parents.
 *
 * If the folders of a catalogue name scripts, such as zh-Hans, call this function with the result of
 * langtag_maximized, which names the script of zh-CN. CLDR does not list replaced codes such as iw and cmn, nor
 * extended languages: replace them first by langtag_locale_form.
 *
 * Returns 0 and writes nothing if the chain has no more tags, or if the string is not a tag.
 */
size_t langtag_nth_parent(const char *bytes, size_t len, uint32_t index, char *buffer,
                          size_t buffer_len) LANGTAG_NONNULL;

/*
 * Returns whether a tag is written from right to left, by its script or, if it has none, by its likely script: true
 * for he, pa-PK and az-Arab, false for ar-Latn, for und, for a private-use tag, and for a string that is not a tag.
 */
LANGTAG_PURE bool langtag_is_right_to_left(const char *bytes, size_t len) LANGTAG_NONNULL;

#define LANGTAG_NO_DISTANCE UINT32_MAX

/*
 * Returns the distance from the tag that a user desires to a supported tag (UTS #35, part 1, Language Matching): 0
 * from zh-TW to zh-Hant, 4 from de-AT to de, 10 from yue to zh-HK, 84 from de to en, and at most 134.
 *
 * From 0 to 15 the user reads both: they are the same language, perhaps in another region or script, or nearly the
 * same. Below 50 most users of the desired language understand the supported one. Languages and regions that CLDR
 * replaces count as their replacements: iw counts as he, and ger and deu count as de. Everything after the region is
 * ignored, such as variants, extensions and private use: en-GB-oed counts as en-GB. A tag that the registry replaces as
 * a whole counts as its replacement: i-klingon counts as tlh, and zh-hakka as hak. The distance is 255 if the tags
 * differ and either of them is only und, is a private-use tag, or is i-default, i-enochian or i-mingo.
 *
 * Returns LANGTAG_NO_DISTANCE if one of the strings is not a tag.
 */
LANGTAG_PURE uint32_t langtag_distance(const char *desired, size_t desired_len, const char *supported,
                                       size_t supported_len) LANGTAG_NONNULL;

/*
 * Returns the index of the best tag for an Accept-Language header, or `tags_len` if none is suitable. The tags are
 * spans of one string. A span that is not a tag, or reaches beyond the string, is skipped.
 *
 *     const char *header = "zh-TW,zh;q=0.9,en;q=0.8", *have = "en zh-Hans zh-Hant";
 *     const langtag_span tags[] = {{0, 2}, {3, 7}, {11, 7}};
 *     size_t best = langtag_best_for_header(header, strlen(header), have, strlen(have), tags, 3);
 *     printf("%zu\n", best); // 2
 *
 * Ranges are tried in order of weight. The first range with a tag at a distance below 16 wins, and its nearest tag is
 * chosen (langtag_distance). If there is no such range, the limit is 50, and after that, lookup is tried (RFC 4647
 * section 3.4). A tag whose longest matching range has the weight 0 is not chosen. A range "*" chooses nothing, so the
 * program's default is used.
 *
 * Among tags at the same distance, these rules decide, one after the other. The tag that has more of the range's
 * variants is better. A tag without the extension t, which marks machine translations, is better, unless the range has
 * t. The tag for which lookup removes fewer subtags from the range is better, where lookup reads `eng` as `en`. The
 * tag with the range's own code is better. A tag whose region is a group with the range's region is better, and the
 * smallest group is best: `es-419` for `es-MX`. A tag with the most likely region of its language is better. One of
 * CLDR's paradigm locales, such as `en-GB`, is better. Otherwise the first in the list is chosen. So list the tags in
 * the order that you prefer.
 *
 * Malformed elements are read leniently: _ is read as a hyphen, everything after ., @ or _# is dropped, and a weight
 * that is not a number counts as 1.
 *
 * Time is at most proportional to the length of the header times the length of the tags. Limit the header to 8 KiB, as
 * most servers do.
 */
LANGTAG_PURE size_t langtag_best_for_header(const char *header, size_t header_len, const char *bytes, size_t len,
                                            const langtag_span *tags, size_t tags_len) LANGTAG_NONNULL;

/*
 * Returns the index of the best tag for a list of language ranges, in order of preference, or `tags_len` if none is
 * suitable. The ranges are spans of one string, and the tags are spans of another. The choice is that of
 * langtag_best_for_header if all ranges have the same weight. Only a header skips extended ranges, such as de-*.
 *
 * A range is read as in a header: zh_TW.UTF-8 is read as zh-TW, and sr_RS@latin as sr-RS. Call langtag_from_posix
 * first for the names in LANG and LANGUAGE. An extended range is read without its *: zh-*-Hant is read as zh-Hant. A
 * span is skipped if it is not a range, such as de;q=0, or not a tag, or reaches beyond its text.
 */
LANGTAG_PURE size_t langtag_best_for_ranges(const char *text, size_t text_len, const langtag_span *ranges,
                                            size_t ranges_len, const char *bytes, size_t len, const langtag_span *tags,
                                            size_t tags_len) LANGTAG_NONNULL;

/* The range of a header that the best tag serves, and the distance from the range to the tag. */
typedef struct langtag_best_match {
    langtag_span range; /* in the header, as it is written: de_CH in "de_CH.UTF-8;q=0.5" */
    uint32_t distance;  /* from that range to the tag, as langtag_distance returns it */
} langtag_best_match;

/*
 * Returns what langtag_best_for_header returns, and writes the range that the tag serves and the distance from that
 * range to the tag (out). If the distance is 50 or more, only lookup found the tag.
 *
 *     const char *header = "tlh, gsw;q=0.5", *have = "en de";
 *     const langtag_span tags[] = {{0, 2}, {3, 2}};
 *     langtag_best_match match;
 *     size_t best = langtag_match_for_header(header, strlen(header), have, strlen(have), tags, 2, &match);
 *     printf("%zu, for %.*s at %u\n", best, (int)match.range.len, header + match.range.start, match.distance); // 1, for gsw at 8
 *
 * If no tag is suitable, the range is empty, at the end of the header, and the distance is LANGTAG_NO_DISTANCE.
 * `found` is always written.
 */
size_t langtag_match_for_header(const char *header, size_t header_len, const char *bytes, size_t len,
                                const langtag_span *tags, size_t tags_len, langtag_best_match *found) LANGTAG_NONNULL;

/*
 * Writes the indices of the suitable tags for an Accept-Language header to `found` (out), best first, and returns their
 * number. The first is the tag that langtag_best_for_header chooses, the next is the tag that it chooses among the
 * others, and so on, as long as one is suitable. If the number is greater than `found_len`, only the best are written.
 * `tags_len` entries are always enough.
 *
 *     const char *header = "de-CH,fr;q=0.7", *have = "en fr de de-AT";
 *     const langtag_span tags[] = {{0, 2}, {3, 2}, {6, 2}, {9, 5}};
 *     size_t found[4], count = langtag_suitable_for_header(header, strlen(header), have, strlen(have), tags, 4, found, 4);
 *     for (size_t i = 0; i < count; i++) printf("%zu ", found[i]); // 2 3 1
 *
 * The rest of the array stays unchanged. For every 64 indices, each range of the header is compared with each tag, and
 * each tag with each earlier index, so `found_len` limits the time. A full array costs one more comparison of each range
 * with each tag, for the number.
 */
size_t langtag_suitable_for_header(const char *header, size_t header_len, const char *bytes, size_t len,
                                   const langtag_span *tags, size_t tags_len, size_t *found,
                                   size_t found_len) LANGTAG_NONNULL;

/*
 * Writes the indices of the suitable tags for a list of language ranges, as langtag_suitable_for_header does for a
 * header. Ranges and tags are read as by langtag_best_for_ranges.
 */
size_t langtag_suitable_for_ranges(const char *text, size_t text_len, const langtag_span *ranges, size_t ranges_len,
                                   const char *bytes, size_t len, const langtag_span *tags, size_t tags_len,
                                   size_t *found, size_t found_len) LANGTAG_NONNULL;

/*
 * A tag of a site, with what a choice computes of it. It is plain data without pointers: it may be copied, stored, and
 * shared by threads. Set `tag`, and let langtag_prepare write the rest.
 */
typedef struct langtag_prepared_tag {
    langtag_span tag;   /* in the string of the site */
    uint64_t opaque[2];
} langtag_prepared_tag;

/*
 * Prepares a tag for many choices. The caller sets `tag->tag`, a span of the string.
 *
 *     const char *have = "en zh-Hans zh-Hant";
 *     langtag_prepared_tag site[] = {{{0, 2}, {0}}, {{3, 7}, {0}}, {{11, 7}, {0}}};
 *     for (size_t i = 0; i < 3; i++)
 *         langtag_prepare(have, strlen(have), &site[i]);
 *     const char *header = "zh-TW,zh;q=0.9,en;q=0.8";
 *     size_t best = langtag_site_best_for_header(header, strlen(header), have, strlen(have), site, 3);
 *     printf("%zu\n", best); // 2
 *
 * Prepare the tags again if the string changes, or the version of the library. A span that is not a tag, or reaches
 * beyond the string, is never chosen.
 */
void langtag_prepare(const char *bytes, size_t len, langtag_prepared_tag *tag) LANGTAG_NONNULL;

/*
 * Returns what langtag_best_for_header returns for the same string and the spans of the tags. For 40 tags it takes
 * about half of the time, and for a few tags nearly as much. Each tag was prepared by langtag_prepare for this string.
 * A tag that was not is skipped: any values of `opaque` are safe.
 */
LANGTAG_PURE size_t langtag_site_best_for_header(const char *header, size_t header_len, const char *bytes, size_t len,
                                                 const langtag_prepared_tag *tags, size_t tags_len) LANGTAG_NONNULL;

/*
 * Returns what langtag_best_for_ranges returns, among tags that langtag_prepare prepared, as
 * langtag_site_best_for_header does.
 */
LANGTAG_PURE size_t langtag_site_best_for_ranges(const char *text, size_t text_len, const langtag_span *ranges,
                                                 size_t ranges_len, const char *bytes, size_t len,
                                                 const langtag_prepared_tag *tags, size_t tags_len) LANGTAG_NONNULL;

/*
 * Returns what langtag_match_for_header returns, among tags that langtag_prepare prepared, as
 * langtag_site_best_for_header does.
 */
size_t langtag_site_match_for_header(const char *header, size_t header_len, const char *bytes, size_t len,
                                     const langtag_prepared_tag *tags, size_t tags_len,
                                     langtag_best_match *found) LANGTAG_NONNULL;

/*
 * Writes the tag for a POSIX locale name to `buffer` (IEEE Std 1003.1, section 8.2), and returns its length:
 * pt_BR.UTF-8 becomes pt-BR, sr_RS@latin becomes sr-Latn-RS, ca_ES@valencia becomes ca-ES-valencia, and zh_TW_#Hant,
 * as Java prints it, becomes zh-Hant-TW. As with langtag_canonical, nothing is written if the buffer is too short.
 * Names as Android and .NET write them are read, too: zh-rTW becomes zh-TW, b+sr+Latn becomes sr-Latn, zh-CHT becomes
 * zh-Hant, and sr-SP-Latn becomes sr-Latn-RS. An empty language or region is read as in Java and ICU: _US becomes und-US.
 * Last fields of Java and Windows that are no subtags are read: no_NO_NY becomes nn-NO, ja_JP_JP becomes
 * ja-JP-u-ca-japanese, and de-DE_phoneb becomes de-DE-u-co-phonebk.
 *
 * The codeset is dropped. It consists of ASCII letters, digits, `-`, `_` and `.`. The modifiers latin, cyrillic,
 * devanagari, iqtelif, valencia, tarask, polyton, ijekavian, ijekavianlatin and the codes of scripts are used, ignoring
 * case. Extensions come from Java's names and from the keywords of ICU and Apple: de_DE_#u-co-phonebk and
 * de_DE@collation=phonebook become de-DE-u-co-phonebk. Other modifiers are dropped, and so are keywords if one of them
 * cannot be read. If the only variant is POSIX, ignoring case, and there are no extensions, it becomes the keyword
 * va-posix: en_US_POSIX becomes en-US-u-va-posix.
 *
 * Returns 0 and writes nothing if language and territory do not form a tag (C), or have more than 255 bytes, or 260 with
 * extensions. Also if the language has more than three letters (POSIX, german, night), or if other qualifiers of an
 * Android folder come after the region (en-rGB-land). Also if a variant is not registered and the tag is not grandfathered
 * (nl_NL_formal), or if what follows the dot is no codeset (No. 5). Also if what follows # is no script and no extension,
 * or if extensions would come after an extension or private use.
 */
size_t langtag_from_posix(const char *name, size_t name_len, char *buffer, size_t buffer_len) LANGTAG_NONNULL;

/*
 * Writes the POSIX locale name for a tag to `buffer` (IEEE Std 1003.1, section 8.2), and returns its length, which is
 * at most 28: pt-BR becomes pt_BR, sr-Latn-RS becomes sr_RS@latin, ca-ES-valencia becomes ca_ES@valencia, and
 * en-US-u-va-posix becomes en_US_POSIX. As with langtag_canonical, nothing is written if the buffer is too short. The
 * codeset is the caller's, as in pt_BR.UTF-8. langtag_from_posix reads the name as the same tag, in its recommended
 * case, without a script that was left out.
 *
 *     char name[28];
 *     size_t len = langtag_to_posix("zh-Hant-TW", 10, name, sizeof name);
 *     printf("%.*s\n", (int)len, name); // zh_TW
 *
 * A script is left out if it is the likely script of the language, both alone and with its region: en_US for
 * en-Latn-US. A script without a modifier is also left out if it is likely with the region. The modifiers are latin,
 * cyrillic, devanagari, valencia, tarask, polyton, ijekavian and ijekavianlatin.
 *
 * Returns 0 and writes nothing if no name expresses the whole tag: another script or variant, an extended language,
 * another extension, private use, or a language of more than three letters. Also for und, and if the string is not a
 * tag. To leave extensions out, ask for the first langtag_base_len bytes of the tag.
 */
size_t langtag_to_posix(const char *bytes, size_t len, char *buffer, size_t buffer_len) LANGTAG_NONNULL;

/*
 * Returns whether langtag_from_posix drops the modifier of a name because it is not known, and writes where the
 * modifier is (out): foo in de_DE@foo. A program may want to refuse such a name, because de_DE becomes the same tag.
 *
 * Returns false and leaves `modifier` unchanged if there is no modifier, if langtag_from_posix reads it, or if it is
 * not about the language, such as euro.
 */
bool langtag_unknown_modifier(const char *name, size_t name_len, langtag_span *modifier) LANGTAG_NONNULL;

#define LANGTAG_GRANDFATHERED_COUNT 26u

/*
 * Returns the number of a grandfathered tag, ignoring case, in the order of RFC 5646 section 2.1, or
 * LANGTAG_GRANDFATHERED_COUNT if the string is not one of the 26. A tag with a number below 17 is irregular, and the
 * others are regular:
 *
 *    0 en-GB-oed    1 i-ami        2 i-bnn          3 i-default    4 i-enochian   5 i-hak        6 i-klingon
 *    7 i-lux        8 i-mingo      9 i-navajo      10 i-pwn       11 i-tao       12 i-tay       13 i-tsu
 *   14 sgn-BE-FR   15 sgn-BE-NL   16 sgn-CH-DE
 *   17 art-lojban  18 cel-gaulish 19 no-bok        20 no-nyn      21 zh-guoyu    22 zh-hakka    23 zh-min
 *   24 zh-min-nan  25 zh-xiang
 */
LANGTAG_PURE uint32_t langtag_grandfathered(const char *bytes, size_t len) LANGTAG_NONNULL;

/* What langtag_range_kind returns (RFC 4647 section 2). */
enum langtag_range_kind_answer {
    LANGTAG_RANGE_NONE = 0,    /* not a language range */
    LANGTAG_RANGE_BASIC = 1,   /* a basic range (section 2.1): de-CH, or only * */
    LANGTAG_RANGE_EXTENDED = 2 /* an extended range that is not basic (section 2.2): *-CH, de-*-DE */
};

/* Returns which kind of language range a string is, as an enum langtag_range_kind_answer. */
LANGTAG_PURE uint32_t langtag_range_kind(const char *bytes, size_t len) LANGTAG_NONNULL;

/*
 * Returns whether a range matches a tag by basic filtering (RFC 4647 section 3.3.1): the range is *, or equals the
 * tag, or the tag begins with the range and a hyphen. Case is ignored. de-DE matches de-DE-1996, but neither de-Deva
 * nor de-Latn-DE.
 *
 * Returns false if the first string is not a language range, or the second is not a tag.
 */
LANGTAG_PURE bool langtag_matches_basic(const char *range, size_t range_len, const char *tag,
                                        size_t tag_len) LANGTAG_NONNULL;

/*
 * Returns whether a range matches a tag by extended filtering (RFC 4647 section 3.3.2): de-DE and de-*-DE match
 * de-Latn-DE-1996, but not de-x-DE, since no subtag of one byte may be skipped.
 *
 * Returns false if the first string is not a language range, or the second is not a tag.
 */
LANGTAG_PURE bool langtag_matches_extended(const char *range, size_t range_len, const char *tag,
                                           size_t tag_len) LANGTAG_NONNULL;

/*
 * Shortens `rest` to its next fallback in a lookup (RFC 4647 section 3.4); for a catalogue of strings, call
 * langtag_parent instead. It removes the last subtag, and each subtag of one byte that would then be last. Begin with
 * the whole range:
 *
 *     const char *range = "zh-Hant-CN-x-private1";
 *     size_t len = strlen(range);
 *     langtag_span rest = {0, len};
 *     while (langtag_next_fallback(range, len, &rest))
 *         printf("%.*s ", (int)rest.len, range + rest.start); // zh-Hant-CN zh-Hant zh
 *
 * Returns false if and only if no fallback is left, or `rest` is empty or reaches beyond the string, and then leaves
 * `rest` unchanged. It does not check that the string is a range; langtag_range_kind does.
 *
 * A lookup reads an extended range as the basic range without each "-*" (section 3.2). So remove each "-*" from a
 * fallback before you compare it: de-*-DE finds the tag de-DE, and then de. A range that begins with * finds nothing.
 */
bool langtag_next_fallback(const char *bytes, size_t len, langtag_span *rest) LANGTAG_NONNULL;

/* What langtag_next_accepted returns. */
enum langtag_accepted_answer {
    LANGTAG_ACCEPTED_END = 0,       /* no element is left */
    LANGTAG_ACCEPTED_RANGE = 1,     /* a language range with its weight */
    LANGTAG_ACCEPTED_BAD_RANGE = 2, /* an element that has no basic language range: *-CH, de_CH */
    LANGTAG_ACCEPTED_BAD_WEIGHT = 3 /* an element with a range and a malformed weight: de;q=2 */
};

/*
 * Removes the first element from `rest`, which is the value of an Accept-Language header or the rest of it (RFC 9110
 * section 12.5.4). Returns an enum langtag_accepted_answer. Empty elements are skipped.
 *
 *     const char *header = "fr;q=0.3, de_CH, de;q=0.9";
 *     size_t len = strlen(header);
 *     langtag_span rest = {0, len}, range;
 *     uint32_t answer, weight;
 *     while ((answer = langtag_next_accepted(header, len, &rest, &range, &weight)) != LANGTAG_ACCEPTED_END)
 *         if (answer == LANGTAG_ACCEPTED_RANGE)
 *             printf("%.*s %u ", (int)range.len, header + range.start, (unsigned)weight); // fr 300 de 900
 *
 * `range` (out) is where the range is, and `weight` (out) its weight in thousandths: 1000 if none is given, and 0 for
 * "not acceptable". For a malformed element, `range` is everything between the commas without the spaces and tabs
 * around it, and `weight` is 0. The next call continues after that element. So the loop above skips malformed elements.
 * A strict program stops at a malformed element, and refuses the header.
 *
 * The elements are returned in the order of the header. A lookup tries the greatest weight first, and ranges of equal
 * weight in the order of the header. So collect the ranges, and sort them by descending weight with a stable sort.
 *
 * Returns LANGTAG_ACCEPTED_END if and only if only empty elements are left, or `rest` reaches beyond the string, and
 * then writes nothing.
 */
uint32_t langtag_next_accepted(const char *bytes, size_t len, langtag_span *rest, langtag_span *range,
                               uint32_t *weight) LANGTAG_NONNULL;

/*
 * Looks up a tag as langtag_tag_for_header_lenient does, but refuses a header with a malformed element. Returns an
 * enum langtag_accepted_answer.
 *
 * - LANGTAG_ACCEPTED_END: no element is malformed. `index` (out) is what langtag_tag_for_header_lenient returns, and
 *   `bad` (out) is empty, at the end of the header.
 * - Otherwise: the answer says what is wrong with the first malformed element. `index` is `tags_len`, and `bad` is the
 *   string of that element, without the spaces and tabs around it.
 */
uint32_t langtag_tag_for_header(const char *header, size_t header_len, const char *bytes, size_t len,
                                const langtag_span *tags, size_t tags_len, size_t *index,
                                langtag_span *bad) LANGTAG_NONNULL;

/*
 * Returns the index of the tag that lookup finds for an Accept-Language header (RFC 4647 section 3.4), or `tags_len`
 * if it finds none. The tags are spans of one string, as for langtag_best_for_header. Malformed elements are skipped.
 *
 *     const char *header = "fr;q=0.3, DE-ch-1996;q=0.9", *have = "en de-CH fr";
 *     const langtag_span tags[] = {{0, 2}, {3, 5}, {9, 2}};
 *     size_t index = langtag_tag_for_header_lenient(header, strlen(header), have, strlen(have), tags, 3);
 *     printf("%zu\n", index); // 1
 *
 * The ranges are looked up by descending weight, and ranges of equal weight in the order of the header. Ranges of
 * weight 0 are not looked up. A range finds the first tag that equals it, ignoring case. If there is none, its
 * fallbacks are tried, the longest first (langtag_next_fallback). So zh-TW does not find zh-Hant, though
 * langtag_best_for_header chooses it.
 *
 * To look up a list of ranges, in order of preference, remove each "-*" from them, and join them with commas.
 *
 * Time is at most proportional to the length of the header times the length of the tags.
 */
LANGTAG_PURE size_t langtag_tag_for_header_lenient(const char *header, size_t header_len, const char *bytes, size_t len,
                                                   const langtag_span *tags, size_t tags_len) LANGTAG_NONNULL;

#ifdef __cplusplus
}
#endif

#endif
