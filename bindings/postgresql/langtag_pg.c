/*
 * PostgreSQL's types langtag (a language tag, RFC 5646), langtag_range (a language range, RFC 4647) and langtag_part (some
 * subtags of a tag), over the proved C library. langtag.sql says what each function returns.
 *
 * A value is a varlena with only the bytes of its text, as the type text is, so that casts to text cost nothing. Values of langtag
 * are in the case that RFC 5646 recommends, so equal tags have equal bytes. The C names begin with pg_langtag_, since those of the
 * library begin with langtag_.
 *
 * The module is installed twice: as langtag, and, for the functions that use the registry, under a name with the registry's date.
 * So replacing a file changes no value that an index or a generated column contains.
 *
 * extensions_form, is_locale and locale_form take at most 256 KiB, because a call of the library cannot be cancelled.
 */
#include "postgres.h"

#include <langtag.h>
#include <langtag_names.h>

#include "access/htup_details.h"
#include "access/stratnum.h"
#include "catalog/namespace.h"
#include "catalog/pg_am_d.h"
#include "catalog/pg_type_d.h"
#include "common/hashfn.h"
#include "fmgr.h"
#include "funcapi.h"
#include "libpq/pqformat.h"
#include "mb/pg_wchar.h"
#include "miscadmin.h"
#include "nodes/makefuncs.h"
#include "nodes/nodeFuncs.h"
#include "nodes/pathnodes.h"
#include "nodes/supportnodes.h"
#include "optimizer/optimizer.h"
#include "parser/parse_func.h"
#include "port/pg_bswap.h"
#include "utils/array.h"
#include "utils/builtins.h"
#include "utils/lsyscache.h"
#include "utils/sortsupport.h"
#if PG_VERSION_NUM >= 160000
#include "varatt.h"
#else
#define errsave(context, rest) \
    do { (void)(context); ereport(ERROR, rest); } while (0)
#endif

PG_MODULE_MAGIC;

#define BYTES(value) ((const char *)VARDATA_ANY(value))
#define LEN(value) ((size_t)VARSIZE_ANY_EXHDR(value))

/* A function of SQL. */
#define FUNCTION(name)                                                                                                 \
    PG_FUNCTION_INFO_V1(name);                                                                                         \
    Datum name(PG_FUNCTION_ARGS)

/* A function of SQL with one argument, or whose first argument is `it`; and with two arguments, or whose first two are `a` and `b`. */
#define OF_ONE(name, it)                                                                                               \
    static Datum name##_of(FunctionCallInfo fcinfo, struct varlena *it);                                               \
    FUNCTION(name) { return name##_of(fcinfo, PG_GETARG_VARLENA_PP(0)); }                                              \
    static Datum name##_of(FunctionCallInfo fcinfo, struct varlena *it)
#define OF_TWO(name, a, b)                                                                                             \
    static Datum name##_of(FunctionCallInfo fcinfo, struct varlena *a, struct varlena *b);                             \
    FUNCTION(name) { return name##_of(fcinfo, PG_GETARG_VARLENA_PP(0), PG_GETARG_VARLENA_PP(1)); }                     \
    static Datum name##_of(FunctionCallInfo fcinfo, struct varlena *a, struct varlena *b)

static struct varlena *value_of(const char *bytes, size_t len) {
    return (struct varlena *)cstring_to_text_with_len(bytes, (int)len);
}

/* ---- what is refused: an input function reports it to its caller, so COPY with ON_ERROR ignore skips the row ---- */

/* Returns whether a character is a control character, is invisible, or changes the direction of the string: Unicode's categories Cc, Cf,
 * Zl, Zp and Zs (except for the space), and the property Default_Ignorable_Code_Point. All languages have this list. */
static bool is_invisible(pg_wchar code) {
    static const pg_wchar ranges[][2] = {
        {0, 0x1f}, {0x7f, 0xa0}, {0xad, 0xad}, {0x34f, 0x34f}, {0x600, 0x605}, {0x61c, 0x61c}, {0x6dd, 0x6dd}, {0x70f, 0x70f},
        {0x890, 0x891}, {0x8e2, 0x8e2}, {0x115f, 0x1160}, {0x1680, 0x1680}, {0x17b4, 0x17b5}, {0x180b, 0x180f}, {0x2000, 0x200f},
        {0x2028, 0x202f}, {0x205f, 0x206f}, {0x3000, 0x3000}, {0x3164, 0x3164}, {0xfe00, 0xfe0f}, {0xfeff, 0xfeff}, {0xffa0, 0xffa0},
        {0xfff0, 0xfffb}, {0x110bd, 0x110bd}, {0x110cd, 0x110cd}, {0x13430, 0x1343f}, {0x1bca0, 0x1bca3}, {0x1d173, 0x1d17a},
        {0xe0000, 0xe0fff}};
    for (int k = 0; k < lengthof(ranges); k++)
        if (ranges[k][0] <= code && code <= ranges[k][1]) return true;
    return false;
}

/* Returns a text in another encoding, or NULL if that encoding lacks one of its characters. */
static char *converted(const char *text, size_t len, int from, int to) {
    const int room = (int)len * MAX_CONVERSION_GROWTH + 1;
    char *made = palloc(room);
    Oid convert = FindDefaultConversionProc(from, to);
    if (from == to) return pnstrdup(text, len);
    if (!OidIsValid(convert) || pg_do_encoding_conversion_buf(convert, from, to, (unsigned char *)unconstify(char *, text), (int)len,
                                                              (unsigned char *)made, room, true) < (int)len)
        return NULL;
    return made;
}

/* Returns the code point of a character, or 'a' if Unicode lacks the character or the encoding of the database is not known. */
static pg_wchar code_of(const char *text, int size) {
    const char *made;
    if (size == 1 && !(*text & 0x80)) return (pg_wchar)*text;
    made = GetDatabaseEncoding() == PG_SQL_ASCII ? NULL : converted(text, size, GetDatabaseEncoding(), PG_UTF8);
    return made == NULL ? 'a' : utf8_to_unicode((const unsigned char *)made);
}

/* Appends a character, or its escape. */
static void append_escaped(StringInfo made, const char *text, int size, pg_wchar code) {
    const char *name = code == '\t' ? "\\t" : code == '\n' ? "\\n" : code == '\r' ? "\\r" : code == '\\' ? "\\\\" : code == '`' ? "\\`" : NULL;
    if (name) appendStringInfoString(made, name);
    else if (is_invisible(code)) appendStringInfo(made, "\\u{%x}", code);
    else appendBinaryStringInfo(made, text, size);
}

/* Returns a text as the messages of all languages show it: in backticks, with escapes, and only its first characters if it is longer. */
static char *quoted_start(const char *text, size_t len, int most) {
    StringInfoData made;
    const char *end = text + len;
    initStringInfo(&made);
    appendStringInfoChar(&made, '`');
    for (int count = 0; text < end && count < most; count++) {
        int size = pg_mblen(text);
        append_escaped(&made, text, size, code_of(text, size));
        text += size;
    }
    appendStringInfoString(&made, text < end && most > 1 ? "...`" : "`");
    return made.data;
}

static char *quoted(const char *text, size_t len) { return quoted_start(text, len, 80); }

static void refuse_tag(Node *context, const char *text, size_t len) {
    langtag_span subtag;
    size_t offset = 0;
    uint32 answer = langtag_refused(text, len, &subtag, &offset);
    const char *why = answer == LANGTAG_REFUSED_BYTE
                          ? psprintf("invalid character %s: expected a letter, a digit or a hyphen", quoted_start(text + offset, len - offset, 1))
                      : answer == LANGTAG_REFUSED_END ? "unexpected end: expected a subtag"
                      : subtag.len == 0               ? "empty subtag"
                                                      : psprintf("unexpected subtag %s", quoted(text + subtag.start, subtag.len));
    errsave(context, (errcode(ERRCODE_INVALID_TEXT_REPRESENTATION), errmsg_internal("invalid language tag %s: %s", quoted(text, len), why),
                    errdetail("The error is at character %d.", pg_mbstrlen_with_len(text, (int)offset) + 1)));
}

static struct varlena *refuse(Node *context, const char *what, const char *text, size_t len, const char *rule) {
    errsave(context, (errcode(ERRCODE_INVALID_TEXT_REPRESENTATION), errmsg_internal("invalid %s %s", what, quoted(text, len)),
                      errdetail_internal("%s", rule)));
    return NULL;
}

/* ---- the types ---- */

static bool check_tag(Node *context, const char *text, size_t len) {
    if (langtag_kind(text, len) != LANGTAG_NONE) return true;
    refuse_tag(context, text, len);
    return false;
}

static struct varlena *tag_of(const char *text, size_t len) {
    struct varlena *tag = value_of(text, len);
    langtag_recommend(VARDATA(tag), len);
    return tag;
}

static struct varlena *checked_tag(Node *context, const char *text, size_t len) {
    return check_tag(context, text, len) ? tag_of(text, len) : NULL;
}

static struct varlena *checked_range(Node *context, const char *text, size_t len) {
    if (langtag_range_kind(text, len) == LANGTAG_RANGE_NONE)
        return refuse(context, "language range", text, len,
                      "A language range is subtags of 1 to 8 letters or digits, or *, with hyphens between them.");
    return value_of(text, len);
}

/* Whether a string is a list of subtags, which may be empty: exactly what may follow the x- of a private-use tag. */
static struct varlena *checked_part(Node *context, const char *text, size_t len) {
    char *tag = palloc(len + 2);
    memcpy(tag, "x-", 2);
    memcpy(tag + 2, text, len);
    if (len > 0 && langtag_kind(tag, len + 2) != LANGTAG_PRIVATE_USE)
        return refuse(context, "part", text, len, "A part is subtags of 1 to 8 letters or digits with hyphens between them.");
    pfree(tag);
    return value_of(text, len);
}

/* The input functions of a type: from a C string, from a message of the binary protocol, and by a cast from text. */
#define INPUT(type, checked)                                                                                           \
    FUNCTION(pg_##type##_in) {                                                                                         \
        const char *text = PG_GETARG_CSTRING(0);                                                                       \
        PG_RETURN_POINTER(checked(fcinfo->context, text, strlen(text)));                                               \
    }                                                                                                                  \
    FUNCTION(pg_##type##_recv) {                                                                                       \
        StringInfo message = (StringInfo)PG_GETARG_POINTER(0);                                                         \
        int len;                                                                                                       \
        const char *text = pq_getmsgtext(message, message->len - message->cursor, &len);                               \
        PG_RETURN_POINTER(checked(fcinfo->context, text, (size_t)len));                                                \
    }                                                                                                                  \
    OF_ONE(pg_##type##_from_text, given) { PG_RETURN_POINTER(checked(fcinfo->context, BYTES(given), LEN(given))); }
INPUT(langtag, checked_tag)
INPUT(langtag_range, checked_range)
INPUT(langtag_part, checked_part)

/* The output functions of all three types. */
FUNCTION(pg_langtag_out) { PG_RETURN_CSTRING(TextDatumGetCString(PG_GETARG_DATUM(0))); }

OF_ONE(pg_langtag_send, value) {
    StringInfoData message;
    pq_begintypsend(&message);
    pq_sendtext(&message, BYTES(value), (int)LEN(value));
    PG_RETURN_BYTEA_P(pq_endtypsend(&message));
}

OF_ONE(pg_langtag_is_langtag, given) { PG_RETURN_BOOL(langtag_kind(BYTES(given), LEN(given)) != LANGTAG_NONE); }

OF_ONE(pg_langtag_try_langtag, given) {
    if (langtag_kind(BYTES(given), LEN(given)) == LANGTAG_NONE) PG_RETURN_NULL();
    PG_RETURN_POINTER(tag_of(BYTES(given), LEN(given)));
}


/* ---- order, equality and hash of tags and parts, ignoring case; equal tags have equal bytes ---- */

/* Compares strings in the order in which a string sorts before the longer strings that begin with it, so that all tags that a basic range
 * matches are together: de, de-AT, de-CH, dea. langtag_cmp sorts the longer strings first. */
static int compare(const char *a, size_t a_len, const char *b, size_t b_len) {
    size_t common = Min(a_len, b_len), same = 0;
    int found;
    while (same < common && a[same] == b[same]) same++; /* most of the strings that an index compares begin with the same bytes */
    found = same < common ? langtag_cmp(a + same, common - same, b + same, common - same) : 0;
    return found != 0 ? found : (a_len > b_len) - (a_len < b_len);
}

#define COMPARISON(name, answer)                                                                                       \
    OF_TWO(name, a, b) {                                                                                               \
        int order = compare(BYTES(a), LEN(a), BYTES(b), LEN(b));                                                       \
        PG_FREE_IF_COPY(a, 0);                                                                                         \
        PG_FREE_IF_COPY(b, 1);                                                                                         \
        answer;                                                                                                        \
    }
COMPARISON(pg_langtag_lt, PG_RETURN_BOOL(order < 0))
COMPARISON(pg_langtag_le, PG_RETURN_BOOL(order <= 0))
COMPARISON(pg_langtag_gt, PG_RETURN_BOOL(order > 0))
COMPARISON(pg_langtag_ge, PG_RETURN_BOOL(order >= 0))
COMPARISON(pg_langtag_cmp, PG_RETURN_INT32(order))
COMPARISON(pg_langtag_part_eq, PG_RETURN_BOOL(order == 0))
COMPARISON(pg_langtag_part_ne, PG_RETURN_BOOL(order != 0))

OF_TWO(pg_langtag_smaller, a, b) { PG_RETURN_POINTER(compare(BYTES(a), LEN(a), BYTES(b), LEN(b)) <= 0 ? a : b); }
OF_TWO(pg_langtag_larger, a, b) { PG_RETURN_POINTER(compare(BYTES(a), LEN(a), BYTES(b), LEN(b)) >= 0 ? a : b); }

/* Returns the server's hash of the lowercase text. */
static Datum hash(FunctionCallInfo fcinfo, bool extended) {
    struct varlena *value = PG_GETARG_VARLENA_PP(0);
    char room[128], *folded = room;
    size_t len = LEN(value);
    Datum answer;
    if (len > sizeof room) folded = palloc(len);
    memcpy(folded, BYTES(value), len);
    langtag_fold(folded, len);
    answer = extended ? hash_any_extended((unsigned char *)folded, (int)len, (uint64)PG_GETARG_INT64(1))
                      : hash_any((unsigned char *)folded, (int)len);
    if (folded != room) pfree(folded);
    PG_FREE_IF_COPY(value, 0);
    return answer;
}

FUNCTION(pg_langtag_hash) { return hash(fcinfo, false); }
FUNCTION(pg_langtag_hash_extended) { return hash(fcinfo, true); }

static int sort_compare(Datum x, Datum y, SortSupport sort) {
    struct varlena *a = PG_DETOAST_DATUM_PACKED(x), *b = PG_DETOAST_DATUM_PACKED(y);
    int order = compare(BYTES(a), LEN(a), BYTES(b), LEN(b));
    if ((Pointer)a != DatumGetPointer(x)) pfree(a);
    if ((Pointer)b != DatumGetPointer(y)) pfree(b);
    return order;
}

/* Returns the first eight bytes in lowercase as a number. A shorter value is filled with zeros, which no tag has. */
static Datum sort_abbreviate(Datum original, SortSupport sort) {
    struct varlena *value = PG_DETOAST_DATUM_PACKED(original);
    char head[sizeof(Datum)] = {0};
    Datum number;
    memcpy(head, BYTES(value), Min(LEN(value), sizeof head));
    langtag_fold(head, sizeof head);
    memcpy(&number, head, sizeof number);
    if ((Pointer)value != DatumGetPointer(original)) pfree(value);
    return DatumBigEndianToNative(number);
}

/* Eight bytes distinguish most tags, and comparing them costs little if they are equal. */
static bool sort_abbreviate_abort(int count, SortSupport sort) { return false; }

FUNCTION(pg_langtag_sortsupport) {
    SortSupport sort = (SortSupport)PG_GETARG_POINTER(0);
    sort->comparator = sort_compare;
    if (sort->abbreviate) {
        sort->comparator = ssup_datum_unsigned_cmp;
        sort->abbrev_converter = sort_abbreviate;
        sort->abbrev_abort = sort_abbreviate_abort;
        sort->abbrev_full_comparator = sort_compare;
    }
    PG_RETURN_VOID();
}

/* ---- parts ---- */

static langtag_parts parts_of(struct varlena *tag) {
    langtag_parts parts;
    langtag_parse(BYTES(tag), LEN(tag), &parts);
    return parts;
}

static Datum span_or_null(FunctionCallInfo fcinfo, const char *bytes, langtag_span span) {
    if (span.len == 0) PG_RETURN_NULL();
    PG_RETURN_POINTER(value_of(bytes + span.start, span.len));
}

#define PART(name, member)                                                                                             \
    OF_ONE(name, tag) { return span_or_null(fcinfo, BYTES(tag), parts_of(tag).member); }
PART(pg_langtag_script, script)
PART(pg_langtag_region, region)
PART(pg_langtag_private_use, private_use)

OF_ONE(pg_langtag_base, tag) { PG_RETURN_POINTER(value_of(BYTES(tag), langtag_base_len(BYTES(tag), LEN(tag)))); }

/* Returns the primary subtag, and sets `rest` to the extended subtags after it. */
static langtag_span primary_of(struct varlena *tag, langtag_span *rest) {
    langtag_span primary = {0, 0};
    *rest = parts_of(tag).language;
    langtag_next_subtag(BYTES(tag), LEN(tag), rest, &primary);
    return primary;
}

OF_ONE(pg_langtag_language, tag) {
    langtag_span rest;
    return span_or_null(fcinfo, BYTES(tag), primary_of(tag, &rest));
}

OF_ONE(pg_langtag_extlang, tag) {
    langtag_span rest;
    primary_of(tag, &rest);
    return span_or_null(fcinfo, BYTES(tag), rest);
}

typedef bool (*walk)(const char *, size_t, langtag_span *, langtag_span *);

/* Returns what a walk over a part returns, as an array of langtag_part. */
static Datum list(FunctionCallInfo fcinfo, struct varlena *tag, langtag_span rest, walk next) {
    Oid type = get_element_type(get_func_rettype(fcinfo->flinfo->fn_oid));
    ArrayBuildState *found = NULL;
    langtag_span one;
    while (next(BYTES(tag), LEN(tag), &rest, &one)) {
        CHECK_FOR_INTERRUPTS();
        found = accumArrayResult(found, PointerGetDatum(value_of(BYTES(tag) + one.start, one.len)), false, type,
                                 CurrentMemoryContext);
    }
    if (found == NULL) PG_RETURN_ARRAYTYPE_P(construct_empty_array(type));
    return makeArrayResult(found, CurrentMemoryContext);
}

#define LIST(name, member, next)                                                                                       \
    OF_ONE(name, tag) { return list(fcinfo, tag, parts_of(tag).member, next); }
LIST(pg_langtag_variants, variants, langtag_next_subtag)
LIST(pg_langtag_extensions, extensions, langtag_next_extension)

/* Returns the value of a key, which is empty if the key has none, or NULL if the key is absent. */
OF_TWO(pg_langtag_keyword, tag, key) {
    langtag_span value;
    if (!langtag_keyword(BYTES(tag), LEN(tag), BYTES(key), LEN(key), &value)) PG_RETURN_NULL();
    PG_RETURN_TEXT_P(cstring_to_text_with_len(BYTES(tag) + value.start, (int)value.len));
}

/* Returns each key once, with its first value, as an array of rows: a key and its value. */
OF_ONE(pg_langtag_keywords, tag) {
    ArrayBuildState *found = NULL;
    size_t passed = 0, count = 0;
    langtag_span span[2];
    int sizes[2], lower[2] = {1, 1};
    while (langtag_next_keyword(BYTES(tag), LEN(tag), &passed, &span[0], &span[1])) { /* each call reads the tag from its start */
        CHECK_FOR_INTERRUPTS();
        for (int k = 0; k < 2; k++)
            found = accumArrayResult(found, PointerGetDatum(cstring_to_text_with_len(BYTES(tag) + span[k].start, (int)span[k].len)),
                                     false, TEXTOID, CurrentMemoryContext);
        count++;
    }
    if (found == NULL) PG_RETURN_ARRAYTYPE_P(construct_empty_array(TEXTOID));
    sizes[0] = (int)count, sizes[1] = 2;
    return makeMdArrayResult(found, 2, sizes, lower, CurrentMemoryContext, true);
}

/* The labels of the enum langtag_kind, in the order of the library's numbers. */
static const char *const kinds[] = {[LANGTAG_NORMAL] = "normal", [LANGTAG_PRIVATE_USE] = "private-use",
                                    [LANGTAG_IRREGULAR] = "irregular"};

OF_ONE(pg_langtag_tag_kind, tag) {
    uint32 kind = langtag_kind(BYTES(tag), LEN(tag));
    Datum *known = fcinfo->flinfo->fn_extra; /* the values of the enum, looked up once a statement */
    if (known == NULL) {
        Datum type = ObjectIdGetDatum(get_func_rettype(fcinfo->flinfo->fn_oid));
        known = MemoryContextAlloc(fcinfo->flinfo->fn_mcxt, lengthof(kinds) * sizeof *known);
        for (int k = LANGTAG_NORMAL; k < lengthof(kinds); k++)
            known[k] = DirectFunctionCall2(enum_in, CStringGetDatum(kinds[k]), type);
        fcinfo->flinfo->fn_extra = known;
    }
    PG_RETURN_DATUM(known[kind]);
}

/* The room is always enough: it is proved that no result is longer (`bounded` of langtag_with_part). */
static Datum with_part(FunctionCallInfo fcinfo, uint32 part, const char *name) {
    struct varlena *tag = PG_GETARG_VARLENA_PP(0), *changed;
    text *given = PG_GETARG_TEXT_PP(1);
    size_t room = LEN(tag) + LEN(given) + 1, len;
    changed = palloc(VARHDRSZ + room);
    len = langtag_with_part(BYTES(tag), LEN(tag), part, BYTES(given), LEN(given), VARDATA(changed), room);
    if (len == 0)
        ereport(ERROR, (errcode(ERRCODE_INVALID_PARAMETER_VALUE),
                        langtag_kind(BYTES(tag), LEN(tag)) != LANGTAG_NORMAL
                            ? errmsg("not a normal language tag: %s has no %s", quoted(BYTES(tag), LEN(tag)), name)
                        : LEN(given) == 0 ? errmsg("the language cannot be removed") // an empty string removes any other part
                                          : errmsg_internal("invalid %s %s", name, quoted(BYTES(given), LEN(given)))));
    SET_VARSIZE(changed, VARHDRSZ + len);
    langtag_recommend(VARDATA(changed), len);
    PG_RETURN_POINTER(changed);
}

#define SETTER(function, part, name)                                                                                   \
    FUNCTION(function) { return with_part(fcinfo, part, name); }
SETTER(pg_langtag_set_language, LANGTAG_PART_LANGUAGE, "language")
SETTER(pg_langtag_set_script, LANGTAG_PART_SCRIPT, "script")
SETTER(pg_langtag_set_region, LANGTAG_PART_REGION, "region")
SETTER(pg_langtag_set_variants, LANGTAG_PART_VARIANTS, "variants")
SETTER(pg_langtag_set_extensions, LANGTAG_PART_EXTENSIONS, "extensions")
SETTER(pg_langtag_set_private_use, LANGTAG_PART_PRIVATE_USE, "private use")

/* Writes a tag with the value of a key, or without the key if `value` is NULL. Returns what the library returns. */
static size_t write_keyword(const char *tag, size_t len, text *key, text *value, char *buffer, size_t room) {
    if (value == NULL) return langtag_without_keyword(tag, len, BYTES(key), LEN(key), buffer, room);
    return langtag_with_keyword(tag, len, BYTES(key), LEN(key), BYTES(value), LEN(value), buffer, room);
}

/* Raises an error that says why a keyword is not set. A keyword can be set in und, so the library refuses the key or the value, if it
 * refuses them there too. */
static void refuse_keyword(struct varlena *tag, text *key, text *value) {
    char nothing[1];
    bool is_key = write_keyword("und", 3, key, NULL, nothing, 0) > 0, is_value = write_keyword("und", 3, key, value, nothing, 0) > 0;
    ereport(ERROR, (errcode(ERRCODE_INVALID_PARAMETER_VALUE),
                    !is_key     ? errmsg("%s is not a key of the extension u", quoted(BYTES(key), LEN(key)))
                    : !is_value ? errmsg("%s is not a value of a key: a subtag needs three to eight letters or digits", quoted(BYTES(value), LEN(value)))
                                : errmsg("not a normal language tag: %s has no keywords", quoted(BYTES(tag), LEN(tag)))));
}

/* Sets a keyword, or removes it if the value is NULL. A tag or a key that is NULL gives NULL. The room is always enough: it is proved
 * that no result is longer (`bounded` of langtag_with_keyword and langtag_without_keyword). */
FUNCTION(pg_langtag_set_keyword) {
    struct varlena *tag, *changed;
    text *key, *value;
    size_t room, len;
    if (PG_ARGISNULL(0) || PG_ARGISNULL(1)) PG_RETURN_NULL();
    tag = PG_GETARG_VARLENA_PP(0);
    key = PG_GETARG_TEXT_PP(1);
    value = PG_ARGISNULL(2) ? NULL : PG_GETARG_TEXT_PP(2);
    room = LEN(tag) + LEN(key) + (value == NULL ? 0 : LEN(value)) + 4;
    changed = palloc(VARHDRSZ + room);
    len = write_keyword(BYTES(tag), LEN(tag), key, value, VARDATA(changed), room);
    if (len == 0) refuse_keyword(tag, key, value);
    SET_VARSIZE(changed, VARHDRSZ + len);
    langtag_recommend(VARDATA(changed), len);
    PG_RETURN_POINTER(changed);
}

/* Each tag got its recommended case when it was read. */
FUNCTION(pg_langtag_recommended) { PG_RETURN_POINTER(PG_GETARG_VARLENA_PP(0)); }

/* ---- the registry, and likely subtags ---- */

OF_ONE(pg_langtag_is_valid, tag) {
    langtag_span invalid;
    PG_RETURN_BOOL(langtag_validity(BYTES(tag), LEN(tag), &invalid) == LANGTAG_VALID);
}

OF_ONE(pg_langtag_invalid_subtag, tag) {
    langtag_span invalid;
    langtag_validity(BYTES(tag), LEN(tag), &invalid);
    return span_or_null(fcinfo, BYTES(tag), invalid);
}

OF_ONE(pg_langtag_suggestion, tag) {
    langtag_span invalid;
    char code[3];
    uint32 fault = langtag_validity(BYTES(tag), LEN(tag), &invalid);
    size_t len = langtag_suggestion(fault, BYTES(tag) + invalid.start, invalid.len, code, sizeof code);
    return span_or_null(fcinfo, code, (langtag_span){.len = len <= sizeof code ? len : 0});
}

OF_ONE(pg_langtag_to_posix, tag) {
    char name[28];
    size_t len = langtag_to_posix(BYTES(tag), LEN(tag), name, sizeof name);
    return span_or_null(fcinfo, name, (langtag_span){.len = len <= sizeof name ? len : 0});
}

/* The greatest lengths of strings for calls whose time grows faster than the string, and that cannot be interrupted. A form of the
 * longest tag takes up to a third of a second. */
#define LONGEST_HEADER 8192
#define LONGEST_TAG LANGTAG_NAME_LONGEST /* for names, the canonical form of a longer tag serves */

static void refuse_length(const char *what, size_t len, size_t limit) {
    ereport(ERROR, (errcode(ERRCODE_PROGRAM_LIMIT_EXCEEDED), errmsg("%s is too long (%zu bytes, limit %zu)", what, len, limit)));
}

static void check_length(const char *what, struct varlena *text, size_t limit) {
    if (LEN(text) > limit) refuse_length(what, LEN(text), limit);
}

typedef size_t (*form_of)(const char *, size_t, char *, size_t);

/* Writes a form of a tag or, if there is no form, the tag at an index of the chain of its parents. */
static size_t write_form(struct varlena *tag, form_of form, uint32 index, struct varlena *to, size_t room) {
    return form ? form(BYTES(tag), LEN(tag), VARDATA(to), room) : langtag_nth_parent(BYTES(tag), LEN(tag), index, VARDATA(to), room);
}

/* Returns what is written of a tag in its recommended case, or NULL if nothing is. It is written again if the guess at its length was too
 * small. */
static struct varlena *form_of_tag(struct varlena *tag, form_of form, uint32 index) {
    size_t room = LEN(tag) + 32, len;
    struct varlena *made = palloc(VARHDRSZ + room);
    len = write_form(tag, form, index, made, room);
    if (len > room) {
        pfree(made);
        made = palloc(VARHDRSZ + len);
        write_form(tag, form, index, made, len);
    }
    if (len == 0) return NULL;
    SET_VARSIZE(made, VARHDRSZ + len);
    langtag_recommend(VARDATA(made), len);
    return made;
}

static Datum form(FunctionCallInfo fcinfo, form_of write) {
    struct varlena *made = form_of_tag(PG_GETARG_VARLENA_PP(0), write, 0);
    if (made == NULL) PG_RETURN_NULL();
    PG_RETURN_POINTER(made);
}

#define FORM(name, write)                                                                                              \
    FUNCTION(name) { return form(fcinfo, write); }
FORM(pg_langtag_canonical, langtag_canonical)
FORM(pg_langtag_maximized, langtag_maximized)
FORM(pg_langtag_minimized, langtag_minimized)
FORM(pg_langtag_from_posix, langtag_from_posix)
FORM(pg_langtag_parent, langtag_parent)

/* Returns an array of a tag and its parents. Its size is quadratic in the number of variants. */
FUNCTION(pg_langtag_parents) {
    Oid type = get_element_type(get_func_rettype(fcinfo->flinfo->fn_oid));
    ArrayBuildState *found = NULL;
    struct varlena *tag = PG_GETARG_VARLENA_PP(0), *parent;
    check_length("tag", tag, LONGEST_HEADER);
    for (uint32 index = 0; (parent = form_of_tag(tag, NULL, index)) != NULL; index++) {
        CHECK_FOR_INTERRUPTS();
        found = accumArrayResult(found, PointerGetDatum(parent), false, type, CurrentMemoryContext);
    }
    return makeArrayResult(found, CurrentMemoryContext);
}

/* Returns a name of the library, which is in UTF-8, or NULL if the encoding of the database lacks one of its characters. */
static text *in_server_encoding(const char *name, size_t len) {
    const char *made = GetDatabaseEncoding() == PG_SQL_ASCII ? pnstrdup(name, len) : converted(name, len, PG_UTF8, GetDatabaseEncoding());
    return made == NULL ? NULL : cstring_to_text(made);
}

OF_ONE(pg_langtag_describe, tag) {
    struct varlena *form = form_of_tag(tag, langtag_name_form, 0);
    char none, *name;
    size_t len;
    text *made;
    langtag_name_keep_language(BYTES(tag), LEN(tag), VARDATA(form));
    len = langtag_name_describe(BYTES(form), LEN(form), &none, 0);
    name = palloc(len);
    langtag_name_describe(BYTES(form), LEN(form), name, len);
    made = in_server_encoding(name, len);
    PG_RETURN_POINTER(made == NULL ? form : made);
}

OF_ONE(pg_langtag_autonym, tag) {
    struct varlena *form = form_of_tag(tag, langtag_name_form, 0);
    const char *name = langtag_name_autonym(BYTES(form), LEN(form));
    text *made = name == NULL ? NULL : in_server_encoding(name, strlen(name));
    if (made == NULL) PG_RETURN_NULL();
    PG_RETURN_TEXT_P(made);
}

#define UNICODE_FORM(name, write)                                                                                      \
    OF_ONE(name, tag) {                                                                                                \
        check_length("tag", tag, LONGEST_TAG);                                                                         \
        return form(fcinfo, write);                                                                                    \
    }
UNICODE_FORM(pg_langtag_extensions_form, langtag_extensions_form)
UNICODE_FORM(pg_langtag_locale_form, langtag_locale_form)

OF_ONE(pg_langtag_is_locale, tag) {
    check_length("tag", tag, LONGEST_TAG);
    PG_RETURN_BOOL(langtag_is_locale(BYTES(tag), LEN(tag)));
}

OF_ONE(pg_langtag_unknown_modifier, name) {
    langtag_span found;
    if (!langtag_unknown_modifier(BYTES(name), LEN(name), &found)) PG_RETURN_NULL();
    PG_RETURN_TEXT_P(cstring_to_text_with_len(BYTES(name) + found.start, (int)found.len));
}

/* Its time grows with the product of both lengths. */
OF_TWO(pg_langtag_resolved_locale, range, tag) {
    size_t room = LEN(range) + LEN(tag) + 32, len;
    struct varlena *made = palloc(VARHDRSZ + room);
    check_length("range", range, LONGEST_HEADER);
    check_length("tag", tag, LONGEST_HEADER);
    len = langtag_resolved_locale(BYTES(range), LEN(range), BYTES(tag), LEN(tag), VARDATA(made), room);
    if (len > room) {
        pfree(made);
        made = palloc(VARHDRSZ + len);
        langtag_resolved_locale(BYTES(range), LEN(range), BYTES(tag), LEN(tag), VARDATA(made), len);
    }
    SET_VARSIZE(made, VARHDRSZ + len);
    langtag_recommend(VARDATA(made), len);
    PG_RETURN_POINTER(made);
}

OF_TWO(pg_langtag_distance, desired, supported) {
    PG_RETURN_INT32((int32)langtag_distance(BYTES(desired), LEN(desired), BYTES(supported), LEN(supported)));
}

OF_ONE(pg_langtag_is_right_to_left, tag) { PG_RETURN_BOOL(langtag_is_right_to_left(BYTES(tag), LEN(tag))); }

/* Returns the version of CLDR as a string of C. */
static char *cldr_version(void) {
    char none;
    size_t len = langtag_cldr_version(&none, 0); /* no pointer may be NULL */
    char *version = palloc0(len + 1);
    langtag_cldr_version(version, len);
    return version;
}

/* Returns the first line that the program `langtag` prints for --version. */
FUNCTION(pg_langtag_version) {
    uint32 date = langtag_registry_date();
    PG_RETURN_TEXT_P(cstring_to_text(psprintf("langtag %s (IANA's registry of %04u-%02u-%02u, CLDR %s)", LANGTAG_VERSION, date / 10000,
                                              date / 100 % 100, date % 100, cldr_version())));
}

FUNCTION(pg_langtag_cldr_version) { PG_RETURN_TEXT_P(cstring_to_text(cldr_version())); }

FUNCTION(pg_langtag_registry_date) {
    uint32 date = langtag_registry_date();
    PG_RETURN_TEXT_P(cstring_to_text(psprintf("%04u-%02u-%02u", date / 10000, date / 100 % 100, date % 100)));
}

/* ---- ranges ---- */

#define MATCHES(name, match)                                                                                           \
    OF_TWO(name, tag, range) { PG_RETURN_BOOL(match(BYTES(range), LEN(range), BYTES(tag), LEN(tag))); }
MATCHES(pg_langtag_matches_basic, langtag_matches_basic)
MATCHES(pg_langtag_matches_extended, langtag_matches_extended)
OF_TWO(pg_langtag_contains, range, tag) { PG_RETURN_BOOL(langtag_matches_basic(BYTES(range), LEN(range), BYTES(tag), LEN(tag))); }

/* A bound is only made from a range. */
FUNCTION(pg_langtag_bound_in) {
    ereport(ERROR, (errcode(ERRCODE_FEATURE_NOT_SUPPORTED), errmsg("cannot accept a value of type langtag_bound")));
    PG_RETURN_NULL();
}

/* Return the bounds of the tags that a range matches: the lower bound is not after the first of them, and the upper bound is after
 * all of them. For de-CH they are de-CH and "de-CH.", since "." is the byte after the hyphen. For extended filtering only the first
 * subtag is used. For * they are the empty string and a string that sorts after all letters. Bounds are compared with tags, but need
 * not be tags. So they have a separate type, and cannot be put into a column of tags. */
static Datum bound(FunctionCallInfo fcinfo, bool extended, bool upper) {
    struct varlena *range = PG_GETARG_VARLENA_PP(0), *answer;
    const char *bytes = BYTES(range);
    size_t end = LEN(range);
    if (bytes[0] == '*') end = 0;
    else if (extended) end = strcspn(pnstrdup(bytes, end), "-");
    answer = palloc(VARHDRSZ + end + 1);
    memcpy(VARDATA(answer), bytes, end);
    langtag_recommend(VARDATA(answer), end);
    if (upper) {
        VARDATA(answer)[end] = end == 0 ? '~' : '.';
        end++;
    }
    SET_VARSIZE(answer, VARHDRSZ + end);
    PG_RETURN_POINTER(answer);
}

#define BOUND(name, extended, upper)                                                                                   \
    FUNCTION(name) { return bound(fcinfo, extended, upper); }
BOUND(pg_langtag_basic_lower, false, false)
BOUND(pg_langtag_basic_upper, false, true)
BOUND(pg_langtag_extended_lower, true, false)
BOUND(pg_langtag_extended_upper, true, true)

/* Returns the expression that calls one of the functions above, in the schema of the extension, for a comparison with tags. */
static Expr *bound_call(PlannerInfo *root, Oid schema, const char *name, Oid type, Node *range) {
    Oid range_type = exprType(range);
    List *names = list_make2(makeString(get_namespace_name(schema)), makeString(pstrdup(name)));
    Oid function = LookupFuncName(names, 1, &range_type, false);
    FuncExpr *call = makeFuncExpr(function, get_func_rettype(function), list_make1(copyObject(range)), InvalidOid,
                                  InvalidOid, COERCE_EXPLICIT_CALL);
    RelabelType *as_tag = makeRelabelType((Expr *)call, type, -1, InvalidOid, COERCE_IMPLICIT_CAST);
    return (Expr *)eval_const_expressions(root, (Node *)as_tag);
}

/* Returns whether a range that is known when the query is planned has bounds, and sets `lossy` if the bounds include tags that it
 * does not match. */
static bool bounded(Const *range, bool *lossy) {
    struct varlena *value;
    if (range->constisnull) return false;
    value = PG_DETOAST_DATUM_PACKED(range->constvalue);
    *lossy = *lossy || langtag_range_kind(BYTES(value), LEN(value)) != LANGTAG_RANGE_BASIC;
    return BYTES(value)[0] != '*';
}

/* Converts a match to bounds for a btree index of tags, or returns NULL if it has no bounds. `tag_at` is the argument that is the tag. */
static List *index_condition(SupportRequestIndexCondition *request, bool extended, int tag_at) {
    List *arguments = is_opclause(request->node)     ? ((OpExpr *)request->node)->args
                      : is_funcclause(request->node) ? ((FuncExpr *)request->node)->args
                                                     : NIL;
    const char *lower = extended ? "langtag_extended_lower" : "langtag_basic_lower";
    const char *upper = extended ? "langtag_extended_upper" : "langtag_basic_upper";
    Oid schema = get_func_namespace(request->funcid), type, from, below;
    Node *tag, *range;
    bool lossy = extended;

    if (request->indexarg != tag_at || list_length(arguments) != 2 || request->index->relam != BTREE_AM_OID) return NIL;
    tag = list_nth(arguments, tag_at);
    range = list_nth(arguments, 1 - tag_at);
    if (!is_pseudo_constant_for_index(request->root, range, request->index)) return NIL;
    if (!IsA(range, Const)) lossy = true;
    else if (!bounded((Const *)range, &lossy)) return NIL;
    type = exprType(tag);
    from = get_opfamily_member(request->opfamily, type, type, BTGreaterEqualStrategyNumber);
    below = get_opfamily_member(request->opfamily, type, type, BTLessStrategyNumber);
    if (!OidIsValid(from) || !OidIsValid(below)) return NIL;
    request->lossy = lossy;
    return list_make2(
        make_opclause(from, BOOLOID, false, copyObject((Expr *)tag),
                      bound_call(request->root, schema, lower, type, range), InvalidOid, InvalidOid),
        make_opclause(below, BOOLOID, false, copyObject((Expr *)tag),
                      bound_call(request->root, schema, upper, type, range), InvalidOid, InvalidOid));
}

static Datum support(FunctionCallInfo fcinfo, bool extended, int tag_at) {
    Node *request = (Node *)PG_GETARG_POINTER(0);
    if (!IsA(request, SupportRequestIndexCondition)) PG_RETURN_POINTER(NULL);
    PG_RETURN_POINTER(index_condition((SupportRequestIndexCondition *)request, extended, tag_at));
}

FUNCTION(pg_langtag_basic_support) { return support(fcinfo, false, 0); }
FUNCTION(pg_langtag_extended_support) { return support(fcinfo, true, 0); }
FUNCTION(pg_langtag_contains_support) { return support(fcinfo, false, 1); }

/* ---- the best tag for a request ---- */

/* The tags of an array, without NULLs, the index of each in the array, and its place in one string with all tags. */
typedef struct offered {
    struct varlena **tags;
    int *places, count;
    langtag_prepared_tag *entries;
    bool is_prepared;
    StringInfoData string;
} offered;

/* Returns the values of an array. */
static offered values_of(ArrayType *array) {
    offered all = {NULL};
    Datum *values;
    bool *nulls;
    int count;
    deconstruct_array(array, ARR_ELEMTYPE(array), -1, false, TYPALIGN_INT, &values, &nulls, &count);
    all.tags = palloc(count * sizeof *all.tags);
    all.places = palloc(count * sizeof *all.places);
    all.entries = palloc(count * sizeof *all.entries);
    initStringInfo(&all.string);
    for (int k = 0; k < count; k++) {
        struct varlena *tag = nulls[k] ? NULL : PG_DETOAST_DATUM_PACKED(values[k]);
        CHECK_FOR_INTERRUPTS();
        if (tag == NULL) continue;
        all.places[all.count] = k;
        all.entries[all.count].tag = (langtag_span){.start = (size_t)all.string.len, .len = LEN(tag)};
        appendBinaryStringInfo(&all.string, BYTES(tag), (int)LEN(tag));
        all.tags[all.count++] = tag;
    }
    return all;
}

/* Returns the tags of an array, or its strings, which have to be tags. */
static offered tags_of(ArrayType *array) {
    offered all = values_of(array);
    for (int k = 0; ARR_ELEMTYPE(array) == TEXTOID && k < all.count; k++) check_tag(NULL, BYTES(all.tags[k]), LEN(all.tags[k]));
    return all;
}

/* Prepares the tags for many choices. */
static void prepare(offered *all) {
    for (int k = 0; k < all->count; k++) langtag_prepare(all->string.data, (size_t)all->string.len, &all->entries[k]);
    all->is_prepared = true;
}

/* The array of the last call of a function in a statement. A longer array is not kept. */
#define LONGEST_KEPT 65536
typedef struct kept {
    MemoryContext memory; /* of the array and its tags */
    ArrayType *array;     /* or NULL */
    offered tags;         /* if they are prepared */
} kept;

static void keep(FunctionCallInfo fcinfo, ArrayType *array) {
    kept *it = fcinfo->flinfo->fn_extra;
    if (it == NULL) {
        it = MemoryContextAllocZero(fcinfo->flinfo->fn_mcxt, sizeof *it);
        it->memory = AllocSetContextCreate(fcinfo->flinfo->fn_mcxt, "tags of langtag", ALLOCSET_SMALL_SIZES);
        fcinfo->flinfo->fn_extra = it;
    }
    it->array = NULL;
    it->tags.is_prepared = false;
    MemoryContextReset(it->memory);
    if (VARSIZE(array) <= LONGEST_KEPT) it->array = memcpy(MemoryContextAlloc(it->memory, VARSIZE(array)), array, VARSIZE(array));
}

/* Returns the tags of the array of a call. They are prepared if the call before had the same array, not earlier, because that takes
 * longer than a single choice. */
static offered tags_of_call(FunctionCallInfo fcinfo, ArrayType *array) {
    kept *it = fcinfo->flinfo->fn_extra;
    if (it == NULL || it->array == NULL || VARSIZE(it->array) != VARSIZE(array) || memcmp(it->array, array, VARSIZE(array)) != 0) {
        keep(fcinfo, array);
        return tags_of(array);
    }
    if (!it->tags.is_prepared) {
        MemoryContext before = MemoryContextSwitchTo(it->memory);
        it->tags = tags_of(it->array);
        prepare(&it->tags);
        MemoryContextSwitchTo(before);
    }
    return it->tags;
}

/* A function of the library that chooses among tags for a header. */
typedef size_t choice(const char *header, size_t header_len, const char *bytes, size_t len, const langtag_span *tags, size_t count);

/* What a user wants: a header, and how it chooses, or a list of ranges, which are spans of one string. */
typedef struct wanted {
    const char *bytes;
    size_t len, count;
    choice *choose; /* or NULL */
    langtag_span *ranges;
} wanted;

static wanted by_header(choice *choose, text *header) {
    check_length("header", header, LONGEST_HEADER);
    return (wanted){.bytes = BYTES(header), .len = LEN(header), .choose = choose};
}

/* Returns the ranges of an array of strings. A string that is not a range is skipped by the library. */
static wanted by_ranges(ArrayType *array) {
    offered all = values_of(array);
    wanted by = {.bytes = all.string.data, .len = (size_t)all.string.len, .count = (size_t)all.count};
    if (by.len > LONGEST_HEADER) refuse_length("list of ranges", by.len, LONGEST_HEADER);
    by.ranges = palloc((by.count + 1) * sizeof *by.ranges);
    for (int k = 0; k < all.count; k++) by.ranges[k] = all.entries[k].tag;
    return by;
}

/* A call of the library compares each range of a header with each tag, and cannot be interrupted. So one call gets at most this
 * many tags, with at most this many bytes in total, or a single longer tag. */
#define TAGS_AT_ONCE 64
#define BYTES_AT_ONCE 4096

/* Returns which of some tags is chosen, or `count` if none is. Only langtag_best_for_header is asked among tags that are prepared. */
static int chosen_of(const wanted *by, const offered *all, const int *some, int count) {
    langtag_prepared_tag entries[TAGS_AT_ONCE];
    langtag_span spans[TAGS_AT_ONCE];
    const char *bytes = all->string.data;
    size_t len = (size_t)all->string.len, chosen;
    for (int k = 0; k < count; k++) {
        entries[k] = all->entries[some[k]];
        spans[k] = entries[k].tag;
    }
    if (by->choose == NULL)
        chosen = all->is_prepared ? langtag_site_best_for_ranges(by->bytes, by->len, by->ranges, by->count, bytes, len, entries, (size_t)count)
                                  : langtag_best_for_ranges(by->bytes, by->len, by->ranges, by->count, bytes, len, spans, (size_t)count);
    else
        chosen = all->is_prepared ? langtag_site_best_for_header(by->bytes, by->len, bytes, len, entries, (size_t)count)
                                  : by->choose(by->bytes, by->len, bytes, len, spans, (size_t)count);
    return (int)Min(chosen, (size_t)count);
}

/* The tag chosen so far is put before the next tags. This is correct because the choice between two tags depends on no third tag,
 * and of two equally good tags the first is chosen. */
static int chosen_index(const wanted *by, const offered *all) {
    int best = -1;
    for (int next = 0; next < all->count;) {
        int some[TAGS_AT_ONCE], taken = 0, found;
        size_t bytes = 0;
        CHECK_FOR_INTERRUPTS();
        if (best >= 0) some[taken++] = best;
        while (taken < TAGS_AT_ONCE && next < all->count && (bytes == 0 || bytes + LEN(all->tags[next]) <= BYTES_AT_ONCE)) {
            bytes += LEN(all->tags[next]);
            some[taken++] = next++;
        }
        found = chosen_of(by, all, some, taken);
        if (found < taken) best = some[found];
    }
    return best;
}

FUNCTION(pg_langtag_tag_for_header) {
    wanted by = by_header(langtag_tag_for_header_lenient, PG_GETARG_TEXT_PP(1));
    offered all = tags_of(PG_GETARG_ARRAYTYPE_P(0));
    int best = chosen_index(&by, &all);
    if (best < 0) PG_RETURN_NULL();
    PG_RETURN_POINTER(all.tags[best]);
}

/* Sets the tags of a call, and returns the index of the best of them, or -1. */
static int best_of_call(FunctionCallInfo fcinfo, wanted by, offered *all) {
    *all = tags_of_call(fcinfo, PG_GETARG_ARRAYTYPE_P(0));
    return chosen_index(&by, all);
}

/* Returns a tag, as a copy, since what is kept may be freed before the result is. */
static Datum best(FunctionCallInfo fcinfo, wanted by) {
    offered all;
    int found = best_of_call(fcinfo, by, &all);
    if (found < 0) PG_RETURN_NULL();
    PG_RETURN_POINTER(value_of(BYTES(all.tags[found]), LEN(all.tags[found])));
}

FUNCTION(pg_langtag_best_for_header) { return best(fcinfo, by_header(langtag_best_for_header, PG_GETARG_TEXT_PP(1))); }
FUNCTION(pg_langtag_best_for_ranges) { return best(fcinfo, by_ranges(PG_GETARG_ARRAYTYPE_P(1))); }

/* Returns an array of the suitable tags, best first. Each choice is a call of its own, so the query can be cancelled. */
static Datum suitable(FunctionCallInfo fcinfo, wanted by) {
    ArrayType *array = PG_GETARG_ARRAYTYPE_P(0);
    int best, count = 0;
    offered left = tags_of(array);
    Datum *found = palloc((left.count + 1) * sizeof *found);
    while ((best = chosen_index(&by, &left)) >= 0) {
        found[count++] = PointerGetDatum(left.tags[best]);
        left.count--;
        memmove(left.tags + best, left.tags + best + 1, (left.count - best) * sizeof *left.tags);
        memmove(left.entries + best, left.entries + best + 1, (left.count - best) * sizeof *left.entries);
    }
    PG_RETURN_ARRAYTYPE_P(construct_array(found, count, ARR_ELEMTYPE(array), -1, false, TYPALIGN_INT));
}

FUNCTION(pg_langtag_suitable_for_header) { return suitable(fcinfo, by_header(langtag_best_for_header, PG_GETARG_TEXT_PP(1))); }
FUNCTION(pg_langtag_suitable_for_ranges) { return suitable(fcinfo, by_ranges(PG_GETARG_ARRAYTYPE_P(1))); }

/* Returns the row of the best tag. The range that it serves is found with this tag alone, since the best range for a tag does not
 * depend on other tags. */
FUNCTION(pg_langtag_match_for_header) {
    text *header = PG_GETARG_TEXT_PP(1);
    offered all;
    struct varlena *tag;
    int best = best_of_call(fcinfo, by_header(langtag_best_for_header, header), &all);
    TupleDesc row;
    langtag_best_match match;
    Datum values[4];
    bool nulls[4] = {false, false, false, false};
    if (get_call_result_type(fcinfo, NULL, &row) != TYPEFUNC_COMPOSITE) elog(ERROR, "a row is wanted");
    if (best < 0) PG_RETURN_NULL();
    tag = all.tags[best];
    langtag_match_for_header(BYTES(header), LEN(header), BYTES(tag), LEN(tag), &(langtag_span){.start = 0, .len = LEN(tag)}, 1, &match);
    values[0] = Int32GetDatum(all.places[best] + 1);
    values[1] = PointerGetDatum(tag);
    values[2] = Int32GetDatum((int32)match.distance);
    values[3] = PointerGetDatum(cstring_to_text_with_len(BYTES(header) + match.range.start, (int)match.range.len));
    PG_RETURN_DATUM(HeapTupleGetDatum(heap_form_tuple(BlessTupleDesc(row), values, nulls)));
}
