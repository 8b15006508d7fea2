/*
 * A loadable extension for SQLite: functions for language tags, and a collation. `make` in this folder builds it, with the C library
 * inside. docs/SQLITE.md, which is the README of the tarball, says what each function returns.
 *
 * Each function returns NULL if an argument is NULL, except for the value of langtag_set_keyword and the tags of a choice. A function
 * that says yes or no returns 1 or 0, and 0 for a string that is not a tag, so that a CHECK refuses it.
 */
#include <langtag.h>
#include <langtag_names.h>
#include <sqlite3ext.h>
#include <string.h>
SQLITE_EXTENSION_INIT1

/* The functions depend on nothing but their arguments, and have no side effects. So a schema may use them even if it is not trusted. */
#ifndef SQLITE_INNOCUOUS
#define SQLITE_INNOCUOUS 0
#endif
#define FLAGS (SQLITE_UTF8 | SQLITE_DETERMINISTIC | SQLITE_INNOCUOUS)

/* The definition of a function of SQL. Most functions know how many arguments they have. */
#define FUNCTION(name) \
    static void name(sqlite3_context *context, __attribute__((unused)) int count, __attribute__((unused)) sqlite3_value **values)

/* A function of SQL. If several functions share `call`, one of the last four is what they ask of the library. */
typedef struct function {
    const char *name;
    int arguments;
    void (*call)(sqlite3_context *context, int count, sqlite3_value **values);
    size_t (*form)(const char *tag, size_t len, char *buffer, size_t buffer_len);
    bool (*is)(const char *tag, size_t len);
    bool (*matches)(const char *range, size_t range_len, const char *tag, size_t tag_len);
    bool is_for_ranges; /* a choice for a list of ranges, and not for a header */
    bool is_quadratic; /* a call that cannot be interrupted, so it refuses a longer tag than names are made of */
} function;

/* A function with a call of its own, and a form, whose function of the library has the name that it has in SQL. */
#define CALL(sql, count, own) {.name = sql, .arguments = count, .call = own}
#define FORM(both, quadratic) {.name = #both, .arguments = 1, .call = form, .form = both, .is_quadratic = quadratic}

static const function *called(sqlite3_context *context) { return sqlite3_user_data(context); }

/* Returns whether there was no memory for something, which is an error. */
static bool lacks(sqlite3_context *context, const void *made) {
    if (!made) sqlite3_result_error_nomem(context);
    return !made;
}

/* A string argument. `at` is NULL if the argument is NULL. */
typedef struct text {
    const char *at;
    size_t len;
} text;

static text text_of(sqlite3_value *value) {
    const char *at = (const char *)sqlite3_value_text(value);
    return (text){at, at ? (size_t)sqlite3_value_bytes(value) : 0};
}

/* Returns whether a string is longer than its limit, which is an error. */
static bool exceeds(sqlite3_context *context, const char *what, text of, int limit) {
    char why[80];
    if (of.len <= (size_t)limit) return false;
    sqlite3_snprintf(sizeof why, why, "%s is too long (%llu bytes, limit %d)", what, (unsigned long long)of.len, limit);
    sqlite3_result_error(context, why, -1);
    return true;
}

/* Returns whether a tag is too long for the function, which is an error. */
static bool is_too_long(sqlite3_context *context, text tag) {
    return called(context)->is_quadratic && exceeds(context, "tag", tag, LANGTAG_NAME_LONGEST);
}

static void return_span(sqlite3_context *context, text of, langtag_span span) {
    sqlite3_result_text64(context, of.at + span.start, span.len, SQLITE_TRANSIENT, SQLITE_UTF8);
}

/* Returns the span of the part with a name, or NULL if no part has that name. */
static const langtag_span *part_named(const langtag_parts *parts, text name) {
    const struct {
        const char *name;
        const langtag_span *span;
    } named[] = {
        {"language", &parts->language}, {"script", &parts->script},         {"region", &parts->region},
        {"variants", &parts->variants}, {"extensions", &parts->extensions}, {"private_use", &parts->private_use},
    };
    for (size_t k = 0; k < sizeof named / sizeof *named; k++)
        if (strlen(named[k].name) == name.len && memcmp(named[k].name, name.at, name.len) == 0) return named[k].span;
    return NULL;
}

FUNCTION(part) {
    const text tag = text_of(values[0]), name = text_of(values[1]);
    langtag_parts parts;
    if (!tag.at || !name.at) return; /* NULL */
    uint32_t kind = langtag_parse(tag.at, tag.len, &parts);
    const langtag_span *span = part_named(&parts, name);
    if (!span) sqlite3_result_error(context, "langtag_part: no part has that name", -1);
    else if (kind != LANGTAG_NONE && span->len > 0) return_span(context, tag, *span);
}

FUNCTION(keyword) {
    const text tag = text_of(values[0]), key = text_of(values[1]);
    langtag_span value;
    if (tag.at && key.at && langtag_keyword(tag.at, tag.len, key.at, key.len, &value)) return_span(context, tag, value); /* else NULL */
}

FUNCTION(base) {
    const text tag = text_of(values[0]);
    const langtag_span span = {0, tag.at ? langtag_base_len(tag.at, tag.len) : 0};
    if (span.len > 0) return_span(context, tag, span); /* else NULL */
}

/* Returns a string of C in allocated memory. NULL means that there was no memory, which is an error. */
static void return_made(sqlite3_context *context, char *made) {
    if (!lacks(context, made)) sqlite3_result_text(context, made, -1, sqlite3_free);
}

/* Of what a string is made: its form, or the parent at an index above 0, or the locale for a range, or the tag with the value of a key, or
 * without the key if the value is NULL. */
typedef struct source {
    size_t (*form)(const char *tag, size_t len, char *buffer, size_t buffer_len);
    uint32_t parent;
    text tag, range, key, value;
} source;

static size_t write_source(const source *of, char *buffer, size_t room) {
    const text tag = of->tag, range = of->range, key = of->key, value = of->value;
    if (of->form) return of->form(tag.at, tag.len, buffer, room);
    if (of->parent > 0) return langtag_nth_parent(tag.at, tag.len, of->parent - 1, buffer, room);
    if (range.at) return langtag_resolved_locale(range.at, range.len, tag.at, tag.len, buffer, room);
    if (!value.at) return langtag_without_keyword(tag.at, tag.len, key.at, key.len, buffer, room);
    return langtag_with_keyword(tag.at, tag.len, key.at, key.len, value.at, value.len, buffer, room);
}

/* Returns the string that is made, or NULL if it is empty. It is written to the stack first, and to allocated memory only if it is longer.
 * Returns whether there is one. */
static bool return_written(sqlite3_context *context, const source *of) {
    char room[256];
    const size_t len = write_source(of, room, sizeof room);
    if (len <= sizeof room) {
        if (len > 0) sqlite3_result_text(context, room, (int)len, SQLITE_TRANSIENT);
        return len > 0;
    }
    char *made = sqlite3_malloc64(len);
    if (lacks(context, made)) return true;
    write_source(of, made, len);
    sqlite3_result_text64(context, made, len, sqlite3_free, SQLITE_UTF8);
    return true;
}

FUNCTION(nth_parent) {
    const text tag = text_of(values[0]);
    const int type = sqlite3_value_numeric_type(values[1]);
    const sqlite3_int64 index = sqlite3_value_int64(values[1]);
    if (!tag.at || type == SQLITE_NULL) return; /* NULL */
    if (type != SQLITE_INTEGER && type != SQLITE_FLOAT) sqlite3_result_error(context, "langtag_nth_parent: the index is not a number", -1);
    else if (index >= 0 && index < UINT32_MAX) return_written(context, &(source){.parent = (uint32_t)index + 1, .tag = tag}); /* else NULL */
}

FUNCTION(form) {
    const text tag = text_of(values[0]);
    if (tag.at && !is_too_long(context, tag)) return_written(context, &(source){.form = called(context)->form, .tag = tag}); /* else NULL */
}

/* Returns the form of a tag whose subtags have the names, in memory to be freed, and sets `len`. Returns NULL if the string is not a tag, or
 * memory is short, which is an error. */
static char *named_form(sqlite3_context *context, text tag, size_t *len) {
    char none;
    *len = tag.at ? langtag_name_form(tag.at, tag.len, &none, 0) : 0;
    if (*len == 0) return NULL;
    char *form = sqlite3_malloc64(*len);
    if (lacks(context, form)) return NULL;
    langtag_name_form(tag.at, tag.len, form, *len);
    return form;
}

FUNCTION(describe) {
    const text tag = text_of(values[0]);
    size_t len;
    char *form = named_form(context, tag, &len);
    if (form) { /* else NULL, or the error */
        langtag_name_keep_language(tag.at, tag.len, form);
        return_written(context, &(source){.form = langtag_name_describe, .tag = {form, len}});
    }
    sqlite3_free(form);
}

FUNCTION(autonym) {
    size_t len;
    char *form = named_form(context, text_of(values[0]), &len);
    const char *name = form ? langtag_name_autonym(form, len) : NULL;
    if (name) sqlite3_result_text(context, name, -1, SQLITE_STATIC);
    sqlite3_free(form);
}

/* Returns why a keyword is not set. A keyword can be set in und, so the library refuses the key or the value, if it refuses them there
 * too. */
static const char *why_refused(text key, text value) {
    char none;
    const source without = {.tag = {"und", 3}, .key = key}, with = {.tag = {"und", 3}, .key = key, .value = value};
    if (write_source(&without, &none, 0) == 0) return "langtag_set_keyword: not a key of the extension u";
    if (write_source(&with, &none, 0) == 0) return "langtag_set_keyword: not a value of a key: a subtag needs three to eight letters or digits";
    return "langtag_set_keyword: not a normal language tag";
}

FUNCTION(set_keyword) {
    const int removes = sqlite3_value_type(values[2]) == SQLITE_NULL;
    const text tag = text_of(values[0]), key = text_of(values[1]), value = text_of(values[2]);
    if (!removes && lacks(context, value.at)) return; /* no memory for the string of a number is no reason to remove the key */
    if (!tag.at || !key.at || !langtag_kind(tag.at, tag.len)) return; /* NULL */
    if (!return_written(context, &(source){.tag = tag, .key = key, .value = value})) sqlite3_result_error(context, why_refused(key, value), -1);
}

/* The time grows with the product of both lengths, so both have a limit, which PostgreSQL has, too. */
FUNCTION(resolved_locale) {
    const int limit = 8192;
    const text range = text_of(values[0]), tag = text_of(values[1]);
    if (!range.at || !tag.at) return; /* NULL */
    if (exceeds(context, "range", range, limit) || exceeds(context, "tag", tag, limit)) return;
    return_written(context, &(source){.tag = tag, .range = range});
}

/* Reads an argument of a function that says yes or no. Returns false if it is NULL, as then the result is, or if there is no memory for
 * the string of a number, which is an error: NULL would let the row pass a CHECK. */
static bool given(sqlite3_context *context, sqlite3_value *value, text *found) {
    if (sqlite3_value_type(value) == SQLITE_NULL) return false;
    *found = text_of(value);
    return !lacks(context, found->at);
}

FUNCTION(is) {
    text tag;
    if (given(context, values[0], &tag) && !is_too_long(context, tag)) sqlite3_result_int(context, called(context)->is(tag.at, tag.len));
}

static bool is_well_formed(const char *tag, size_t len) { return langtag_kind(tag, len) != LANGTAG_NONE; }

static bool is_valid(const char *tag, size_t len) {
    langtag_span invalid;
    return langtag_validity(tag, len, &invalid) == LANGTAG_VALID;
}

FUNCTION(matches) {
    text range, tag;
    if (given(context, values[0], &range) && given(context, values[1], &tag))
        sqlite3_result_int(context, called(context)->matches(range.at, range.len, tag.at, tag.len));
}

FUNCTION(unknown_modifier) {
    const text name = text_of(values[0]);
    langtag_span modifier;
    if (name.at && langtag_unknown_modifier(name.at, name.len, &modifier)) return_span(context, name, modifier); /* else NULL */
}

FUNCTION(distance) {
    const text desired = text_of(values[0]), supported = text_of(values[1]);
    if (!desired.at || !supported.at) return; /* NULL */
    uint32_t far = langtag_distance(desired.at, desired.len, supported.at, supported.len);
    if (far != LANGTAG_NO_DISTANCE) sqlite3_result_int(context, (int)far); /* else NULL */
}

/* The tags of a call, as spans of one string. They are in one allocated block, with room for the index of each tag, and for what a choice
 * computes of each tag. A string that is NULL has an empty span, which is no tag. */
typedef struct offered {
    size_t count, len;
    langtag_span *spans;
    size_t *found;
    langtag_prepared_tag *site; /* prepared if `is_prepared` */
    char *bytes;
    bool is_prepared;
} offered;

/* Returns whether a string is not a tag, which is an error in a choice. NULL is skipped. */
static bool is_no_tag(sqlite3_context *context, text tag) {
    char why[120];
    if (!tag.at || langtag_kind(tag.at, tag.len) != LANGTAG_NONE) return false;
    sqlite3_snprintf(sizeof why, why, "langtag: expected language tags, got `%.*s`", (int)(tag.len < 80 ? tag.len : 80), tag.at);
    sqlite3_result_error(context, why, -1);
    return true;
}

/* Returns the tags of a call, which the caller frees. Returns NULL if a string is not a tag or there is no memory, which are errors. */
static offered *offer(sqlite3_context *context, int count, sqlite3_value **values) {
    const size_t tags_count = (size_t)count - 1;
    size_t len = 0;
    for (size_t k = 1; k <= tags_count; k++) {
        const text tag = text_of(values[k]);
        if (is_no_tag(context, tag)) return NULL;
        len += tag.len;
    }
    offered *tags = sqlite3_malloc64(sizeof *tags + tags_count * (sizeof *tags->site + sizeof *tags->spans + sizeof *tags->found) + len + 1);
    if (lacks(context, tags)) return NULL;
    tags->count = tags_count;
    tags->len = len;
    tags->site = (langtag_prepared_tag *)(tags + 1);
    tags->spans = (langtag_span *)(tags->site + tags_count);
    tags->found = (size_t *)(tags->spans + tags_count);
    tags->bytes = (char *)(tags->found + tags_count);
    tags->is_prepared = false;
    for (size_t k = 0, at = 0; k < tags_count; k++) {
        const text tag = text_of(values[k + 1]);
        tags->spans[k] = (langtag_span){at, tag.len};
        if (tag.at) memcpy(tags->bytes + at, tag.at, tag.len);
        at += tag.len;
    }
    return tags;
}

/* Returns whether the tags are those of a call. */
static bool are_those_of(const offered *tags, int count, sqlite3_value **values) {
    if (tags->count != (size_t)count - 1) return false;
    for (size_t k = 0; k < tags->count; k++) {
        const text tag = text_of(values[k + 1]);
        if (tag.len != tags->spans[k].len || (tag.len > 0 && memcmp(tag.at, tags->bytes + tags->spans[k].start, tag.len) != 0)) return false;
    }
    return true;
}

static void prepare(offered *tags) {
    for (size_t k = 0; k < tags->count; k++) {
        tags->site[k].tag = tags->spans[k];
        langtag_prepare(tags->bytes, tags->len, &tags->site[k]);
    }
    tags->is_prepared = true;
}

/* What a choice is made for: a header, or ranges, which are spans of the string. */
typedef struct wanted {
    text string;
    langtag_span *ranges; /* to be freed, or NULL for a header */
    size_t count;
} wanted;

/* Reads the first argument of a choice. The library skips the blanks around a range. Returns false if the result is NULL or an error. */
static bool is_wanted(sqlite3_context *context, int count, sqlite3_value **values, wanted *it) {
    size_t start = 0;
    if (count < 1) {
        sqlite3_result_error(context, "langtag: expected a header or ranges", -1);
        return false;
    }
    *it = (wanted){.string = text_of(values[0])};
    if (!it->string.at || !called(context)->is_for_ranges) return it->string.at != NULL;
    it->ranges = sqlite3_malloc64((it->string.len + 1) * sizeof *it->ranges);
    if (lacks(context, it->ranges)) return false;
    for (size_t at = 0; at <= it->string.len; at++)
        if (at == it->string.len || it->string.at[at] == ',') {
            it->ranges[it->count++] = (langtag_span){start, at - start};
            start = at + 1;
        }
    return true;
}

/* Returns the index of the tag that is chosen among the tags of a call, and of which `match` says more if there is a header. */
static size_t best_of(const wanted *by, const offered *tags, langtag_best_match *match) {
    const text of = by->string;
    if (by->ranges && tags->is_prepared)
        return langtag_site_best_for_ranges(of.at, of.len, by->ranges, by->count, tags->bytes, tags->len, tags->site, tags->count);
    if (by->ranges) return langtag_best_for_ranges(of.at, of.len, by->ranges, by->count, tags->bytes, tags->len, tags->spans, tags->count);
    if (tags->is_prepared) return langtag_site_match_for_header(of.at, of.len, tags->bytes, tags->len, tags->site, tags->count, match);
    return langtag_match_for_header(of.at, of.len, tags->bytes, tags->len, tags->spans, tags->count, match);
}

/* Returns the place of the chosen tag among the arguments, or 0 if no tag is chosen. SQLite keeps the tags of a call for the next call of the
 * statement if the first tag is constant. They are prepared when a second call has the same tags, because that costs more than one choice. */
static size_t chosen(sqlite3_context *context, int count, sqlite3_value **values, langtag_best_match *match) {
    wanted by;
    if (!is_wanted(context, count, values, &by)) return 0;
    offered *kept = sqlite3_get_auxdata(context, 1);
    const bool is_kept = kept && are_those_of(kept, count, values);
    offered *tags = is_kept ? kept : offer(context, count, values);
    if (is_kept && !tags->is_prepared) prepare(tags);
    const size_t best = tags ? best_of(&by, tags, match) : 0, place = tags && best < tags->count ? best + 1 : 0;
    sqlite3_free(by.ranges);
    if (tags && !is_kept) sqlite3_set_auxdata(context, 1, tags, sqlite3_free); /* may free them */
    return place;
}

FUNCTION(best) {
    langtag_best_match match;
    size_t found = chosen(context, count, values, &match);
    if (found) sqlite3_result_value(context, values[found]); /* else NULL */
}

/* Returns a JSON object. The bytes of tags and ranges need no escapes in JSON. */
FUNCTION(match_for_header) {
    langtag_best_match match;
    size_t best = chosen(context, count, values, &match);
    if (!best) return; /* NULL */
    return_made(context, sqlite3_mprintf("{\"index\":%d,\"tag\":\"%s\",\"distance\":%u,\"range\":\"%.*s\"}", (int)best - 1, text_of(values[best]).at,
                                         (unsigned)match.distance, (int)match.range.len, text_of(values[0]).at + match.range.start));
}

/* Returns a JSON array of the suitable tags, best first. The bytes of tags need no escapes in JSON. */
FUNCTION(suitable) {
    wanted by;
    if (!is_wanted(context, count, values, &by)) return; /* NULL, or the error */
    offered *tags = offer(context, count, values);
    if (tags) {
        const text of = by.string;
        const size_t found = by.ranges ? langtag_suitable_for_ranges(of.at, of.len, by.ranges, by.count, tags->bytes, tags->len, tags->spans, tags->count,
                                                                     tags->found, tags->count)
                                       : langtag_suitable_for_header(of.at, of.len, tags->bytes, tags->len, tags->spans, tags->count, tags->found, tags->count);
        sqlite3_str *json = sqlite3_str_new(sqlite3_context_db_handle(context));
        for (size_t k = 0; k < found; k++) {
            const langtag_span tag = tags->spans[tags->found[k]];
            sqlite3_str_appendf(json, "%s\"%.*s\"", k ? "," : "[", (int)tag.len, tags->bytes + tag.start);
        }
        sqlite3_str_appendall(json, found ? "]" : "[]");
        return_made(context, sqlite3_str_finish(json));
    }
    sqlite3_free(tags);
    sqlite3_free(by.ranges);
}

FUNCTION(suggestion) {
    const text tag = text_of(values[0]);
    langtag_span invalid;
    char code[3];
    if (!tag.at) return; /* NULL */
    uint32_t fault = langtag_validity(tag.at, tag.len, &invalid);
    size_t len = langtag_suggestion(fault, tag.at + invalid.start, invalid.len, code, sizeof code);
    if (len > 0 && len <= sizeof code) sqlite3_result_text(context, code, (int)len, SQLITE_TRANSIENT);
}

/* What an aggregate keeps of its rows: the header, and in `bytes` the best tag, behind which the tag of a row is put. */
typedef struct group {
    char *header;
    size_t header_len;
    char *bytes;
    size_t best_len; /* 0 if no tag is suitable so far */
} group;

/* Copies the header of the first row, and returns whether that of a row is the same. Otherwise the result is an error. */
static bool same_header(sqlite3_context *context, group *rows, text header) {
    if (!rows->header) {
        rows->header = sqlite3_malloc64(header.len + 1);
        if (lacks(context, rows->header)) return false;
        memcpy(rows->header, header.at, header.len);
        rows->header_len = header.len;
    }
    if (rows->header_len == header.len && memcmp(rows->header, header.at, header.len) == 0) return true;
    sqlite3_result_error(context, "langtag_group_best_for_header: the header differs in the rows of a group", -1);
    return false;
}

/* Chooses between the best tag of the rows before and that of this row. This is correct because the choice between two tags depends on
 * no third tag, and of two equally good tags the first is chosen. */
FUNCTION(group_step) {
    group *rows = sqlite3_aggregate_context(context, sizeof *rows);
    text header, tag;
    if (lacks(context, rows) || !given(context, values[0], &header) || !given(context, values[1], &tag) || is_no_tag(context, tag) ||
        !same_header(context, rows, header))
        return;
    char *bytes = sqlite3_realloc64(rows->bytes, rows->best_len + tag.len + 1);
    if (lacks(context, bytes)) return;
    rows->bytes = bytes;
    memcpy(bytes + rows->best_len, tag.at, tag.len);
    /* Without a best tag, the first span is empty, which is no tag. */
    const langtag_span both[] = {{0, rows->best_len}, {rows->best_len, tag.len}};
    if (langtag_best_for_header(header.at, header.len, bytes, rows->best_len + tag.len, both, 2) != 1) return;
    memmove(bytes, bytes + rows->best_len, tag.len);
    rows->best_len = tag.len;
}

static void group_final(sqlite3_context *context) {
    group *rows = sqlite3_aggregate_context(context, 0);
    if (!rows) return; /* NULL */
    if (rows->best_len > 0) sqlite3_result_text64(context, rows->bytes, rows->best_len, SQLITE_TRANSIENT, SQLITE_UTF8);
    sqlite3_free(rows->header);
    sqlite3_free(rows->bytes);
}

FUNCTION(version) {
    const unsigned date = langtag_registry_date();
    char cldr[32];
    const size_t len = langtag_cldr_version(cldr, sizeof cldr);
    return_made(context, sqlite3_mprintf("langtag %s (IANA's registry of %04u-%02u-%02u, CLDR %.*s)", LANGTAG_VERSION, date / 10000,
                                         date / 100 % 100, date % 100, len <= sizeof cldr ? (int)len : 0, cldr));
}

static int compare(void *unused, int a_len, const void *a, int b_len, const void *b) {
    (void)unused;
    return langtag_cmp(langtag_bytes(a), (size_t)a_len, langtag_bytes(b), (size_t)b_len);
}

int sqlite3_sqlitelangtag_init(sqlite3 *db, char **message, const sqlite3_api_routines *api) {
    (void)message;
    SQLITE_EXTENSION_INIT2(api);
    static function functions[] = {
        CALL("langtag_part", 2, part), CALL("langtag_keyword", 2, keyword), CALL("langtag_set_keyword", 3, set_keyword), CALL("langtag_base", 1, base),
        CALL("langtag_nth_parent", 2, nth_parent), CALL("langtag_suggestion", 1, suggestion),
        CALL("langtag_describe", 1, describe), CALL("langtag_autonym", 1, autonym),
        CALL("langtag_unknown_modifier", 1, unknown_modifier), CALL("langtag_distance", 2, distance), CALL("langtag_version", 0, version),
        CALL("langtag_best_for_header", -1, best), CALL("langtag_match_for_header", -1, match_for_header),
        CALL("langtag_suitable_for_header", -1, suitable),
        {.name = "langtag_resolved_locale", .arguments = 2, .call = resolved_locale},
        {.name = "langtag_best_for_ranges", .arguments = -1, .call = best, .is_for_ranges = true},
        {.name = "langtag_suitable_for_ranges", .arguments = -1, .call = suitable, .is_for_ranges = true},
        FORM(langtag_extensions_form, true), FORM(langtag_locale_form, true), FORM(langtag_canonical, false), FORM(langtag_maximized, false),
        FORM(langtag_minimized, false), FORM(langtag_parent, false), FORM(langtag_from_posix, false), FORM(langtag_to_posix, false),
        {.name = "langtag_is_locale", .arguments = 1, .call = is, .is = langtag_is_locale, .is_quadratic = true},
        {.name = "langtag_is_well_formed", .arguments = 1, .call = is, .is = is_well_formed},
        {.name = "langtag_is_valid", .arguments = 1, .call = is, .is = is_valid},
        {.name = "langtag_is_right_to_left", .arguments = 1, .call = is, .is = langtag_is_right_to_left},
        {.name = "langtag_matches_basic", .arguments = 2, .call = matches, .matches = langtag_matches_basic},
        {.name = "langtag_matches_extended", .arguments = 2, .call = matches, .matches = langtag_matches_extended},
    };
    int status = SQLITE_OK;
    for (function *it = functions; status == SQLITE_OK && it < functions + sizeof functions / sizeof *functions; it++)
        status = sqlite3_create_function(db, it->name, it->arguments, FLAGS, it, it->call, NULL, NULL);
    if (status == SQLITE_OK)
        status = sqlite3_create_function(db, "langtag_group_best_for_header", 2, FLAGS, NULL, NULL, group_step, group_final);
    return status == SQLITE_OK ? sqlite3_create_collation(db, "langtag", SQLITE_UTF8, NULL, compare) : status;
}
