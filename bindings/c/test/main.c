/*
 * Tests of the C interface. `test CALLS FILE FLOOR ..` runs the rows of each file. It also runs tests written by hand for what the
 * rows do not have: limits of inputs, and arguments that have to stay unchanged. `test --answer CALLS` answers the calls of standard
 * input, and fails if an answer in a row differs. CALLS is vectors/calls.txt.
 */
#include "rows.h"

#include <langtag.h>
#include <string.h>

#define CHECK(test)                                                                                                    \
    (checks++, (test) ? (void)0 : (failures++, (void)printf("%s:%d: failed: %s\n", __FILE__, __LINE__, #test)))

/* A literal as a pointer and a length. */
#define TEXT(literal) (literal), (sizeof(literal) - 1)

/* ---- langtag_parse and langtag_kind, langtag_repeats, langtag_suggestion, langtag_with_part */

/* Texts of which no byte is read. */
static void edges(void) {
    langtag_parts parts;
    CHECK(langtag_parse((const char *)1, 0, &parts) == LANGTAG_NONE);
    CHECK(langtag_kind((const char *)(size_t)-1, 0) == LANGTAG_NONE);
    CHECK(langtag_bytes(NULL) != NULL && langtag_bytes(&parts) == (const char *)&parts);
}

/* 2 MB of variants, without a repeated one and with one. The time is quadratic, so the test that runs under valgrind has fewer. */
#ifndef MOST_VARIANTS
#define MOST_VARIANTS 250000
#endif
static void many_variants(void) {
    static char tag[8 * MOST_VARIANTS + 16] = "de";
    langtag_repeated repeated;
    size_t len = 2;
    for (unsigned number = 0; number < MOST_VARIANTS; number++) len += (size_t)sprintf(tag + len, "-a%06u", number);
    CHECK(langtag_repeats(tag, len, &repeated) == 0);
    len += (size_t)sprintf(tag + len, "-A000000");
    CHECK(langtag_repeats(tag, len, &repeated) == LANGTAG_REPEATED_VARIANT && repeated.variant.start == len - 7);
}

/* An index beyond a byte, a whole date, and that something is kept of a prepared tag: only time depends on that. */
static void whole_numbers(void) {
    langtag_prepared_tag site[] = {{{0, 2}, {0}}, {{3, 2}, {0}}};
    for (size_t i = 0; i < 2; i++) langtag_prepare(TEXT("de fr"), &site[i]);
    CHECK(memcmp(site[0].opaque, site[1].opaque, sizeof site->opaque) != 0);
    CHECK(langtag_nth_parent(TEXT("de"), 256, (char[1]){0}, 0) == 0 && langtag_nth_parent(TEXT("de"), 0, (char[1]){0}, 0) == 2);
    CHECK(langtag_registry_date() > 20000000 && langtag_registry_date() < 30000000);
}

/* A code that is longer than every code that has a suggestion. */
static void long_codes(void) {
    char code[4200], written[3];
    memset(code, 'k', sizeof code), memcpy(code, "deu", 3);
    for (size_t len = 4; len <= sizeof code; len++)
        CHECK(langtag_suggestion(LANGTAG_INVALID_LANGUAGE, code, len, written, sizeof written) == 0);
    memcpy(code, "UK", 2);
    for (size_t len = 3; len <= sizeof code; len++)
        CHECK(langtag_suggestion(LANGTAG_INVALID_REGION, code, len, written, sizeof written) == 0);
}

/* A number that is no part's. */
static void other_parts(void) {
    static const uint32_t numbers[] = {6, 7, 255, 256, UINT32_MAX};
    char buffer[] = "~~~~~~~~";
    for (size_t k = 0; k < sizeof numbers / sizeof *numbers; k++)
        CHECK(langtag_with_part(TEXT("de"), numbers[k], TEXT("x-a"), buffer, sizeof buffer) == 0 && strcmp(buffer, "~~~~~~~~") == 0);
}

/* ---- langtag_eq, langtag_cmp and langtag_hash */

/* A published vector of FNV-1a 64, in two pieces. The rows have hashes of whole tags. */
static void hashes(void) {
    CHECK(langtag_hash(langtag_hash(LANGTAG_HASH, TEXT("foo")), TEXT("BAR")) == UINT64_C(0x85944171f73967e8));
}

/* ---- langtag_fold */

static void any_bytes(void) {
    char fold[] = "ZH-Hant[\xc0@Z";
    langtag_fold(fold, sizeof fold - 1);
    CHECK(strcmp(fold, "zh-hant[\xc0@z") == 0);
    langtag_fold(fold, 0);
    langtag_recommend(fold, 0);
    CHECK(strcmp(fold, "zh-hant[\xc0@z") == 0);
}

/* ---- the walks: langtag_next_subtag, langtag_next_extension, langtag_next_fallback and langtag_next_accepted */

static const char walked[] = "de-1996-ab1cd-u-co-phonebk-t-en-x-a";
static const size_t len = sizeof walked - 1;

static bool is_same(langtag_span a, langtag_span b) { return a.start == b.start && a.len == b.len; }

/* An empty subtag is returned if a hyphen follows it, but not at the end. */
static void empty_subtags(void) {
    langtag_span rest = {0, 2}, got;
    CHECK(langtag_next_subtag("a-", 2, &rest, &got) && got.len == 1 && !langtag_next_subtag("a-", 2, &rest, &got));
    rest = (langtag_span){0, 4};
    CHECK(langtag_next_subtag("a--b", 4, &rest, &got) && got.len == 1);
    CHECK(langtag_next_subtag("a--b", 4, &rest, &got) && got.start == 2 && got.len == 0);
    CHECK(langtag_next_subtag("a--b", 4, &rest, &got) && got.start == 3 && got.len == 1);
}

/* No call reads or changes a span that is empty or reaches beyond the text. */
static void outside(langtag_span all) {
    const langtag_span before = {1, 2};
    langtag_span rest = all, got = before;
    uint32_t weight = 3;
    CHECK(!langtag_next_subtag(walked, len, &rest, &got) && !langtag_next_extension(walked, len, &rest, &got));
    CHECK(is_same(rest, all) && is_same(got, before));
    CHECK(!langtag_next_fallback(walked, len, &rest) && is_same(rest, all));
    CHECK(langtag_next_accepted(walked, len, &rest, &got, &weight) == LANGTAG_ACCEPTED_END && weight == 3);
    CHECK(is_same(rest, all) && is_same(got, before));
}

/* In any other span there is a first subtag, which ends before a hyphen or at the end of the span. */
static void inside(langtag_span all) {
    langtag_span rest = all, got;
    CHECK(langtag_next_subtag(walked, len, &rest, &got) && got.start == all.start && got.len <= all.len);
    CHECK(!memchr(walked + got.start, '-', got.len) && (got.len == all.len || walked[got.start + got.len] == '-'));
    rest = all;
    CHECK(langtag_next_extension(walked, len, &rest, &got) && got.start == all.start && got.len <= all.len);
}

static void any_spans(void) {
    static const langtag_span odd[] = {{99, 1}, {0, 99}, {(size_t)-1, 2}, {2, (size_t)-1}, {3, (size_t)-2}};
    for (size_t k = 0; k < sizeof odd / sizeof *odd; k++) outside(odd[k]);
    for (size_t start = 0; start <= len + 2; start++)
        for (size_t length = 0; length <= len + 2; length++)
            (length > 0 && start + length <= len ? inside : outside)((langtag_span){start, length});
}

int main(int argc, char **argv) {
    run_rows(argc, argv);
    if (argc > 1 && strcmp(argv[1], "--answer") == 0) return failures != 0;
    edges();
    many_variants();
    whole_numbers();
    long_codes();
    other_parts();
    hashes();
    any_bytes();
    empty_subtags();
    any_spans();
    printf("%d checks, %d failed\n", checks, failures);
    return failures != 0;
}
