/* Measures how the instructions of each function of the C library grow with its text. */
#include "growth.h"
#include <langtag.h>

static langtag_parts parts;
static langtag_span rest, found;
static langtag_repeated repeated;
static langtag_best_match match;
static langtag_prepared_tag prepared;
static uint32_t weight;
static size_t offset;
static char buffer[2 * sizeof text];
static langtag_span tags[sizeof text];

/* The tag for a header. The tags are the languages of eight letters between the commas and hyphens of the text. */
static size_t best_among(const char *header) {
    size_t count = 0, start = 0;
    for (size_t at = 0; at <= len; at++) {
        if (at < len && text[at] != ',' && text[at] != '-') continue;
        tags[count++] = (langtag_span){start, at - start};
        start = at + 1;
    }
    return langtag_best_for_header(header, strlen(header), text, len, tags, count);
}

/* A walk over the text. */
#define WALK(name, ...) FUNCTION(name, offset = 0; rest = (langtag_span){0, len}; while (__VA_ARGS__) result = found.len)
/* A list of one tag, and the text as a list of one range or tag. */
#define TAG "de-DE", 5, &(langtag_span){0, 5}, 1
#define TEXT text, len, &(langtag_span){0, len}, 1

static const langtag_prepared_tag *site_of(const char *bytes, size_t size) {
    prepared.tag = (langtag_span){0, size};
    langtag_prepare(bytes, size, &prepared);
    return &prepared;
}

#define OF_ONE(name) FUNCTION(name, result = (uint64_t)langtag_##name(text, len))
OF_ONE(kind) OF_ONE(base_len) OF_ONE(viable_len) OF_ONE(stop_len) OF_ONE(is_locale) OF_ONE(is_canonical) OF_ONE(is_right_to_left)
OF_ONE(grandfathered) OF_ONE(range_kind)
#define OF_TWO(name) FUNCTION(name, result = (uint64_t)langtag_##name(text, len, other, len))
OF_TWO(eq) OF_TWO(cmp) OF_TWO(distance) OF_TWO(matches_basic) OF_TWO(matches_extended)
#define FORM(name) FUNCTION(name, result = langtag_##name(text, len, buffer, sizeof buffer))
FORM(extensions_form) FORM(locale_form) FORM(canonical) FORM(maximized) FORM(minimized) FORM(parent) FORM(from_posix) FORM(to_posix)
FUNCTION(nth_parent, result = langtag_nth_parent(text, len, UINT32_MAX, buffer, sizeof buffer)) /* the whole chain */
FUNCTION(parse, result = langtag_parse(text, len, &parts))
FUNCTION(refused, result = langtag_refused(text, len, &found, &offset))
FUNCTION(hash, result = langtag_hash(LANGTAG_HASH, text, len))
FUNCTION(fold, langtag_fold(other, len))
FUNCTION(recommend, langtag_recommend(other, len))
WALK(next_subtag, langtag_next_subtag(text, len, &rest, &found))
WALK(next_extension, langtag_next_extension(text, len, &rest, &found))
FUNCTION(keyword, result = langtag_keyword(text, len, "zz", 2, &found))
WALK(next_keyword, langtag_next_keyword(text, len, &offset, &found, &rest))
FUNCTION(attributes, result = langtag_attributes(text, len, &found))
FUNCTION(transform, result = langtag_transform(text, len, &found))
FUNCTION(field, result = langtag_field(text, len, "m0", 2, &found))
WALK(next_field, langtag_next_field(text, len, &offset, &found, &rest))
FUNCTION(repeats, result = langtag_repeats(text, len, &repeated))
FUNCTION(validity, result = langtag_validity(text, len, &found))
FUNCTION(suggestion, result = langtag_suggestion(LANGTAG_INVALID_LANGUAGE, text, len, buffer, sizeof buffer) +
                               langtag_suggestion(LANGTAG_INVALID_REGION, text, len, buffer, sizeof buffer))
FUNCTION(registry_date, result = langtag_registry_date())
FUNCTION(best_for_header, result = langtag_best_for_header(text, len, TAG) + langtag_best_for_header("de", 2, TEXT))
FUNCTION(match_for_header, result = langtag_match_for_header(text, len, TAG, &match) + match.range.len)
FUNCTION(best_for_ranges, result = langtag_best_for_ranges(TEXT, TAG))
FUNCTION(suitable_for_header, result = langtag_suitable_for_header(text, len, TAG, &offset, 1) + offset)
FUNCTION(suitable_for_ranges, result = langtag_suitable_for_ranges(TEXT, TAG, &offset, 1) + offset)
FUNCTION(prepare, site_of(text, len))
FUNCTION(site_best_for_header, result = langtag_site_best_for_header(text, len, "de-DE", 5, site_of("de-DE", 5), 1);
         prepared.tag = (langtag_span){0, len}; result += langtag_site_best_for_header("de", 2, text, len, &prepared, 1))
FUNCTION(site_match_for_header,
         result = langtag_site_match_for_header(text, len, "de-DE", 5, site_of("de-DE", 5), 1, &match) + match.range.len)
FUNCTION(site_best_for_ranges, result = langtag_site_best_for_ranges(TEXT, "de-DE", 5, site_of("de-DE", 5), 1))
FUNCTION(best_of_tags, result = best_among("fr, aaaaaaaa;q=0.5, x-1;q=0, aaaaaaaa-DE;q=0"))
FUNCTION(tag_for_header, result = langtag_tag_for_header(text, len, TAG, &offset, &found))
FUNCTION(tag_for_header_lenient, result = langtag_tag_for_header_lenient(text, len, TAG) + langtag_tag_for_header_lenient("de", 2, TEXT))
FUNCTION(unknown_modifier, result = langtag_unknown_modifier(text, len, &found))
FUNCTION(cldr_version, result = langtag_cldr_version(buffer, sizeof buffer))
WALK(next_fallback, langtag_next_fallback(text, len, &rest))
WALK(next_accepted, langtag_next_accepted(text, len, &rest, &found, &weight))
FUNCTION(with_part, for (uint32_t part = 0; part <= LANGTAG_PART_PRIVATE_USE; part++)
         result = langtag_with_part(text, len, part, "x-a", 3, buffer, sizeof buffer) +
                  langtag_with_part("de", 2, part, text, len, buffer, sizeof buffer))
FUNCTION(with_keyword, result = langtag_with_keyword(text, len, "zz", 2, "bbb", 3, buffer, sizeof buffer) +
                                langtag_with_keyword("de", 2, "zz", 2, text + 3, len - 3, buffer, sizeof buffer))
FUNCTION(without_keyword, result = langtag_without_keyword(text, len, "zz", 2, buffer, sizeof buffer))

FUNCTION(resolved_locale, result = langtag_resolved_locale(text, len, "de-u-zz-bbb", 11, buffer, sizeof buffer) +
                                   langtag_resolved_locale("de-AT-u-zz-bbb", 14, text, len, buffer, sizeof buffer))

/* The choice for a header that names one range again and again, among the first tags of a site. The site has ten languages, each with many
 * regions, and every second tag has private use. Other lists have languages of three letters, or tags that the registry replaces as a whole. */
#define MOST_TAGS 1000
#define TAG_SIZE 9
static char site_text[TAG_SIZE * MOST_TAGS];
static langtag_span site_spans[MOST_TAGS];
static langtag_prepared_tag site[MOST_TAGS];
static size_t site_count;

static void write_site(void) {
    for (size_t at = 0; at < MOST_TAGS; at++) {
        char *tag = site_text + TAG_SIZE * at;
        memcpy(tag, "en-AA-x-a", TAG_SIZE);
        memcpy(tag, "endefresptitnlsvarzh" + at % 10 * 2, 2);
        tag[3] = (char)('A' + at / 260);
        tag[4] = (char)('A' + at / 10 % 26);
        site[at].tag = site_spans[at] = (langtag_span){TAG_SIZE * at, at % 2 == 0 ? 5 : TAG_SIZE};
        langtag_prepare(site_text, sizeof site_text, &site[at]);
    }
}

static void write_list(const char *const *its, size_t count) {
    for (size_t at = 0; at < MOST_TAGS; at++) {
        site_spans[at] = (langtag_span){TAG_SIZE * at, strlen(its[at % count])};
        memcpy(site_text + TAG_SIZE * at, its[at % count], site_spans[at].len);
    }
}

static void best_of_list(void) { result = langtag_best_for_header(text, len, site_text, sizeof site_text, site_spans, site_count); }
static void best_of_site(void) { result = langtag_site_best_for_header(text, len, site_text, sizeof site_text, site, site_count); }

static void best_of_long_languages(void) { best_of_list(); }
static void best_of_replaced(void) { best_of_list(); }

static void write_header(const char *range) {
    for (len = 0; len < 8192; len++) text[len] = ',';
    for (size_t at = 0, size = strlen(range); at + size < len; at += size + 1) memcpy(text + at, range, size);
}

#define COUNT(name) count_call((struct function){#name, name}, ranges[range], site_count)
static void count_choices(void) {
    static const char *const ranges[] = {"x", "und", "aaaa", "i", "xx", "cmn"};
    static const char *const long_languages[] = {"ast", "fil", "haw-US", "gsw", "ceb", "ckb-IQ", "dsb", "hsb", "kab", "kok-Deva"};
    static const char *const replaced[] = {"sgn-BE-FR", "zh-hakka", "i-klingon", "no-bok", "sgn-BR", "zh-xiang", "i-lux", "zh-guoyu", "no-nyn", "i-hak"};
    for (size_t range = 0; range < sizeof ranges / sizeof *ranges; range++) {
        write_header(ranges[range]);
        for (site_count = 40; site_count <= MOST_TAGS; site_count *= 25) {
            write_site();
            COUNT(best_of_list);
            COUNT(best_of_site);
            write_list(long_languages, 10);
            COUNT(best_of_long_languages);
        }
        site_count = 40;
        write_list(replaced, 10);
        COUNT(best_of_replaced);
    }
}

int main(void) {
    count();
    count_choices();
    return 0;
}
