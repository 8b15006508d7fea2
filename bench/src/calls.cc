/* Calls of the C library whose instructions `run` counts, and ICU's call for the same: `c KIND LINES SITE`, as main.rs. */
#include <langtag.h>
#ifdef WITH_ICU
#include <unicode/localematcher.h>
#include <unicode/locid.h>
#endif

#include <cstdio>
#include <fstream>
#include <memory>
#include <string>
#include <vector>

using Lines = std::vector<std::string>;

/* The tags of a site, in one string. ICU's matcher for them is made once. */
struct Site {
    std::string text;
    std::vector<langtag_span> tags;
    std::vector<langtag_prepared_tag> prepared;
#ifdef WITH_ICU
    std::unique_ptr<icu::LocaleMatcher> matcher;
#endif
};

#ifdef WITH_ICU
static icu::Locale locale_of(const std::string &text) {
    UErrorCode status = U_ZERO_ERROR;
    return icu::Locale::forLanguageTag(text, status);
}
static size_t icu_best(const Site &site, const std::string &header) {
    UErrorCode status = U_ZERO_ERROR;
    return site.matcher->getBestMatchForListString(header, status) != nullptr;
}
#define ICU_CALLS(call) call(headers, icu_site, icu_best(site, text))
#else
#define ICU_CALLS(call)
#endif

/* Each call: its kind, its name, and the call. */
#define CALLS(call)                                                                                                        \
    call(parse, parse_and_read, langtag_parse(line, len, &parts))                                                          \
    call(headers, best, langtag_best_for_header(line, len, site.text.data(), site.text.size(), site.tags.data(), count))   \
    call(headers, site, langtag_site_best_for_header(line, len, site.text.data(), site.text.size(), site.prepared.data(), count)) \
    call(tags, parse, langtag_parse(line, len, &parts))                                                                    \
    call(tags, hash, langtag_hash(LANGTAG_HASH, line, len))                                                                \
    call(tags, validity, langtag_validity(line, len, &span))                                                               \
    call(tags, canonical, langtag_canonical(line, len, buffer, sizeof buffer))                                             \
    call(tags, maximized, langtag_maximized(line, len, buffer, sizeof buffer))                                             \
    call(tags, minimized, langtag_minimized(line, len, buffer, sizeof buffer))                                             \
    call(tags, parent, langtag_parent(line, len, buffer, sizeof buffer))                                                   \
    call(keywords, extensions_form, langtag_extensions_form(line, len, buffer, sizeof buffer))                             \
    call(keywords, locale_form, langtag_locale_form(line, len, buffer, sizeof buffer))                                     \
    ICU_CALLS(call)

#define DEFINED(kind, name, expression)                                                                   \
    extern "C" __attribute__((noinline)) size_t entry_##name(const Site &site, const std::string &text) { \
        char buffer[256];                                                                                 \
        langtag_span span;                                                                                \
        langtag_parts parts;                                                                              \
        const char *line = text.data();                                                                   \
        const size_t len = text.size(), count = site.tags.size();                                         \
        (void)buffer, (void)span, (void)parts, (void)line, (void)len, (void)count;                        \
        return static_cast<size_t>(expression);                                                           \
    }
CALLS(DEFINED)

struct Call {
    std::string kind;
    size_t (*entry)(const Site &, const std::string &);
};

/* The results of the calls are stored here, so that the compiler keeps all calls. */
static volatile size_t result;

static Lines lines_of(const char *path) {
    std::ifstream file(path);
    Lines lines;
    for (std::string line; std::getline(file, line);) lines.push_back(line);
    return lines;
}

static Site site_of(const Lines &tags) {
    Site site;
    for (const std::string &tag : tags) {
        const langtag_span span = {site.text.size(), tag.size()};
        site.text += tag;
        site.tags.push_back(span);
        site.prepared.push_back({span, {0, 0}});
    }
    for (langtag_prepared_tag &tag : site.prepared) langtag_prepare(site.text.data(), site.text.size(), &tag);
#ifdef WITH_ICU
    UErrorCode status = U_ZERO_ERROR;
    icu::LocaleMatcher::Builder builder;
    for (const std::string &tag : tags) builder.addSupportedLocale(locale_of(tag));
    site.matcher = std::make_unique<icu::LocaleMatcher>(builder.setNoDefaultLocale().build(status));
#endif
    return site;
}

int main(int argc, char **args) {
    if (argc != 4) return std::fprintf(stderr, "usage: c KIND LINES SITE\n"), 2;
    const Lines lines = lines_of(args[2]);
    const Site site = site_of(lines_of(args[3]));
#define LISTED(kind, name, expression) {#kind, entry_##name},
    for (const Call &call : std::initializer_list<Call>{CALLS(LISTED)})
        if (call.kind == args[1])
            for (const std::string &line : lines) result = call.entry(site, line);
}
