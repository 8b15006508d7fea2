/* Answers the rows that the tests of all languages read, which rows.c reads and compares, with langtag.hpp. */
#include "rows.h"

#include <langtag.hpp>
#include <langtag_names.hpp>

#include <algorithm>
#include <functional>
#include <map>

using langtag::tag;
using strings = std::vector<std::string>;

/* Returns a text as the rows have it: with an escape for each byte outside of ASCII, for the characters with which escapes begin, and for the
 * characters before `first`. */
static std::string escaped(std::string_view text, char first = ' ') {
    std::string out;
    char digits[8];
    for (const char byte : text) {
        const bool is_plain = byte >= first && byte < 0x7f && byte != '\\' && byte != '{' && byte != '}';
        std::snprintf(digits, sizeof digits, "\\x%02x", static_cast<unsigned>(static_cast<unsigned char>(byte)));
        out += is_plain ? std::string(1, byte) : digits;
    }
    return out;
}

/* Returns what a call returned as the rows have it. */
static std::string shown(bool answer) { return answer ? "yes" : "no"; }
static std::string shown(const std::string &text) { return escaped(text); }
static std::string shown(const tag &tag) { return std::string(tag.text()); }
template <class Text> static std::string shown(const std::optional<Text> &found) {
    if constexpr (std::is_same_v<Text, tag>) return found ? shown(*found) : "-";
    else return !found ? "-" : found->empty() ? "''" : escaped(*found);
}
template <class Text> static std::string shown(const std::vector<Text> &list) {
    std::string out;
    for (const auto &one : list) out.append(out.empty() ? "" : " ").append(shown(one));
    return out.empty() ? "-" : out;
}

/* Returns what several calls returned, which has to be the same. */
template <class First, class... More> static std::string alike(const First &first, const More &...more) {
    return ((shown(more) == shown(first)) && ...) ? shown(first) : shown(first) + ", and another call returns something else";
}

using answer = std::function<std::string(const strings &asked)>; /* returns an empty text if C++ has no answer */

/* Returns a function that answers a row about a tag, or about any text. */
template <class Ask> static answer of_tag(Ask ask, const char *otherwise = "-") {
    return [=](const strings &asked) {
        const auto one = tag::parse(asked[0]);
        return one ? shown(std::invoke(ask, *one)) : otherwise;
    };
}
/* The same for a view and for a tag that owns its text. */
template <class Ask> static answer of_both(Ask ask) {
    return [=](const strings &asked) {
        const auto one = tag::parse(asked[0]);
        return one ? alike(ask(*one), ask(langtag::owned_tag(*one))) : "-";
    };
}
#define OF_BOTH(call) of_both([](const auto &one) { return one.call(); })
template <class Ask> static answer of_text(Ask ask) {
    return [=](const strings &asked) { return shown(ask(asked[0])); };
}

/* Appends a line with the name and the subtags of a part, unless the part is empty. */
static void say(std::string &out, const char *name, std::string_view part) {
    if (part.empty()) return;
    out.append("\n  ").append(name);
    for (std::string_view subtag : langtag::subtags(part)) out.append(1, ' ').append(subtag);
}

/* Returns the name of a number of an enum. */
template <class Enum> static std::string named(Enum number, std::initializer_list<std::pair<Enum, const char *>> names) {
    for (const auto &[one, name] : names)
        if (one == number) return name;
    return "unknown";
}

static std::string kind_of(std::string_view text) {
    using langtag::kind;
    const auto one = tag::parse(text);
    return one ? named(one->kind(), {{kind::normal, "normal"}, {kind::private_use, "private"}, {kind::irregular, "irregular"}}) : "none";
}

static std::string parts_of(const tag &one) {
    std::string out;
    const auto offset = [&](std::string_view part) { return std::to_string(part.data() - one.text().data()); };
    say(out, "language", one.language()), say(out, "script", one.script()), say(out, "region", one.region()), say(out, "variants", one.variants());
    if (!one.extensions().empty()) out += "\n  extensions";
    for (std::string_view extension : langtag::extensions(one.extensions())) out.append(1, ' ').append(extension);
    say(out, "private_use", one.private_use());
    const std::string_view variant = one.repeated_variant(), singleton = one.repeated_singleton();
    say(out, "repeated_variant", variant);
    if (!variant.empty()) say(out, "at_variant", offset(variant));
    say(out, "repeated_singleton", singleton);
    if (!singleton.empty()) say(out, "at_singleton", offset(singleton));
    return out;
}

static std::string tag_of(const strings &asked) {
    const auto one = tag::parse(asked[0]);
    auto owned = langtag::owned_tag::parse(asked[0]);
    std::string out = kind_of(asked[0]);
    if (!one) return owned ? "an owned one" : out;
    const langtag::owned_tag copy(*one), moved(std::move(*owned));
    out += parts_of(*one);
    if (parts_of(moved.view()) != parts_of(*one) || parts_of(copy.view()) != parts_of(*one)) out += "\n  owned ones have others";
    if (moved.text() != asked[0] || copy != moved || moved.kind() != one->kind()) out += "\n  owned ones are others";
    const std::string folded = langtag::folded(asked[0]);
    char hash[32];
    std::snprintf(hash, sizeof hash, "\n  hash %016llx", static_cast<unsigned long long>(one->fnv1a()));
    out += "\n  recommended " + langtag::recommended(asked[0]) + "\n  folded " + folded + hash;
    const auto other = tag::parse(folded);
    if (one->text() != asked[0]) out += "\n  text " + std::string(one->text());
    if (!other || *one != *other || std::hash<tag>()(*one) != std::hash<tag>()(*other)) out += "\n  case is seen";
    return out;
}

/* Returns the message for a tag that is not valid, without the suggestion. */
static std::string fault_of(const tag &one) {
    const auto wrong = one.invalid_subtag();
    return wrong ? wrong->message().substr(0, wrong->message().find(": did you mean ")) : "valid";
}

static std::string validity_of(const strings &asked) {
    const auto one = tag::parse(asked[0]);
    if (!one) return "none";
    const auto wrong = one->invalid_subtag();
    if (one->is_valid() != !wrong || langtag::owned_tag(*one).is_valid() != !wrong) return "is_valid says otherwise";
    if (!wrong) return "valid";
    const std::string subtag(wrong->subtag), at = " " + std::to_string(wrong->start) + " " + subtag;
    if (wrong->subtag.data() != one->text().data() + wrong->start) return "another offset than" + at;
    const std::string code = wrong->suggestion();
    if (wrong->message() != fault_of(*one) + (code.empty() ? "" : ": did you mean " + code + "?")) return "another suggestion";
    using langtag::fault;
    return named(wrong->fault, {{fault::language, "language"}, {fault::extlang, "extlang"}, {fault::second_extlang, "second-extlang"}, {fault::script, "script"},
                                {fault::region, "region"}, {fault::variant, "variant"}, {fault::repeated_variant, "repeated-variant"},
                                {fault::repeated_singleton, "repeated-singleton"}}) + at;
}

static std::string suggestion_of(const tag &one) {
    const auto wrong = one.invalid_subtag();
    return shown(wrong && !wrong->suggestion().empty() ? std::optional(wrong->suggestion()) : std::nullopt);
}

static std::string canonical_of(const tag &one) {
    const std::string form = one.canonical();
    const auto same = tag::parse(form);
    const langtag::owned_tag owned(one);
    const bool agrees = same && same->is_canonical() && one.is_canonical() == (one == *same);
    if (owned.canonical() != form || owned.is_canonical() != one.is_canonical()) return "an owned tag has another";
    return agrees ? form : form + ", and is_canonical says otherwise";
}

static std::string grandfathered_of(const strings &asked) {
    const auto one = tag::parse(asked[0]);
    const auto text = one ? one->grandfathered() : std::string_view();
    const auto *end = std::end(langtag::grandfathered_tags), *at = std::find(langtag::grandfathered_tags, end, text);
    if (at != end && *one != *at) return "another one: " + std::string(text);
    return std::to_string(at - langtag::grandfathered_tags) + " " + kind_of(asked[0]);
}

/* Returns how many bytes have to be read, how many prefixes are tags, and the kind of the text with the ends of its parts. */
static std::string scan_of(const strings &asked) {
    const std::string_view text = asked[0];
    const auto one = tag::parse(text);
    int tags = 0;
    for (std::size_t len = 0; len <= text.size(); len++) tags += tag::parse(text.substr(0, len)).has_value();
    std::string out = std::to_string(langtag::stop_len(text)) + " " + std::to_string(tags) + " " + kind_of(text);
    if (one && one->kind() == langtag::kind::irregular) out += " " + grandfathered_of(asked).substr(0, grandfathered_of(asked).find(' '));
    if (!one || one->kind() != langtag::kind::normal) return out;
    for (std::string_view part : {one->language(), one->script(), one->region(), one->variants(), one->extensions(), one->private_use()})
        out += " " + std::to_string(part.data() + part.size() - text.data());
    return out;
}

static std::string match_of(const strings &asked) {
    const auto range = langtag::range::parse(asked[0]);
    const auto one = tag::parse(asked[1]);
    if (!one) return "neither";
    const bool basic = langtag::matches_basic(asked[0], *one), extended = langtag::matches_extended(asked[0], *one);
    if (basic != (range && range->matches_basic(*one)) || extended != (range && range->matches_extended(*one))) return "the range says otherwise";
    return basic ? extended ? "both" : "basic" : extended ? "extended" : "neither";
}

/* Returns the answer for tags, or an empty text if one of the texts is not a tag. */
static std::string order_of(const strings &asked) {
    const auto one = tag::parse(asked[0]), other = tag::parse(asked[1]);
    if (!one || !other) return "";
    const bool before = *one<*other, after = *one> * other, equal = *one == *other;
    if ((*one <= *other) == after || (*one >= *other) == before || (*one != *other) == equal || before + after + equal != 1) return "the operators disagree";
    if ((*one == other->text()) != equal || (other->text() == *one) != equal) return "the text says otherwise";
    const std::string key = langtag::folded(asked[0]), other_key = langtag::folded(asked[1]);
    const bool is_prefix = other_key.rfind(key, 0) == 0, has_prefix = key.rfind(other_key, 0) == 0;
    if ((key < other_key) != (!equal && (is_prefix || (before && !has_prefix)))) return "the keys say otherwise";
    return before ? "before" : after ? "after" : "equal";
}

static strings split(const std::string &text, const std::string &by) {
    strings out;
    std::size_t from = 0;
    for (auto to = text.find(by); to != text.npos; from = to + by.size(), to = text.find(by, from))
        out.push_back(text.substr(from, to - from));
    out.push_back(text.substr(from));
    return out;
}

static std::vector<tag> tags_of(const strings &texts) {
    std::vector<tag> out;
    for (const std::string &text : texts)
        if (const auto one = tag::parse(text)) out.push_back(*one);
    return out;
}

/* Returns a function that answers a row about a header, or ranges, and a list of tags. */
template <class Ask> static answer of_list(Ask ask) {
    return [=](const strings &asked) { return ask(asked[0], split(asked[1], " ")); };
}

static std::string header_of(const std::string &header, const strings &texts) {
    using langtag::element_part;
    const langtag::accept_language accepted(header);
    const auto bad = accepted.bad_element();
    std::vector<langtag::range> ranges;
    for (const auto &weighted : accepted.ranges()) ranges.push_back(weighted.range);
    const std::string found = alike(accepted.look_up(tags_of(texts)), langtag::look_up(ranges, tags_of(texts)));
    if (!bad) return found + " | " + found;
    return "bad " + std::to_string(bad->index) + " " + std::to_string(bad->offset) + " " +
           named(bad->part, {{element_part::range, "range"}, {element_part::weight, "weight"}}) + " | " + found;
}

static std::string elements_of(const strings &asked) {
    const langtag::accept_language accepted(asked[0]);
    const auto bad = accepted.bad_element();
    const char *what = bad && bad->part == langtag::element_part::range ? "language range" : "weight";
    strings ranges;
    for (const auto &it : accepted.ranges()) ranges.push_back(std::string(it.range.text()) + (it.range.is_basic() ? " " : " is extended ") + std::to_string(it.weight));
    return (bad ? "element " + std::to_string(bad->index) + " has a bad " + what + " | " : "") + shown(ranges);
}

static std::string ranges_of(const std::string &asked, const strings &texts) {
    const strings words = split(asked, " ");
    std::vector<langtag::range> ranges;
    for (const std::string &word : words)
        if (const auto range = langtag::range::parse(word)) ranges.push_back(*range);
    return shown(langtag::look_up(ranges, tags_of(texts)));
}

/* Returns the tag with one part set, or the answer for a tag without parts. An empty text removes any part, as `none` does. */
static std::string edit_of(const strings &asked) {
    using langtag::part;
    static const std::map<std::string, part> parts = {
        {"language", part::language}, {"script", part::script}, {"region", part::region}, {"variants", part::variants}, {"extensions", part::extensions},
        {"private_use", part::private_use}};
    const auto one = tag::parse(asked[0]);
    const std::string given = asked[2] == "none" ? "" : asked[2];
    const part which = parts.at(asked[1]);
    const bool is_optional = which == part::script || which == part::region || which == part::private_use;
    if (!one) return "not a tag";
    if (one->kind() == langtag::kind::normal && is_optional && asked[2].empty()) return "";
    const auto made = one->with(which, given);
    langtag::owned_tag owned(*one);
    const bool is_set = owned.set(which, given);
    if (is_set != made.has_value() || owned.text() != made.value_or(asked[0]) || one->with({{which, given}}) != made) return "another call has another";
    if (!made) return one->kind() == langtag::kind::normal ? "refused" : "no parts";
    const auto again = tag::parse(*made);
    if (!again) return "not a tag: " + *made;
    const auto whole = langtag::from_parts(again->language(), again->script(), again->region(), again->variants(),
                                           again->extensions(), again->private_use());
    return whole == made ? *made : "from_parts has another: " + whole.value_or("none");
}

/* Returns the tag with a keyword set or, if the value is -, removed; or what the call refuses. */
static std::string with_keyword_of(const strings &asked) {
    const std::string &key = asked[1], &value = asked[2];
    const bool is_removed = value == "-";
    const auto changed = [&](const tag &one) { return is_removed ? one.without_keyword(key) : one.with_keyword(key, value); };
    const auto one = tag::parse(asked[0]), und = tag::parse("und");
    if (!one) return "not a tag";
    langtag::owned_tag owned(*one);
    const auto made = changed(*one);
    const bool is_set = is_removed ? owned.remove_keyword(key) : owned.set_keyword(key, value);
    if (is_set != made.has_value() || owned.text() != made.value_or(asked[0])) return "an owned tag has another";
    if (!made) return !und->without_keyword(key) ? "bad key" : !changed(*und) ? "bad value" : "no parts";
    return tag::parse(*made) ? *made : "not a tag: " + *made;
}

static std::string refused_of(const strings &asked) {
    using langtag::refusal_kind;
    const auto found = langtag::refused(asked[0]);
    const std::string len = std::to_string(asked[0].size());
    if (!found) return "none " + len + " 0 " + len;
    return named(found->kind, {{refusal_kind::subtag, "subtag "}, {refusal_kind::byte, "byte "}, {refusal_kind::end, "end "}}) +
           std::to_string(found->subtag.data() - asked[0].data()) + ' ' + std::to_string(found->subtag.size()) + ' ' + std::to_string(found->offset);
}

/* The parents of a tag. The second one is the parent of the first. */
static std::string parents_of(const tag &one) {
    const strings chain = one.parents();
    return one.parent().value_or("") == (chain.size() > 1 ? chain[1] : "") ? shown(chain) : shown(chain) + ", and parent says otherwise";
}

/* The name for a tag. If the tag has no script, the name is read as the tag. */
static std::string posix_name_of(const tag &one) {
    const auto name = one.to_posix();
    if (!name) return "-";
    const std::string read = langtag::from_posix(*name).value_or("");
    return !one.script().empty() || one == tag::parse(read) ? *name : *name + ", which is another tag";
}

static std::string best_of(const std::string &header, const strings &texts) {
    const langtag::site site(texts);
    const auto best = langtag::best_for_header(header, texts);
    const auto by_ranges = header.find(';') == std::string::npos ? langtag::best_for_ranges(split(header, ","), texts) : best;
    return alike(best, langtag::best_for_header(header, tags_of(texts)), site.best_for_header(header), by_ranges);
}

static std::string best_of_accepted(const std::string &header, const strings &texts) {
    const langtag::accept_language accepted(header);
    return alike(accepted.best(texts), accepted.best(tags_of(texts)));
}

static std::string best_of_ranges(const std::string &asked, const strings &texts) {
    const strings ranges = split(asked, " ");
    const langtag::site site(texts);
    return alike(langtag::best_for_ranges(ranges, texts), langtag::best_for_ranges(ranges, tags_of(texts)), site.best_for_ranges(ranges));
}

/* Returns KEY=VALUE for each, and checks that each is found by its key. */
template <class Find> static strings said_of(const std::vector<langtag::key_value> &pairs, Find find) {
    strings out;
    for (const auto &[key, value] : pairs) out.push_back(std::string(key) + "=" + std::string(value) + (find(key) == value ? "" : " which has another value"));
    for (const auto &a : pairs)
        for (const auto &b : pairs) /* each key is there once */
            if ((a == b) != (&a == &b) || (a != b) == (a == b) || a == langtag::key_value{a.key, a.key}) out.push_back("and the operators disagree");
    return out;
}

static strings keywords_of(const tag &one) {
    return said_of(one.keywords(), [&](std::string_view key) { return one.keyword(key); });
}

/* Returns each attribute once. */
static strings attributes_of(const tag &one) {
    strings seen, out;
    for (std::string_view attribute : langtag::subtags(one.attributes())) {
        const std::string key = langtag::folded(attribute);
        if (std::find(seen.begin(), seen.end(), key) == seen.end()) seen.push_back(key), out.emplace_back(attribute);
    }
    return out;
}

static std::string transform_of(const tag &one) {
    const strings fields = said_of(one.fields(), [&](std::string_view key) { return one.field(key); });
    return shown(one.transform()) + (fields.empty() ? "" : " " + shown(fields));
}

/* Returns the index, the distance and the range of a match, and its tag, which has to be that of the index. */
template <class Match> static std::string told(const std::optional<Match> &match, const strings &texts) {
    if (!match) return "-";
    return std::to_string(match->index) + ' ' + std::to_string(match->distance) + ' ' + std::string(match->range) +
           (match->tag.text() == texts[match->index] ? "" : " and another tag");
}

static std::string best_match_of(const std::string &header, const strings &texts) {
    const langtag::site site(texts);
    const auto match = langtag::match_for_header(header, texts);
    if (match && match->tag != langtag::best_for_header(header, texts)) return "another tag";
    const bool is_one_of_tags = langtag::match_for_header(header, tags_of(texts)).has_value();
    return is_one_of_tags == match.has_value() ? alike(told(match, texts), told(site.match_for_header(header), texts)) : "another of tags";
}

static std::string suitable_of(const std::string &header, const strings &texts) {
    return alike(langtag::suitable_for_header(header, texts), langtag::suitable_for_header(header, tags_of(texts)));
}

static const std::map<std::string, answer> answers = {
    {"tag", tag_of}, {"validity", validity_of}, {"suggestion", of_tag(suggestion_of)}, {"fault", of_tag(fault_of)},
    {"canonical", of_tag(canonical_of)}, {"grandfathered", grandfathered_of}, {"scan", scan_of}, {"match", match_of}, {"order", order_of},
    {"edit", edit_of}, {"header", of_list(header_of)}, {"ranges", of_list(ranges_of)}, {"elements", elements_of}, {"refused", refused_of},
    {"parents", of_tag(parents_of)}, {"best", of_list(best_of)}, {"best-ranges", of_list(best_of_ranges)}, {"best-accepted", of_list(best_of_accepted)},
    {"best-match", of_list(best_match_of)}, {"suitable", of_list(suitable_of)}, {"with-keyword", with_keyword_of},
    {"maximized", OF_BOTH(maximized)}, {"minimized", OF_BOTH(minimized)}, {"right-to-left", OF_BOTH(is_right_to_left)},
    {"extensions-form", OF_BOTH(extensions_form)}, {"base", of_tag(&tag::base)}, {"is-locale", of_tag(&tag::is_locale, "no")},
    {"locale-form", OF_BOTH(locale_form)},
    {"keywords", of_tag(keywords_of)}, {"attributes", of_tag(attributes_of)}, {"transform", of_tag(transform_of)},
    {"describe", of_both([](const auto &one) { return langtag::describe(one); })}, {"autonym", of_both([](const auto &one) { return langtag::autonym(one); })},
    {"posix", of_text(langtag::from_posix)}, {"posix-name", of_tag(posix_name_of)},
    {"unknown-modifier", of_text([](const std::string &name) { return langtag::unknown_modifier(name); })},
    {"cldr-version", [](const strings &) { return langtag::cldr_version(); }},
    {"viable", [](const strings &asked) { return std::to_string(langtag::viable_len(asked[0])) + " " + std::to_string(langtag::stop_len(asked[0])); }},
    {"range", of_text([](const std::string &text) {
         const auto one = langtag::range::parse(text);
         return std::string(!one ? "none" : one->is_basic() ? "basic" : "extended");
     })},
    {"recommended", [](const strings &asked) {
         const std::string text = escaped(langtag::recommended(asked[0]), '!');
         return text.empty() ? "''" : text;
     }},
    {"fallbacks", [](const strings &asked) {
         std::vector<std::string> out;
         for (auto it = langtag::range::parse(asked[0]); it; it = it->fallback())
             out.push_back(std::string(it->text()) + (it->is_basic() == langtag::range::parse(it->text())->is_basic() ? "" : " of another kind"));
         return out.empty() ? "refused" : shown(out);
     }},
    {"message", of_text([](const std::string &text) {
         const auto found = langtag::refused(text);
         return "invalid language tag " + langtag::quoted(text) + ": " + (found ? found->message() : "none");
     })},
    {"range-message", of_text([](const std::string &text) { return "invalid language range " + langtag::quoted(text); })},
    {"distance", [](const strings &asked) {
         const auto desired = tag::parse(asked[0]), supported = tag::parse(asked[1]);
         return desired && supported ? std::to_string(langtag::distance(*desired, *supported)) : "-";
     }},
    {"resolved-locale", [](const strings &asked) {
         const auto chosen = tag::parse(asked[1]);
         return chosen ? langtag::resolved_locale(asked[0], *chosen) : "-";
     }},
    {"suitable-ranges", of_list([](const std::string &ranges, const strings &texts) {
         return alike(langtag::suitable_for_ranges(split(ranges, " "), texts), langtag::suitable_for_ranges(split(ranges, " "), tags_of(texts)));
     })},
    {"keyword", [](const strings &asked) { return tag::parse(asked[0]) ? shown(tag::parse(asked[0])->keyword(asked[1])) : "-"; }},
};

/* Answers the row that rows.c reads. */
static void answer_row(text *to, const text *arguments) {
    strings given;
    for (int k = 0; k < asked->arguments; k++) given.emplace_back(arguments[k].at, arguments[k].len);
    const std::string found = answers.at(asked->name)(given);
    if (!found.empty()) put_word(to, " "), put(to, found.data(), found.size());
}

call calls[100];

int main(int argc, char **argv) {
    std::size_t count = 0;
    for (const auto &it : answers) calls[count++] = {it.first.c_str(), answer_row, 0, 0};
    run_rows(argc, argv);
    return failures > 0;
}
