#include <tuple>
#include <vector>
/* Tests what only langtag.hpp has: views, texts of which no view may be made, walks, and tags as keys. rows.cc runs the rows. */
#include <langtag_names.hpp>

#include <cstdio>
#include <iomanip>
#include <map>
#include <set>
#include <sstream>
#include <string>
#include <type_traits>
#include <unordered_map>

static int failures;
#define CHECK(test)                                                                                                    \
    ((test) ? (void)0 : (failures++, (void)std::printf("%s:%d: failed: %s\n", __FILE__, __LINE__, #test)))

using langtag::tag;

/* Whether a call with an argument of a type compiles. */
template <template <class> class Call, class Argument, class = void> struct compiles : std::false_type {};
template <template <class> class Call, class Argument> struct compiles<Call, Argument, std::void_t<Call<Argument>>> : std::true_type {};
template <template <class> class Call, class... Arguments> constexpr bool is_taken = (compiles<Call, Arguments>::value && ...);
template <template <class> class Call, class... Arguments> constexpr bool is_refused = !(compiles<Call, Arguments>::value || ...);

/* A temporary string is not accepted, since it is destroyed before its view is used. */
template <class Text> using parsed = decltype(tag::parse(std::declval<Text>()));
template <class Text> using read_as_range = decltype(langtag::range::parse(std::declval<Text>()));
template <class Text> using accepted = decltype(langtag::accept_language(std::declval<Text>()));
template <class Text> using walked = decltype(langtag::subtags(std::declval<Text>()));
template <class Text> using walked_by_extension = decltype(langtag::extensions(std::declval<Text>()));
template <class Header> using matched = decltype(langtag::match_for_header(std::declval<Header>(), {"de"})); /* the range is a view of the header */
template <class Header> using matched_by_site = decltype(std::declval<const langtag::site &>().match_for_header(std::declval<Header>()));
template <class Name> using dropped = decltype(langtag::unknown_modifier(std::declval<Name>()));
template <class Text> using refused = decltype(langtag::refused(std::declval<Text>()));
template <template <class> class Call>
constexpr bool is_of_views = is_taken<Call, const char (&)[3], const char *, std::string_view, std::string &, const std::string &> && is_refused<Call, std::string, const std::string>;
static_assert(is_of_views<parsed> && is_of_views<read_as_range> && is_of_views<accepted> && is_of_views<walked> && is_of_views<walked_by_extension> && is_of_views<matched> &&
              is_of_views<matched_by_site> && is_of_views<dropped> && is_of_views<refused>);

/* A temporary list that owns its texts is not accepted, nor is a temporary owner in a list in braces. */
template <class List> using chosen = decltype(langtag::best_for_header("de", std::declval<List>()));
template <class List> using chosen_by_ranges = decltype(langtag::best_for_ranges({"de"}, std::declval<List>()));
template <template <class> class Call>
constexpr bool is_of_lists = is_taken<Call, std::vector<tag>, std::vector<std::string_view>, std::vector<const char *>, std::vector<std::string> &, const std::set<langtag::owned_tag> &> &&
                             is_refused<Call, std::vector<std::string>, std::vector<langtag::owned_tag>, int>;
template <class Text> using chosen_of_one = decltype(langtag::match_for_header("de", {std::declval<Text>()}));
static_assert(is_of_lists<chosen> && is_of_lists<chosen_by_ranges> && is_of_views<chosen_of_one> && is_taken<chosen_of_one, tag, langtag::owned_tag &> && is_refused<chosen_of_one, langtag::owned_tag>);

/* The tags that a site returns are views of it, so a temporary site returns none. */
template <class Site> using asked = decltype(std::declval<Site>().best_for_header("de"));
template <class Site> using indexed = decltype(std::declval<Site>()[0]);
template <class Site> using asked_for_match = decltype(std::declval<Site>().match_for_header("de"));
template <class Site> using asked_for_ranges = decltype(std::declval<Site>().best_for_ranges({"de"}));
template <template <class> class Call> constexpr bool is_of_sites = is_taken<Call, langtag::site &, const langtag::site &> && is_refused<Call, langtag::site>;
static_assert(is_of_sites<asked> && is_of_sites<indexed> && is_of_sites<asked_for_match> && is_of_sites<asked_for_ranges>);

static void check_views() {
    CHECK(!tag::parse({}) && !langtag::range::parse({}) && langtag::viable_len({}) == 0 && langtag::stop_len({}) == 0);
    CHECK(langtag::recommended({}).empty() && langtag::folded({}).empty() &&
          langtag::subtags({}).begin() == langtag::subtags({}).end());
    CHECK(!langtag::accept_language({}).bad_element() && langtag::accept_language({}).ranges().empty());
    const std::string text = "ja-heploc-u-co";
    CHECK(langtag::registry_date() == langtag_registry_date());
    const auto cut = tag::parse({text.data(), 9});
    CHECK(cut && cut->text().data() == text.data() && cut->canonical() == "ja-alalc97" && cut->extensions().empty());
    CHECK(!cut->with(langtag::part::region, {"CH\0", 3}) && !langtag::matches_basic({}, *cut) && !langtag::matches_extended({}, *cut));
    CHECK(!cut->keyword({}) && !cut->field({}) && !cut->with_keyword({}, {}) && cut->with_keyword("ca", {}) == "ja-heploc-u-ca" && !cut->without_keyword({}) &&
          cut->with(langtag::part::variants, {}) == "ja" && langtag::quoted({}) == "``" && !langtag::owned_tag::parse(std::string_view()));
    const std::string_view none[] = {{}, "de", {}};
    const langtag::site site(none);
    CHECK(site.best_for_header("de")->text() == "de" && langtag::suitable_for_ranges(none, none).size() == 1 && langtag::suitable_for_header("de", {"de-CH", "de", "de-AT"}, 2).size() == 2 && langtag::suitable_for_ranges(none, none, 0).empty() && !langtag::accept_language({}).look_up({*cut}));
    const std::vector<std::string_view> nothing, many(150, "de");
    const langtag::site empty(nothing);
    CHECK(!site.best_for_header({}) && !empty.best_for_header({}) && langtag::suitable_for_header({}, nothing).empty() &&
          langtag::suitable_for_header("de", many).size() == 150 && !langtag::unknown_modifier({}) && !langtag::owned_tag::parse(std::string_view("de\0_", 4)));
    const langtag::accept_language equal("aa,ab,ac,ad,ae,af,ag,ah,ai,aj,ak,al,am,an,ao,ap,aq,ar,as,at,au,av,aw,ax;q=0.9,ay");
    std::string order;
    for (const auto &it : equal.ranges()) order += it.range.text().back();
    CHECK(order == "abcdefghijklmnopqrstuvwyx");
    for (const auto &[part, given, said] : {std::tuple(langtag::part::extensions, "u\t", "invalid extensions `u\\t`"), std::tuple(langtag::part::private_use, "u", "invalid private use `u`")})
        try {
            langtag::owned_tag::parse("de")->with(part, given);
            CHECK(false);
        } catch (const std::invalid_argument &error) {
            CHECK(error.what() == std::string_view(said));
        }
    CHECK(!langtag::from_parts("") && !langtag::from_parts("de", "Latin") && !langtag::from_parts("x-a") &&
          langtag::from_parts("de") == "de" && langtag::refused({})->message() == "unexpected end: expected a subtag");
}

static void check_walks() {
    const auto one = tag::parse("de-rozaj-1994-u-co-eor-T-de");
    std::string seen;
    langtag::for_each_subtag(one->script(), [&](std::string_view) { seen.append("none"); });
    langtag::for_each_subtag(one->text().substr(0, 8),
                             [&](std::string_view subtag) { seen.append(subtag).append(1, '.'); });
    CHECK(seen == "de.rozaj.");
    auto at = langtag::subtags("de-AT").begin();
    CHECK(*at++ == "de" && *at == "AT" && ++at == langtag::subtags("de-AT").end());
}

static void check_keys() {
    const auto one = tag::parse("de-CH"), other = tag::parse("DE-ch"), more = tag::parse("de-CH-1996");
    const std::unordered_map<tag, int> hashed = {{*one, 1}};
    const std::map<tag, int> sorted = {{*one, 1}, {*more, 2}};
    CHECK(hashed.count(*other) == 1 && hashed.count(*more) == 0 && sorted.count(*other) == 1 &&
          sorted.begin()->second == 2);
    CHECK(*one == "DE-CH" && "de-ch" == *one && *one != "de" && *one != std::string("de-CH-x") &&
          *one == std::string_view("de-ch"));
    langtag::owned_tag owned(*one);
    const std::unordered_map<langtag::owned_tag, int> owners = {{owned, 1}};
    CHECK(owned.set(langtag::part::script, "Latn") && owned.text() == "de-Latn-CH" && owned.view().script() == "Latn");
    CHECK(owners.count(langtag::owned_tag(*other)) == 1 && owners.count(owned) == 0 &&
          !langtag::owned_tag::parse("de_CH") && langtag::owned_tag::parse(std::string_view("de-CH-1996").substr(0, 5)) == one);
    owned = owned.with(langtag::part::script, "").with(langtag::part::region, "AT");
    CHECK(owned == "DE-at" && "de-at" == owned && owned != "de" && std::string("de-CH") != owned);
    const langtag::owned_tag shorter = owned.with(langtag::part::region, ""); // which comes after it
    CHECK(owned < shorter && shorter > owned && owned <= shorter && shorter >= owned && owned <= owned && owned >= owned);
    CHECK(!(shorter < owned) && !(owned > shorter) && !(shorter <= owned) && !(owned >= shorter) && owned != shorter);
    const auto refused = [](const char *text, langtag::part which, const char *given) -> std::string {
        try {
            return std::string(langtag::owned_tag::parse(text)->with(which, given).text());
        } catch (const std::invalid_argument &error) {
            return error.what();
        }
    };
    CHECK(refused("de-AT", langtag::part::script, "Latin") == "invalid script `Latin`");
    CHECK(refused("de-AT", langtag::part::language, "") == "the language cannot be removed");
    CHECK(refused("x-a", langtag::part::private_use, "x-b") == "not a normal language tag");
    CHECK(refused("de-x-a", langtag::part::private_use, "") == "de");
    CHECK(one->with({{langtag::part::script, "Latn"}, {langtag::part::region, "AT"}}) == "de-Latn-AT");
    CHECK(!one->with({{langtag::part::script, "Latin"}, {langtag::part::region, "AT"}}) && one->with({}) == "de-CH");
}

/* A map of tags can be searched by values that do not own a text. */
static void check_lookups() {
    std::map<langtag::owned_tag, int, std::less<>> owners;
    std::map<tag, int, std::less<>> views;
    for (const char *text : {"de", "zh", "zh-Hant"}) {
        owners.emplace(*langtag::owned_tag::parse(text), static_cast<int>(owners.size()));
        views.emplace(*tag::parse(text), static_cast<int>(views.size()));
    }
    const std::string name = "ZH-hant";
    const auto one = tag::parse(name);
    const langtag::owned_tag owned(*one);
    CHECK(owners.find("ZH")->second == 1 && owners.find(name)->second == 2 && owners.find(std::string_view(name))->second == 2);
    CHECK(owners.find(*one)->second == 2 && owners.find(owned)->second == 2 && owners.count("zh-Han") == 0 && owners.count("") == 0);
    CHECK(views.find("DE")->second == 0 && views.find(owned)->second == 2 && views.count(std::string("d")) == 0);
    CHECK(owners.lower_bound("zh-a")->second == 2 && owned == *one && *one == owned && owned < "zh" && "zh" > owned && *one <= owned && !(owned != *one));
}

static void check_likely() {
    const auto other = tag::parse("zh-Hant");
    const std::vector<tag> tags = {*tag::parse("en"), *tag::parse("zh-Hans"), *other};
    const auto best = langtag::best_for_header("zh-TW,zh;q=0.9,en;q=0.8", tags);
    CHECK(best && best->text().data() == other->text().data());
    CHECK(!langtag::best_for_header({}, tags) && !langtag::best_for_header("en", {}));
    CHECK(langtag::best_for_header("de", {tags[0]}) == std::nullopt && langtag::best_for_header("de", {"en", "DE"}) == "de");
    const auto match = langtag::match_for_header("fi, zh_TW;q=0.3", tags);
    CHECK(match && match->index == 2 && match->tag.text().data() == other->text().data());
    CHECK(!langtag::match_for_header({}, tags) && !langtag::match_for_header("en", {}) && !langtag::from_posix({}));
    const std::string name = "de_DE.UTF-8@Foo";
    CHECK(langtag::unknown_modifier(name)->data() == name.data() + 12 && !langtag::unknown_modifier({}));
}

/* Lists that contain tags. Texts that are not tags are skipped. */
static void check_lists() {
    const char *header = "zh-TW,de;q=0.5";
    std::vector<langtag::owned_tag> owners;
    for (const char *text : {"en", "zh-Hant", "de"}) owners.push_back(*langtag::owned_tag::parse(text));
    const auto best = langtag::best_for_header(header, owners);
    CHECK(best && best->text().data() == owners[1].text().data());
    const std::string strings[] = {"", "zh_Hant", "de"};
    CHECK(langtag::best_for_header(header, strings)->text().data() == strings[2].data());
    CHECK(langtag::best_for_header(header, std::set<std::string_view>{"en", "zh-Hant"}) == "zh-Hant");
    const char *const literals[] = {"en", "zh-HK"};
    CHECK(langtag::best_for_header(header, literals) == "zh-HK" && langtag::accept_language(header).best(literals) == "zh-HK");
    CHECK(!langtag::best_for_ranges({}, owners) && !langtag::best_for_ranges({"de,de", "de-*AT"}, owners));
    const std::vector<langtag::range> ranges = {*langtag::range::parse("*-CH"), *langtag::range::parse("de-*-CH")};
    CHECK(langtag::best_for_ranges(ranges, owners) == "de" && langtag::best_for_ranges(std::vector<std::string>{"de_CH"}, {"fr", "de"}) == "de");
}

/* The canonical form names a tag that is longer than the limit. */
static void check_names() {
    std::string text = "ger-x";
    while (text.size() <= LANGTAG_NAME_LONGEST) text += "-abcdefgh";
    const std::string named = text.substr(0, LANGTAG_NAME_LONGEST - 1) + "a", longer = text.substr(0, LANGTAG_NAME_LONGEST) + "a";
    CHECK(langtag::describe(*tag::parse(named)) == "German" && langtag::autonym(*tag::parse(named)) == "Deutsch");
    CHECK(langtag::describe(*tag::parse(longer)) == "ger" && !langtag::autonym(*tag::parse(longer)));
}

static void check_written() {
    std::ostringstream out;
    out << std::setw(7) << *tag::parse("de-CH") << std::setw(5) << *langtag::owned_tag::parse("x-a");
    CHECK(out.str() == "  de-CH  x-a");
#ifdef __cpp_lib_format
    CHECK(std::format("{} {:>6}|", *tag::parse("de-CH"), *langtag::owned_tag::parse("x-a")) == "de-CH    x-a|");
#endif
}

int main() {
    check_views();
    check_walks();
    check_keys();
    check_lookups();
    check_likely();
    check_lists();
    check_names();
    check_written();
    return failures != 0;
}
