/*
 * langtag.h for C++17, over std::string_view.
 *
 *     const auto tag = langtag::tag::parse("zh-Hant-TW");
 *     tag->script();                                                              // "Hant"
 *     langtag::best_for_header("zh-TW,zh;q=0.9", {"zh-Hans", "zh-Hant"})->text(); // "zh-Hant"
 *
 * A tag, a range and their parts are views of the string from which they were read, so that string has to outlive them. The compiler
 * refuses a temporary string. Bytes after the end of a view are never read, and a view without a pointer is an empty string.
 */
#ifndef LANGTAG_HPP
#define LANGTAG_HPP

#if __cplusplus < 201703L
#error "langtag.hpp needs C++17; langtag.h needs C++98"
#endif

#include "langtag.h"

#include <algorithm>
#include <cstddef>
#include <cstdint>
#include <functional>
#include <initializer_list>
#include <iosfwd>
#include <iterator>
#include <optional>
#include <stdexcept>
#include <string>
#include <string_view>
#include <type_traits>
#include <utility>
#include <vector>
#if defined(__has_include) && __cplusplus >= 202002L
#if __has_include(<format>)
#include <format>
#endif
#endif

namespace langtag {

enum class kind : std::uint32_t {
    normal = LANGTAG_NORMAL,
    private_use = LANGTAG_PRIVATE_USE,
    irregular = LANGTAG_IRREGULAR
};

enum class part : std::uint32_t {
    language = LANGTAG_PART_LANGUAGE,
    script = LANGTAG_PART_SCRIPT,
    region = LANGTAG_PART_REGION,
    variants = LANGTAG_PART_VARIANTS,
    extensions = LANGTAG_PART_EXTENSIONS,
    private_use = LANGTAG_PART_PRIVATE_USE
};

/* What is wrong with a subtag of a tag that is not valid (RFC 5646 section 2.2.9). */
enum class fault : std::uint32_t {
    language = LANGTAG_INVALID_LANGUAGE,
    extlang = LANGTAG_INVALID_EXTLANG,
    second_extlang = LANGTAG_INVALID_SECOND_EXTLANG,
    script = LANGTAG_INVALID_SCRIPT,
    region = LANGTAG_INVALID_REGION,
    variant = LANGTAG_INVALID_VARIANT,
    repeated_variant = LANGTAG_INVALID_REPEATED_VARIANT,
    repeated_singleton = LANGTAG_INVALID_REPEATED_SINGLETON
};

/* Returns a string as messages show it: in backticks, with escapes, and only its first characters if it is longer. */
inline std::string quoted(std::string_view text, std::size_t most = 80);

/* A subtag that makes a tag invalid, and the offset in the string at which it begins. */
struct invalid_subtag {
    langtag::fault fault;
    std::string_view subtag;
    std::size_t start;

    /* Returns the registered code that was probably meant, according to CLDR's aliases, or an empty string: "de" for the language ger. */
    std::string suggestion() const {
        char code[3];
        const auto len = langtag_suggestion(static_cast<std::uint32_t>(fault), subtag.data(), subtag.size(), code, sizeof code);
        return std::string(code, len <= sizeof code ? len : 0);
    }

    /* Returns what is wrong, in words: "language qt is not registered", "language ger is not registered: did you mean de?". */
    std::string message() const {
        const std::string code = suggestion();
        const auto say = [this, &code](const char *what, const char *how) {
            return (what + std::string(subtag)).append(how).append(code.empty() ? "" : ": did you mean " + code + "?");
        };
        switch (fault) {
        case fault::language: return say("language ", " is not registered");
        case fault::extlang: return say("extended language ", " is not registered");
        case fault::second_extlang: return say("extended language ", " is the second");
        case fault::script: return say("script ", " is not registered");
        case fault::region: return say("region ", " is not registered");
        case fault::variant: return say("variant ", " is not registered");
        case fault::repeated_variant: return say("variant ", " is repeated");
        case fault::repeated_singleton: return say("singleton ", " is repeated");
        }
        return {};
    }
};

/* The 26 grandfathered tags in their registered spelling (RFC 5646 section 2.1). The first seventeen are irregular. */
inline constexpr std::string_view grandfathered_tags[] = {
    "en-GB-oed",   "i-ami",  "i-bnn",  "i-default", "i-enochian", "i-hak",     "i-klingon",  "i-lux",     "i-mingo",
    "i-navajo",    "i-pwn",  "i-tao",  "i-tay",     "i-tsu",      "sgn-BE-FR", "sgn-BE-NL",  "sgn-CH-DE", "art-lojban",
    "cel-gaulish", "no-bok", "no-nyn", "zh-guoyu",  "zh-hakka",   "zh-min",    "zh-min-nan", "zh-xiang"};

/* A keyword of the extension u, or a field of the extension t. The value is empty if the key has no value. */
struct key_value {
    std::string_view key, value;

    friend bool operator==(const key_value &a, const key_value &b) noexcept { return a.key == b.key && a.value == b.value; }
    friend bool operator!=(const key_value &a, const key_value &b) noexcept { return !(a == b); }
};

/* A temporary string. Functions that keep a view of their argument have a deleted overload for temporary strings. */
template <class Allocator> using temporary_string = const std::basic_string<char, std::char_traits<char>, Allocator> &&;

/* Returns what a call writes for a string and other arguments. The call writes into a buffer on the stack, and again if the buffer was
 * too short. */
template <class Write, class... Given> std::string written_by(Write write, std::string_view text, Given... given) {
    char room[128];
    const std::size_t len = write(langtag_bytes(text.data()), text.size(), given..., room, sizeof room);
    if (len <= sizeof room) return std::string(room, len);
    std::string made(len, '\0');
    write(text.data(), text.size(), given..., &made[0], made.size());
    return made;
}

/* Returns a string, or std::nullopt if it is empty. */
inline std::optional<std::string> unless_empty(std::string made) {
    return made.empty() ? std::nullopt : std::optional<std::string>(std::move(made));
}

/* A language tag (RFC 5646 section 2.1), as a view of its text. */
class tag {
public:
    /* Parses a tag; returns std::nullopt if the string is not a tag. `refused` says why. */
    static std::optional<tag> parse(std::string_view text) {
        langtag_parts parts;
        const std::uint32_t found = langtag_parse(langtag_bytes(text.data()), text.size(), &parts);
        if (found == LANGTAG_NONE) return std::nullopt;
        return tag(text, static_cast<langtag::kind>(found), parts);
    }
    template <class Allocator> static std::optional<tag> parse(temporary_string<Allocator>) = delete;

    std::string_view text() const noexcept { return text_; }
    langtag::kind kind() const noexcept { return kind_; }

    /* Return the parts, which are empty if they are absent. The private-use part of a private-use tag is the whole tag. */
    std::string_view language() const noexcept { return cut(parts_.language); }
    std::string_view script() const noexcept { return cut(parts_.script); }
    std::string_view region() const noexcept { return cut(parts_.region); }
    std::string_view variants() const noexcept { return cut(parts_.variants); }
    std::string_view extensions() const noexcept { return cut(parts_.extensions); }
    std::string_view private_use() const noexcept { return cut(parts_.private_use); }

    /* Returns the registered spelling if the tag is grandfathered (ignoring case), otherwise an empty view. */
    std::string_view grandfathered() const noexcept {
        const std::uint32_t number = langtag_grandfathered(text_.data(), text_.size());
        return number < LANGTAG_GRANDFATHERED_COUNT ? grandfathered_tags[number] : std::string_view();
    }

    /* Return the first variant, and the first singleton, that equals an earlier one, ignoring case, or an empty view. */
    std::string_view repeated_variant() const noexcept { return cut(repeated().variant); }
    std::string_view repeated_singleton() const noexcept { return cut(repeated().singleton); }

    /* Returns the value of a key of the extension u, ignoring case: islamic-civil for ca in ar-u-ca-islamic-civil. The value is
     * empty if the key has none, which means true. Returns std::nullopt if the key is absent. */
    std::optional<std::string_view> keyword(std::string_view key) const noexcept { return value_of(langtag_keyword, key); }

    /* Returns the keywords of the extension u, in order. Each key is returned once, with its first value. */
    std::vector<key_value> keywords() const { return pairs(langtag_next_keyword); }

    /* Returns the attributes of the extension u, which come before its first key: attr-foo in de-u-attr-foo-ca-buddhist. */
    std::string_view attributes() const noexcept {
        langtag_span found;
        langtag_attributes(text_.data(), text_.size(), &found);
        return cut(found);
    }

    /* Returns the language of the extension t: ja-latn in und-t-ja-latn-m0-hepburn. It is empty if t has no language. Returns
     * std::nullopt if the tag has no extension t. */
    std::optional<std::string_view> transform() const noexcept {
        langtag_span found;
        if (!langtag_transform(text_.data(), text_.size(), &found)) return std::nullopt;
        return cut(found);
    }

    /* Return the value of a field of the extension t, and all fields, as keyword and keywords do. */
    std::optional<std::string_view> field(std::string_view key) const noexcept { return value_of(langtag_field, key); }
    std::vector<key_value> fields() const { return pairs(langtag_next_field); }

    /* Returns the string of the tag with one part changed; an empty string removes the part. Returns std::nullopt if the tag is not a
     * normal tag, or the part is malformed. */
    std::optional<std::string> with(langtag::part which, std::string_view given) const {
        return unless_empty(written(langtag_with_part, static_cast<std::uint32_t>(which), langtag_bytes(given.data()), given.size()));
    }

    /* Changes several parts, one after another: tag.with({{part::script, "Latn"}, {part::region, "RS"}}). */
    std::optional<std::string> with(std::initializer_list<std::pair<langtag::part, std::string_view>> parts) const {
        std::optional<std::string> made{std::string(text_)};
        for (const auto &[which, given] : parts) {
            const auto whole = made ? parse(*made) : std::nullopt;
            made = whole ? whole->with(which, given) : std::nullopt;
        }
        return made;
    }

    /* Returns the string of the tag with a value of a key of the extension u: tag.with_keyword("ca", "buddhist"). An empty value means
     * true. Returns std::nullopt if the tag is not a normal tag, or the key or the value cannot be in a keyword. */
    std::optional<std::string> with_keyword(std::string_view key, std::string_view value) const {
        return unless_empty(written(langtag_with_keyword, langtag_bytes(key.data()), key.size(), langtag_bytes(value.data()), value.size()));
    }

    /* Returns the string of the tag without a key of the extension u. Returns std::nullopt if the tag is not a normal tag, or the key
     * cannot be in a keyword. */
    std::optional<std::string> without_keyword(std::string_view key) const {
        return unless_empty(written(langtag_without_keyword, langtag_bytes(key.data()), key.size()));
    }

    /* Returns the tag without extensions and private use: de-CH for de-CH-u-co-phonebk-x-a. A private-use tag and an irregular tag are
     * returned unchanged. */
    tag base() const noexcept { return *parse(text_.substr(0, langtag_base_len(text_.data(), text_.size()))); }

    /* Returns the tag with its extensions u and t in canonical form (UTS #35, part 1, Annex C). */
    std::string extensions_form() const { return written(langtag_extensions_form); }

    /* Returns whether the tag is a Unicode locale identifier (UTS #35, part 1): true for de-AT, false for zh-yue and x-a. */
    bool is_locale() const noexcept { return langtag_is_locale(text_.data(), text_.size()); }

    /* Returns the canonical form of the tag as a Unicode locale identifier (UTS #35, part 1, Annex C): ger-UK becomes de-GB, and zh-yue
     * becomes yue. Returns std::nullopt if there is none, such as for x-a. */
    std::optional<std::string> locale_form() const { return unless_empty(written(langtag_locale_form)); }

    /* Returns the first subtag that makes the tag invalid, or std::nullopt if it is valid, according to the registry of registry_date. */
    std::optional<langtag::invalid_subtag> invalid_subtag() const noexcept {
        langtag_span invalid;
        const std::uint32_t found = langtag_validity(text_.data(), text_.size(), &invalid);
        if (found <= LANGTAG_VALID) return std::nullopt;
        return langtag::invalid_subtag{static_cast<langtag::fault>(found), cut(invalid), invalid.start};
    }
    bool is_valid() const noexcept { return !invalid_subtag(); }

    /* Returns the canonical form (RFC 5646 section 4.5) in the recommended case, according to the registry of registry_date: IW-il becomes
       he-IL. */
    std::string canonical() const { return written(langtag_canonical); }

    /* Return the tag with its likely subtags (UTS #35), and without them: zh-TW becomes zh-Hant-TW, and zh-Hant-TW becomes zh-TW.
     * Deprecated subtags stay: iw becomes iw-Hebr-IL. */
    std::string maximized() const { return written(langtag_maximized); }
    std::string minimized() const { return written(langtag_minimized); }

    /* Returns the POSIX locale name for the tag: sr_RS@latin for sr-Latn-RS, zh_TW for zh-Hant-TW. Returns std::nullopt if no name
     * expresses the whole tag, for example because it has extensions; base() has no extensions. Add the codeset yourself. */
    std::optional<std::string> to_posix() const { return unless_empty(written(langtag_to_posix)); }

    /* Returns the parent of the tag in CLDR, which a catalogue of strings asks next: pt-PT for pt-AO, zh-Hant for zh-TW. Returns
     * std::nullopt if there is none, such as for pt. If CLDR lists the language and does not replace the region (CLDR replaces UK), the
     * parent is written in the same script, so zh-Hant has none. */
    std::optional<std::string> parent() const { return unless_empty(written(langtag_parent)); }

    /* Returns the tag and its parents, in the order in which to search a catalogue: pt-AO, pt-PT and pt for pt-AO. The comment of
     * langtag_nth_parent in langtag.h says more. */
    std::vector<std::string> parents() const {
        std::vector<std::string> found;
        for (std::string next(text_); !next.empty(); next = written(langtag_nth_parent, static_cast<std::uint32_t>(found.size()))) found.push_back(std::move(next));
        return found;
    }

    /* Returns whether the tag is written from right to left, by its script or its likely script. */
    bool is_right_to_left() const noexcept { return langtag_is_right_to_left(text_.data(), text_.size()); }

    /* Returns whether the tag equals its canonical form, ignoring case. */
    bool is_canonical() const noexcept { return langtag_is_canonical(text_.data(), text_.size()); }

    /* Returns the 64-bit FNV-1a hash of the string in lowercase: the same number in every program. */
    std::uint64_t fnv1a() const noexcept { return langtag_hash(LANGTAG_HASH, text_.data(), text_.size()); }

private:
    friend class owned_tag;
    tag(std::string_view text, langtag::kind kind, const langtag_parts &parts) noexcept
        : text_(text), kind_(kind), parts_(parts) {}

    template <class Write, class... Given> std::string written(Write write, Given... given) const { return written_by(write, text_, given...); }

    /* No bounds are checked: langtag_parse guarantees that each span is within the string. */
    std::string_view cut(langtag_span span) const noexcept { return {text_.data() + span.start, span.len}; }

    std::optional<std::string_view> value_of(bool (*find)(const char *, std::size_t, const char *, std::size_t, langtag_span *),
                                             std::string_view key) const noexcept {
        langtag_span found;
        if (!find(text_.data(), text_.size(), langtag_bytes(key.data()), key.size(), &found)) return std::nullopt;
        return cut(found);
    }

    std::vector<key_value> pairs(bool (*next)(const char *, std::size_t, std::size_t *, langtag_span *, langtag_span *)) const {
        std::vector<key_value> found;
        std::size_t passed = 0;
        langtag_span key, value;
        while (next(text_.data(), text_.size(), &passed, &key, &value)) found.push_back({cut(key), cut(value)});
        return found;
    }

    langtag_repeated repeated() const noexcept {
        langtag_repeated found;
        langtag_repeats(text_.data(), text_.size(), &found);
        return found;
    }

    std::string_view text_;
    langtag::kind kind_;
    langtag_parts parts_;
};

/* The views that a function of langtag.h removes from a part, one after another. */
template <bool (*Next)(const char *, std::size_t, langtag_span *, langtag_span *)> class pieces {
public:
    class iterator {
    public:
        using iterator_category = std::input_iterator_tag;
        using value_type = std::string_view;
        using difference_type = std::ptrdiff_t;
        using pointer = const std::string_view *;
        using reference = std::string_view;

        iterator() noexcept = default;
        explicit iterator(std::string_view part) noexcept : part_(part), rest_{0, part.size()} { ++*this; }

        std::string_view operator*() const noexcept { return part_.substr(piece_.start, piece_.len); }
        iterator &operator++() noexcept {
            if (!Next(langtag_bytes(part_.data()), part_.size(), &rest_, &piece_)) *this = iterator();
            return *this;
        }
        iterator operator++(int) noexcept {
            const iterator before = *this;
            ++*this;
            return before;
        }
        /* Compares iterators over the same part. The iterator at the end has an empty view. */
        friend bool operator==(const iterator &a, const iterator &b) noexcept {
            return a.part_.size() == b.part_.size() && a.rest_.len == b.rest_.len;
        }
        friend bool operator!=(const iterator &a, const iterator &b) noexcept { return !(a == b); }

    private:
        std::string_view part_;
        langtag_span rest_ = {0, 0}, piece_ = {0, 0};
    };

    explicit pieces(std::string_view part) noexcept : part_(part) {}
    template <class Allocator> explicit pieces(temporary_string<Allocator>) = delete;

    iterator begin() const noexcept { return iterator(part_); }
    iterator end() const noexcept { return iterator(); }

private:
    std::string_view part_;
};

/* The subtags of a part, in order: for (std::string_view variant : langtag::subtags(tag.variants())) .. */
using subtags = pieces<langtag_next_subtag>;

/* The extensions of tag.extensions(), in order, each with its singleton, such as u-co-pinyin. */
using extensions = pieces<langtag_next_extension>;

/* Calls a function with each subtag of a part, in order. */
template <class Function> void for_each_subtag(std::string_view part, Function call) {
    for (std::string_view subtag : subtags(part)) call(subtag);
}

/* Returns the string in the case that RFC 5646 section 2.1.1 recommends: zh-Hant-TW. */
inline std::string recommended(std::string_view text) {
    std::string made(text);
    langtag_recommend(&made[0], made.size());
    return made;
}

/* Returns the string in lowercase, which is the same for all equal tags. It is a key for alphabetical order (de before de-AT). All
 * tags that begin with de- are between the keys "de-" and "de.". */
inline std::string folded(std::string_view text) {
    std::string made(text);
    langtag_fold(&made[0], made.size());
    return made;
}

/* Returns the string of the tag made of these parts; empty parts are left out. Returns std::nullopt if a part is malformed, or if there is
 * no language. */
inline std::optional<std::string> from_parts(std::string_view language, std::string_view script = {},
                                             std::string_view region = {}, std::string_view variants = {},
                                             std::string_view extension = {}, std::string_view private_use = {}) {
    return tag::parse("und")->with({{part::language, language},
                                    {part::script, script},
                                    {part::region, region},
                                    {part::variants, variants},
                                    {part::extensions, extension},
                                    {part::private_use, private_use}});
}

/* A tag that owns its text. A tag that was moved from may only be assigned to or destroyed. */
class owned_tag {
public:
    /* Parses a tag; returns std::nullopt if the string is not a tag. */
    static std::optional<owned_tag> parse(std::string text) {
        const auto read = tag::parse(text);
        if (!read) return std::nullopt;
        return owned_tag(std::move(text), read->kind_, read->parts_);
    }
    static std::optional<owned_tag> parse(std::string_view text) { return parse(std::string(text)); }
    static std::optional<owned_tag> parse(const char *text) { return parse(std::string(text)); }
    explicit owned_tag(const tag &tag) : owned_tag(std::string(tag.text_), tag.kind_, tag.parts_) {}

    const std::string &text() const noexcept { return text_; }

    /* Returns the tag as a view, which has the parts. The string is not parsed again. */
    tag view() const & noexcept { return tag(text_, kind_, parts_); }
    tag view() const && = delete;

    /* Return the properties of the tag that are not views. */
    langtag::kind kind() const noexcept { return kind_; }
    bool is_valid() const noexcept { return view().is_valid(); }
    bool is_canonical() const noexcept { return view().is_canonical(); }
    bool is_right_to_left() const noexcept { return view().is_right_to_left(); }
    std::string canonical() const { return view().canonical(); }
    std::string maximized() const { return view().maximized(); }
    std::string minimized() const { return view().minimized(); }
    std::string extensions_form() const { return view().extensions_form(); }
    bool is_locale() const noexcept { return view().is_locale(); }
    std::optional<std::string> locale_form() const { return view().locale_form(); }
    std::optional<std::string> to_posix() const { return view().to_posix(); }
    std::optional<std::string> parent() const { return view().parent(); }
    std::vector<std::string> parents() const { return view().parents(); }

    /* Changes one part; an empty string removes it. If the tag is not a normal tag, or the part is malformed, returns false and leaves the
     * tag unchanged. */
    bool set(part which, std::string_view given) { return take(view().with(which, given)); }

    /* Set and remove a keyword of the extension u. They return false and leave the tag unchanged if with_keyword or without_keyword
     * would return std::nullopt. */
    bool set_keyword(std::string_view key, std::string_view value) { return take(view().with_keyword(key, value)); }
    bool remove_keyword(std::string_view key) { return take(view().without_keyword(key)); }

    /* Returns a tag with one part changed: t = t.with(part::script, "Latn").with(part::region, "RS"). Throws
     * std::invalid_argument if `set` would return false. */
    owned_tag with(part which, std::string_view given) const {
        owned_tag made = *this;
        if (!made.set(which, given)) throw std::invalid_argument(why_not(which, given));
        return made;
    }

private:
    /* Returns why `set` returned false. An empty string removes each part but the language. */
    std::string why_not(part which, std::string_view given) const {
        static const char *const names[] = {"language", "script", "region", "variants", "extensions", "private use"};
        if (kind_ != langtag::kind::normal) return "not a normal language tag";
        if (given.empty()) return "the language cannot be removed";
        return std::string("invalid ") + names[static_cast<std::uint32_t>(which)] + " " + quoted(given);
    }

    owned_tag(std::string text, langtag::kind kind, const langtag_parts &parts) noexcept
        : text_(std::move(text)), kind_(kind), parts_(parts) {}

    /* Replaces the tag by the tag with this string. Returns false and changes nothing if there is no string, or it is not a tag. */
    bool take(std::optional<std::string> made) {
        auto read = made ? parse(std::move(*made)) : std::nullopt;
        if (read) *this = std::move(*read);
        return read.has_value();
    }

    std::string text_;
    langtag::kind kind_;
    langtag_parts parts_;
};

/* Returns the string of a tag or a range. */
inline std::string_view text_of(std::string_view text) noexcept { return text; }
inline std::string_view text_of(const tag &tag) noexcept { return tag.text(); }
inline std::string_view text_of(const owned_tag &tag) noexcept { return tag.text(); }

/* What match_for_header returns. */
struct best_match {
    std::size_t index; /* in the list of tags */
    langtag::tag tag;
    std::string_view range; /* as it is written in the header, such as de_CH; a view of the header */
    std::uint32_t distance; /* from the range to the tag, as distance() returns it; from 50 on the tag was found by lookup only */
};

/* Returns what match_for_header returns for the best tag of a header, or std::nullopt if there is none. */
inline std::optional<best_match> matched(std::optional<tag> best, std::size_t index, std::string_view header, const langtag_best_match &match) {
    if (!best) return std::nullopt;
    return best_match{index, *best, header.substr(match.range.start, match.range.len), match.distance};
}

/* The tags of a list as the library reads them: one string with all tags, and where each of them is. */
class listed_tags {
public:
    template <class Tags> explicit listed_tags(const Tags &tags) {
        for (const auto &it : tags) {
            given_.push_back(text_of(it));
            spans_.push_back({text_.size(), given_.back().size()});
            text_.append(given_.back());
        }
        spans_.push_back({0, 0}); /* so that data() is not null */
    }

    using choice = std::size_t (*)(const char *, std::size_t, const char *, std::size_t, const langtag_span *, std::size_t);

    /* Returns the tag that a call chooses for a header, or std::nullopt. */
    std::optional<tag> chosen(choice choose, std::string_view header) const {
        return at(choose(langtag_bytes(header.data()), header.size(), text_.data(), text_.size(), spans_.data(), given_.size()));
    }

    /* Returns the tag that a list of ranges chooses, or std::nullopt. */
    std::optional<tag> chosen_for(const listed_tags &ranges) const {
        return at(langtag_best_for_ranges(ranges.text_.data(), ranges.text_.size(), ranges.spans_.data(), ranges.given_.size(),
                                          text_.data(), text_.size(), spans_.data(), given_.size()));
    }

    /* Returns the index of the tag of a site that this list of ranges chooses. */
    std::size_t chosen_in(const std::string &text, const langtag_prepared_tag *tags, std::size_t count) const {
        return langtag_site_best_for_ranges(text_.data(), text_.size(), spans_.data(), given_.size(), text.data(), text.size(), tags, count);
    }

    /* Returns the best tag for a header, with its index, range and distance, or std::nullopt. */
    std::optional<best_match> matched(std::string_view header) const {
        langtag_best_match match;
        const std::size_t index = langtag_match_for_header(langtag_bytes(header.data()), header.size(), text_.data(), text_.size(),
                                                           spans_.data(), given_.size(), &match);
        return langtag::matched(at(index), index, header, match);
    }

    /* Returns the suitable tags for a header or for a list of ranges, best first. `most` limits their number. */
    std::vector<tag> suitable(std::string_view header, std::size_t most) const {
        return all(most, langtag_suitable_for_header, langtag_bytes(header.data()), header.size());
    }
    std::vector<tag> suitable(const listed_tags &ranges, std::size_t most) const {
        return all(most, langtag_suitable_for_ranges, ranges.text_.data(), ranges.text_.size(), ranges.spans_.data(), ranges.given_.size());
    }

private:
    std::optional<tag> at(std::size_t index) const {
        return index < given_.size() ? tag::parse(given_[index]) : std::nullopt;
    }

    /* Returns the tags whose indices a call writes. */
    template <class Suit, class... Wanted> std::vector<tag> all(std::size_t most, Suit suit, Wanted... wanted) const {
        const std::size_t room = std::min(most, given_.size());
        std::vector<std::size_t> found(room + 1); /* so that data() is not null */
        found.resize(std::min(room, suit(wanted..., text_.data(), text_.size(), spans_.data(), given_.size(), found.data(), room)));
        std::vector<tag> tags;
        for (const std::size_t index : found) tags.push_back(*at(index)); /* a suitable entry is a tag */
        return tags;
    }

    std::string text_;
    std::vector<langtag_span> spans_;
    std::vector<std::string_view> given_;
};

/* Tags of both classes can be compared with each other and with strings, so std::less<> finds a tag in a map by any of these. */
template <class Value> inline constexpr bool is_tag = std::is_same_v<Value, tag> || std::is_same_v<Value, owned_tag>;
template <class Value> inline constexpr bool is_text = std::is_convertible_v<const Value &, std::string_view>;
template <class A, class B>
using if_compared = std::enable_if_t<(is_tag<A> && (is_tag<B> || is_text<B>)) || (is_text<A> && is_tag<B>), bool>;

/* Compare, ignoring case. A tag sorts after every longer tag that begins with it. For alphabetical order, sort by folded(text()). */
template <class A, class B> if_compared<A, B> operator==(const A &a, const B &b) noexcept {
    const std::string_view x = text_of(a), y = text_of(b);
    return langtag_eq(langtag_bytes(x.data()), x.size(), langtag_bytes(y.data()), y.size());
}
template <class A, class B> if_compared<A, B> operator<(const A &a, const B &b) noexcept {
    const std::string_view x = text_of(a), y = text_of(b);
    return langtag_cmp(langtag_bytes(x.data()), x.size(), langtag_bytes(y.data()), y.size()) < 0;
}
template <class A, class B> if_compared<A, B> operator!=(const A &a, const B &b) noexcept { return !(a == b); }
template <class A, class B> if_compared<A, B> operator>(const A &a, const B &b) noexcept { return b < a; }
template <class A, class B> if_compared<A, B> operator<=(const A &a, const B &b) noexcept { return !(b < a); }
template <class A, class B> if_compared<A, B> operator>=(const A &a, const B &b) noexcept { return !(a < b); }

/* A character of UTF-8 (RFC 3629 section 4), and its length in bytes, or a byte and 0 if no character begins there. */
struct character {
    std::uint32_t code;
    std::size_t len;

    /* Returns the first character of a string that is not empty. */
    static character first(std::string_view text) {
        const auto byte = [text](std::size_t at) { return at < text.size() ? static_cast<unsigned char>(text[at]) : 0u; };
        const unsigned lead = byte(0);
        const std::size_t len = lead < 0x80 ? 1 : lead < 0xC2 ? 0 : lead < 0xE0 ? 2 : lead < 0xF0 ? 3 : lead < 0xF5 ? 4 : 0;
        const unsigned least = lead == 0xE0 ? 0xA0 : lead == 0xF0 ? 0x90 : 0x80, most = lead == 0xED ? 0x9F : lead == 0xF4 ? 0x8F : 0xBF;
        std::uint32_t code = len > 1 ? lead & (0x7Fu >> len) : lead;
        for (std::size_t at = 1; at < len; at++) {
            if (byte(at) < (at == 1 ? least : 0x80u) || byte(at) > (at == 1 ? most : 0xBFu)) return {lead, 0};
            code = code << 6 | (byte(at) & 0x3F);
        }
        return {code, len};
    }

    /* Returns the escape with which messages show the character, or an empty string if they show the character itself. */
    std::string escape() const {
        if (len == 0) return "\\x" + hexadecimal();
        if (code == '\t') return "\\t";
        if (code == '\n') return "\\n";
        if (code == '\r') return "\\r";
        if (code == '\\' || code == '`') return {'\\', static_cast<char>(code)};
        return is_invisible() ? "\\u{" + hexadecimal() + "}" : "";
    }

private:
    /* Returns whether the character is a control character, is invisible, or changes the direction of the string: Unicode's categories Cc,
     * Cf, Zl, Zp and Zs (except for the space), and the property Default_Ignorable_Code_Point. All languages have this list. */
    bool is_invisible() const {
        static constexpr std::uint32_t ranges[][2] = {
            {0, 0x1f}, {0x7f, 0xa0}, {0xad, 0xad}, {0x34f, 0x34f}, {0x600, 0x605}, {0x61c, 0x61c}, {0x6dd, 0x6dd}, {0x70f, 0x70f},
            {0x890, 0x891}, {0x8e2, 0x8e2}, {0x115f, 0x1160}, {0x1680, 0x1680}, {0x17b4, 0x17b5}, {0x180b, 0x180f}, {0x2000, 0x200f},
            {0x2028, 0x202f}, {0x205f, 0x206f}, {0x3000, 0x3000}, {0x3164, 0x3164}, {0xfe00, 0xfe0f}, {0xfeff, 0xfeff}, {0xffa0, 0xffa0},
            {0xfff0, 0xfffb}, {0x110bd, 0x110bd}, {0x110cd, 0x110cd}, {0x13430, 0x1343f}, {0x1bca0, 0x1bca3}, {0x1d173, 0x1d17a},
            {0xe0000, 0xe0fff}};
        return std::any_of(std::begin(ranges), std::end(ranges), [this](const auto &it) { return it[0] <= code && code <= it[1]; });
    }

    std::string hexadecimal() const {
        std::string made;
        for (std::uint32_t rest = code; rest > 0 || made.empty(); rest /= 16) made.insert(made.begin(), "0123456789abcdef"[rest % 16]);
        return made;
    }
};

inline std::string quoted(std::string_view text, std::size_t most) {
    std::string made = "`";
    for (std::size_t count = 0; !text.empty() && count < most; count++) {
        const character one = character::first(text);
        const std::size_t len = one.len > 0 ? one.len : 1;
        const std::string escape = one.escape();
        made += escape.empty() ? text.substr(0, len) : escape;
        text.remove_prefix(len);
    }
    return made + (text.empty() || most == 1 ? "`" : "...`");
}

/* Why a string is not a tag. */
enum class refusal_kind : std::uint32_t {
    subtag = LANGTAG_REFUSED_SUBTAG,
    byte = LANGTAG_REFUSED_BYTE,
    end = LANGTAG_REFUSED_END
};

/* Where a string that is not a tag is wrong: the wrong subtag, and its start, for example to underline it. The offset is the place to
 * point at: the start, or a byte that is neither a letter nor a digit. If the string ends too soon, the subtag is empty. */
struct refusal {
    refusal_kind kind;
    std::string_view subtag;
    std::size_t start, offset;

    /* Returns the reason in words: "unexpected subtag `DE`", "unexpected end: expected a subtag". */
    std::string message() const {
        switch (kind) {
        case refusal_kind::subtag: return subtag.empty() ? "empty subtag" : "unexpected subtag " + quoted(subtag);
        case refusal_kind::byte: return "invalid character " + quoted(subtag.substr(offset - start), 1) + ": expected a letter, a digit or a hyphen";
        case refusal_kind::end: return "unexpected end: expected a subtag";
        }
        return {};
    }

};

/* Returns why a string is not a tag, or std::nullopt if it is a tag. */
inline std::optional<refusal> refused(std::string_view text) noexcept {
    langtag_span subtag;
    std::size_t offset;
    const std::uint32_t answer = langtag_refused(langtag_bytes(text.data()), text.size(), &subtag, &offset);
    if (answer == LANGTAG_REFUSED_NONE) return std::nullopt;
    return refusal{static_cast<refusal_kind>(answer), std::string_view(text.data() + subtag.start, subtag.len), subtag.start, offset};
}
template <class Allocator> std::optional<refusal> refused(temporary_string<Allocator>) = delete;

/* Returns the length of the longest prefix with which some tag begins. */
inline std::size_t viable_len(std::string_view text) noexcept {
    return langtag_viable_len(langtag_bytes(text.data()), text.size());
}

/* Returns the length of the shortest prefix with which no tag begins, or of the whole string if there is none. */
inline std::size_t stop_len(std::string_view text) noexcept {
    return langtag_stop_len(langtag_bytes(text.data()), text.size());
}

/* Returns the date of the IANA registry inside this library as one number, so that 20250131 is 2025-01-31. */
inline std::uint32_t registry_date() noexcept { return langtag_registry_date(); }

/* Return whether a language range matches a tag, by basic and by extended filtering (RFC 4647 sections 3.3.1 and 3.3.2). */
inline bool matches_basic(std::string_view range, const tag &tag) noexcept {
    return langtag_matches_basic(langtag_bytes(range.data()), range.size(), tag.text().data(), tag.text().size());
}
inline bool matches_extended(std::string_view range, const tag &tag) noexcept {
    return langtag_matches_extended(langtag_bytes(range.data()), range.size(), tag.text().data(), tag.text().size());
}

/* A language range, basic or extended (RFC 4647 section 2): de-CH, *, *-CH, de-*-DE. */
class range {
public:
    /* Parses a range; returns std::nullopt if the string is not a range. */
    static std::optional<range> parse(std::string_view text) noexcept {
        const std::uint32_t found = langtag_range_kind(langtag_bytes(text.data()), text.size());
        if (found == LANGTAG_RANGE_NONE) return std::nullopt;
        return range(text, found == LANGTAG_RANGE_BASIC);
    }
    template <class Allocator> static std::optional<range> parse(temporary_string<Allocator>) = delete;

    std::string_view text() const noexcept { return text_; }

    /* Returns whether this is a basic range (section 2.1): de-CH, or only *. */
    bool is_basic() const noexcept { return is_basic_; }

    bool matches_basic(const tag &tag) const noexcept { return langtag::matches_basic(text_, tag); }
    bool matches_extended(const tag &tag) const noexcept { return langtag::matches_extended(text_, tag); }

    /* Returns the next shorter range of a lookup (RFC 4647 section 3.4), or std::nullopt if none is left: zh-Hant-CN is followed by zh-Hant.
     * For a catalogue of strings, call tag::parents, since zh is not written in the script of zh-Hant. */
    std::optional<range> fallback() const noexcept {
        langtag_span rest = {0, text_.size()};
        if (!langtag_next_fallback(text_.data(), text_.size(), &rest)) return std::nullopt;
        const std::string_view left = text_.substr(0, rest.len);
        return range(left, is_basic_ || left.find('*') == left.npos);
    }

    /* Returns the basic range that a lookup uses for an extended range (section 3.2): de-*-DE becomes de-DE. */
    std::string without_wildcards() const {
        std::string basic(text_);
        for (auto at = basic.find("-*"); at != basic.npos; at = basic.find("-*", at)) basic.erase(at, 2);
        return basic;
    }

    /* Returns the tag that the range finds by lookup (section 3.4): the tag that equals the range or, if there is none, one of its
     * fallbacks, of which the longest is tried first. Returns std::nullopt if there is none. An extended range is looked up without
     * its * (section 3.2). A range that begins with * finds nothing. */
    std::optional<tag> look_up(const std::vector<tag> &tags) const {
        return listed_tags(tags).chosen(langtag_tag_for_header_lenient, without_wildcards());
    }

private:
    friend class accept_language;
    range(std::string_view text, bool is_basic) noexcept : text_(text), is_basic_(is_basic) {}

    std::string_view text_;
    bool is_basic_;
};

/* Returns the tag of the first range that finds a tag. */
inline std::optional<tag> look_up(const std::vector<range> &ranges, const std::vector<tag> &tags) {
    std::string header;
    for (const range &range : ranges) header.append(range.without_wildcards()).append(1, ',');
    return listed_tags(tags).chosen(langtag_tag_for_header_lenient, header);
}

inline std::string_view text_of(const range &range) noexcept { return range.text(); }

/* Whether the strings of a list outlive a call with the list. Views do, and so do owners, unless the list is a temporary. */
template <class List, class Element = decltype(*std::begin(std::declval<List &>())), class Plain = std::decay_t<Element>>
inline constexpr bool stays = std::is_same_v<Plain, tag> || std::is_base_of_v<std::string_view, Plain> || std::is_pointer_v<Plain> ||
                              (std::is_lvalue_reference_v<List> && std::is_lvalue_reference_v<Element>);

/* A list of strings in braces. */
using texts = std::initializer_list<std::string_view>;

/* A tag or a string of a list in braces. A temporary that owns its string does not compile, because the result of the call is a view. */
struct lasting : std::string_view {
    template <class Text, class = decltype(text_of(std::declval<const Text &>()))> lasting(const Text &text) : std::string_view(text_of(text)) {}
    template <class Allocator> lasting(temporary_string<Allocator>) = delete;
    lasting(const owned_tag &&) = delete;
};
using lasting_texts = std::initializer_list<lasting>;

/* Returns the best tag for an Accept-Language header, or std::nullopt if none is suitable: zh-Hant for "zh-TW,zh;q=0.9,en;q=0.8".
 * Malformed elements are read leniently: de_CH is read as de-CH. Among tags at the same distance, the rules of langtag_best_for_header in
 * langtag.h decide, and then the order of the list.
 *
 * The tags are a list of tag, owned_tag, strings or views, such as {"en", "zh-Hant"}. A string that is not a tag is skipped. The
 * result is a view, so a temporary std::string or owned_tag in the list does not compile. */
template <class Tags = lasting_texts, std::enable_if_t<stays<Tags>, int> = 0>
std::optional<tag> best_for_header(std::string_view header, Tags &&tags) {
    return listed_tags(tags).chosen(langtag_best_for_header, header);
}

/* Returns the best tag for a header, as best_for_header does, with its index, the range that it serves, and the distance from that
 * range. For example, a video player needs the index of the track. The distance shows whether the track has the language itself or one
 * near it. */
template <class Tags = lasting_texts, std::enable_if_t<stays<Tags>, int> = 0>
std::optional<best_match> match_for_header(std::string_view header, Tags &&tags) {
    return listed_tags(tags).matched(header);
}
template <class Allocator, class Tags = lasting_texts>
std::optional<best_match> match_for_header(temporary_string<Allocator>, Tags &&) = delete;

/* Returns the best tag for a list of ranges, in order of preference, as best_for_header does for a header. The ranges are a
 * list of range, strings or views. An extended range is read without its *. A string that is not a range (de;q=0) is skipped. */
template <class Ranges = texts, class Tags = lasting_texts, std::enable_if_t<stays<Tags>, int> = 0>
std::optional<tag> best_for_ranges(const Ranges &ranges, Tags &&tags) {
    return listed_tags(tags).chosen_for(listed_tags(ranges));
}

/* The default of `most`, with which a call returns all suitable tags. */
inline constexpr std::size_t all_suitable = static_cast<std::size_t>(-1);

/* Returns all suitable tags for a header, best first: the tag that best_for_header chooses, the tag that it chooses among the other
 * tags, and so on. `most` limits the number of tags. A player offers its tracks in this order. */
template <class Tags = lasting_texts, std::enable_if_t<stays<Tags>, int> = 0>
std::vector<tag> suitable_for_header(std::string_view header, Tags &&tags, std::size_t most = all_suitable) {
    return listed_tags(tags).suitable(header, most);
}

/* Returns all suitable tags for a list of ranges, in order of preference, as suitable_for_header does for a header. */
template <class Ranges = texts, class Tags = lasting_texts, std::enable_if_t<stays<Tags>, int> = 0>
std::vector<tag> suitable_for_ranges(const Ranges &ranges, Tags &&tags, std::size_t most = all_suitable) {
    return listed_tags(tags).suitable(listed_tags(ranges), most);
}

/* The tags of a site that are known before the requests. Each tag is prepared once, so a choice among 40 tags takes about 40 % fewer
 * instructions. The calls return what best_for_header and similar functions return for the same tags.
 *
 *     static const langtag::site site({"en", "zh-Hans", "zh-Hant"});
 *     site.best_for_header("zh-TW,zh;q=0.9,en;q=0.8")->text(); // "zh-Hant"
 *
 * A site owns its tags and does not change, so threads can share it. A string that is not a tag is never chosen. The tags that the
 * calls return are views of the site. */
class site {
public:
    template <class Tags = texts> explicit site(const Tags &tags) {
        for (const auto &it : tags) {
            const std::string_view text = text_of(it);
            tags_.push_back({{text_.size(), text.size()}, {0, 0}});
            text_.append(text);
        }
        for (langtag_prepared_tag &it : tags_) langtag_prepare(text_.data(), text_.size(), &it);
    }

    /* Returns the number of tags. */
    std::size_t size() const noexcept { return tags_.size(); }

    /* Returns how many of the strings are not tags, such as en_US. They are never chosen. */
    std::size_t refused() const {
        std::size_t count = 0;
        for (std::size_t k = 0; k < size(); k++) count += !(*this)[k];
        return count;
    }

    /* Returns the tag at an index, or std::nullopt if its string is not a tag. */
    std::optional<tag> operator[](std::size_t index) const & {
        return tag::parse(std::string_view(text_).substr(tags_[index].tag.start, tags_[index].tag.len));
    }

    std::optional<tag> operator[](std::size_t) const && = delete;

    /* Returns the best tag for a header, as langtag::best_for_header does. */
    std::optional<tag> best_for_header(std::string_view header) const & {
        return at(langtag_site_best_for_header(langtag_bytes(header.data()), header.size(), text_.data(), text_.size(), prepared(),
                                               tags_.size()));
    }

    std::optional<tag> best_for_header(std::string_view) const && = delete;

    /* Returns the best tag for a header with its index, range and distance, as langtag::match_for_header does. */
    std::optional<best_match> match_for_header(std::string_view header) const & {
        langtag_best_match match;
        const std::size_t index = langtag_site_match_for_header(langtag_bytes(header.data()), header.size(), text_.data(), text_.size(),
                                                                prepared(), tags_.size(), &match);
        return langtag::matched(at(index), index, header, match);
    }
    std::optional<best_match> match_for_header(std::string_view) const && = delete;
    template <class Allocator> std::optional<best_match> match_for_header(temporary_string<Allocator>) const & = delete;

    /* Returns the best tag for a list of ranges, as langtag::best_for_ranges does. */
    template <class Ranges = texts> std::optional<tag> best_for_ranges(const Ranges &ranges) const & {
        return at(listed_tags(ranges).chosen_in(text_, prepared(), tags_.size()));
    }
    template <class Ranges = texts> std::optional<tag> best_for_ranges(const Ranges &) const && = delete;

private:
    std::optional<tag> at(std::size_t index) const { return index < tags_.size() ? (*this)[index] : std::nullopt; }

    /* Returns the prepared tags. Unlike data() of an empty vector, the pointer is never null. */
    const langtag_prepared_tag *prepared() const {
        static constexpr langtag_prepared_tag none = {};
        return tags_.empty() ? &none : tags_.data();
    }

    std::string text_;
    std::vector<langtag_prepared_tag> tags_;
};

/* A range of a header, and its weight in thousandths, from 1 to 1000. */
struct weighted_range {
    langtag::range range;
    std::uint32_t weight;
};

/* Which part of a header's element is malformed. If range and weight are both malformed, it is the range. */
enum class element_part : std::uint32_t { range = LANGTAG_ACCEPTED_BAD_RANGE, weight = LANGTAG_ACCEPTED_BAD_WEIGHT };

/* A malformed element of a header: the number of commas before it, the offset of its first byte, and the malformed part. */
struct bad_element {
    element_part part;
    std::size_t index, offset;
};

/* The value of an Accept-Language header (RFC 9110 section 12.5.4), as a view. Each call reads the header again. */
class accept_language {
public:
    explicit accept_language(std::string_view header) noexcept : header_(header) {}
    template <class Allocator> explicit accept_language(temporary_string<Allocator>) = delete;

    /* Returns the first malformed element, such as de_CH or de;q=2. A strict server refuses such a header. The calls below skip
     * malformed elements. */
    std::optional<langtag::bad_element> bad_element() const noexcept {
        langtag_span rest = whole(), element;
        std::uint32_t weight, answer;
        while ((answer = next(rest, element, weight)) == LANGTAG_ACCEPTED_RANGE) continue;
        if (answer == LANGTAG_ACCEPTED_END) return std::nullopt;
        const auto commas = std::count(header_.begin(), header_.begin() + static_cast<std::ptrdiff_t>(element.start), ',');
        return langtag::bad_element{static_cast<element_part>(answer), static_cast<std::size_t>(commas), element.start};
    }

    /* Returns the ranges by descending weight; ranges of equal weight keep their order. Ranges of weight 0 are not acceptable, so they
     * are left out. */
    std::vector<weighted_range> ranges() const {
        std::vector<weighted_range> found;
        langtag_span rest = whole(), element;
        std::uint32_t weight, answer;
        while ((answer = next(rest, element, weight)) != LANGTAG_ACCEPTED_END)
            if (answer == LANGTAG_ACCEPTED_RANGE && weight > 0)
                found.push_back({range(header_.substr(element.start, element.len), true), weight});
        std::stable_sort(found.begin(), found.end(), [](const auto &a, const auto &b) { return a.weight > b.weight; });
        return found;
    }

    /* Returns the tag that the ranges find by lookup, the greatest weight first, or std::nullopt. */
    std::optional<tag> look_up(const std::vector<tag> &tags) const {
        return listed_tags(tags).chosen(langtag_tag_for_header_lenient, header_);
    }

    /* Returns the best tag for the ranges by language distance, as best_for_ranges does. Malformed elements and ranges of weight 0 are
     * not among the ranges. So de_CH is not repaired, and de-CH;q=0 excludes nothing. Only best_for_header repairs and excludes. */
    template <class Tags = lasting_texts, std::enable_if_t<stays<Tags>, int> = 0> std::optional<tag> best(Tags &&tags) const {
        std::vector<range> wanted;
        for (const weighted_range &it : ranges()) wanted.push_back(it.range);
        return best_for_ranges(wanted, std::forward<Tags>(tags));
    }

private:
    langtag_span whole() const noexcept { return {0, header_.size()}; }

    std::uint32_t next(langtag_span &rest, langtag_span &element, std::uint32_t &weight) const noexcept {
        return langtag_next_accepted(langtag_bytes(header_.data()), header_.size(), &rest, &element, &weight);
    }

    std::string_view header_;
};

/* Returns the distance from the desired tag to a supported tag (UTS #35, Language Matching): 0 from zh-TW to zh-Hant,
 * and at most 134. It is 255 if the tags differ and one of them is only und, a private-use tag, i-default, i-enochian or
 * i-mingo. */
inline std::uint32_t distance(const tag &desired, const tag &supported) noexcept {
    const std::string_view a = desired.text(), b = supported.text();
    return langtag_distance(a.data(), a.size(), b.data(), b.size());
}

/* Returns the locale to format dates and numbers with, next to text in a tag that was chosen for a range: the tag with the region and the
 * keywords of the range, such as en-GB-u-hc-h12 for the range en-GB-u-hc-h12 and the tag en. The script is written if it would not be
 * likely with the region: zh-Hans-HK for zh-HK and zh-CN. Returns the tag if the range asks for nothing. */
inline std::string resolved_locale(std::string_view range, const tag &chosen) {
    const std::string_view text = chosen.text();
    return written_by(langtag_resolved_locale, range, text.data(), text.size());
}

/* Returns the tag for a POSIX locale name: pt_BR.UTF-8 becomes pt-BR, and en_US_POSIX becomes en-US-u-va-posix. Names as Java,
 * Android, .NET, ICU and Apple's systems write them are read, too: zh-rTW becomes zh-TW. Returns std::nullopt if there is none, such as for the locales C and POSIX. */
inline std::optional<std::string> from_posix(std::string_view name) { return unless_empty(written_by(langtag_from_posix, name)); }

/* Returns the modifier that from_posix drops because it is not known: foo in de_DE@foo. Returns std::nullopt if there is none. */
inline std::optional<std::string_view> unknown_modifier(std::string_view name) noexcept {
    langtag_span modifier;
    if (!langtag_unknown_modifier(langtag_bytes(name.data()), name.size(), &modifier)) return std::nullopt;
    return name.substr(modifier.start, modifier.len);
}
template <class Allocator> std::optional<std::string_view> unknown_modifier(temporary_string<Allocator>) = delete;

/* Returns the version of Unicode's CLDR from which likely subtags, distances and aliases come, such as 48.2. */
inline std::string cldr_version() {
    char none;
    std::string version(langtag_cldr_version(&none, 0), '\0');
    langtag_cldr_version(&version[0], version.size());
    return version;
}

/* Writes the string of a tag to a stream. */
template <class Traits, class Tag, std::enable_if_t<is_tag<Tag>, int> = 0>
std::basic_ostream<char, Traits> &operator<<(std::basic_ostream<char, Traits> &out, const Tag &tag) {
    return out << tag.text();
}

} // namespace langtag

/* Equal tags have equal hashes. An attacker who controls the tags can cause collisions. */
template <> struct std::hash<langtag::tag> {
    std::size_t operator()(const langtag::tag &tag) const noexcept { return static_cast<std::size_t>(tag.fnv1a()); }
};
template <> struct std::hash<langtag::owned_tag> {
    std::size_t operator()(const langtag::owned_tag &tag) const noexcept { return std::hash<langtag::tag>()(tag.view()); }
};

/* Formats a tag as std::format formats its text: {:>10} right-aligns it in ten columns. */
#ifdef __cpp_lib_format
template <class Tag> requires langtag::is_tag<Tag> struct std::formatter<Tag> : std::formatter<std::string_view> {
    template <class Context> auto format(const Tag &tag, Context &context) const {
        return std::formatter<std::string_view>::format(tag.text(), context);
    }
};
#endif

#endif
