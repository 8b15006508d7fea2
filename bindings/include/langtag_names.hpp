/*
 * English names of tags, and each language's own name (Deutsch, português), from Unicode's CLDR and IANA's registry. They are in a header
 * of their own: a program without this header has no tables. They are tested, and not proved: a proof could only show that a table equals
 * its list, not that the names are right. C has no describe, because a locale form may need more room than the tag, and the library
 * allocates nothing.
 */
#ifndef LANGTAG_NAMES_HPP
#define LANGTAG_NAMES_HPP

#include "langtag.hpp"
#include "langtag_names.h"

namespace langtag {

/* Returns an English name of a tag, made of CLDR's names for the subtags of its locale form: "Portuguese (Brazil)" for pt-BR. If there is no
 * locale form, or the tag has more than 262,144 bytes, the canonical form is used. If CLDR does not name the language, the name is IANA's
 * description of the tag's own language: "Himachali languages" for him. A subtag without a name is shown as it is. Extensions and
 * private use are left out, but a tag that is only private use is shown as it is. */
inline std::string describe(const tag &tag) {
    std::string form = written_by(langtag_name_form, tag.text());
    langtag_name_keep_language(tag.text().data(), tag.text().size(), &form[0]);
    return written_by(langtag_name_describe, form);
}

/* Returns the name of a tag's language in the language itself, from CLDR: "Deutsch" for de-DE. Returns std::nullopt if CLDR has none.
 * CLDR's name for the language in the tag's script or region is preferred. The script is the tag's own, or the likely script of the
 * language in the region. If there is no name in that script, the result is std::nullopt. */
inline std::optional<std::string_view> autonym(const tag &tag) {
    const std::string form = written_by(langtag_name_form, tag.text());
    const char *name = langtag_name_autonym(form.data(), form.size());
    if (name == nullptr) return std::nullopt;
    return name;
}

/* The same for tags that own their text. The name is in the library's table, so it outlives the tag. */
inline std::string describe(const owned_tag &tag) { return describe(tag.view()); }
inline std::optional<std::string_view> autonym(const owned_tag &tag) { return autonym(tag.view()); }

} // namespace langtag

#endif
