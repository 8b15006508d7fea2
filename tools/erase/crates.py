"""The table that says which crates of Rattle become modules of which Rust crate."""
from typing import NamedTuple


class Module(NamedTuple):
    crate: str  # the folder below crates/
    folder: str  # where its files go, below rust/
    path: str  # how code names it: `crate::place`


# The modules, each after those on which it depends, and the crates of which the names differ. Another Rust crate would get its own
# modules, with its own folders.
NAMES = """
    scan text language place extension private tag range matching fields canonical registry cldr likely posix parent choice keyword unicode
    locale
""".split()
CRATES = {"tag": "langtag", "matching": "langtag_match"}
MODULES = [Module(CRATES.get(name, f"langtag_{name}"), f"src/erased/{name}", f"crate::erased::{name}") for name in NAMES]
# The crates whose modules need the feature `data`. In a module of another crate every function is inlined.
WITH_DATA = {module.crate for module in MODULES[NAMES.index("fields"):]}
# The C library is a separate crate, rust/c, which also has the modules above.
OF_C = {"langtag_c"}
MODULES.append(Module("langtag_c", "c/src/calls", "crate::calls"))

# The modules whose items users find in a module of the same name. The items of other modules are at the root, if src/lib.rs exports
# them.
PUBLIC = {"scan", "matching", "registry", "likely", "choice", "unicode"}

# The crates whose public items users find in the module of another crate. For SHOWN_IN, the exports are added to that module. For
# EXPORTED_BY, the other Rattle crate has them.
SHOWN_IN = {"langtag_locale": "langtag_unicode", "langtag_posix": "langtag_likely", "langtag_parent": "langtag_likely"}
EXPORTED_BY = {
    "langtag_keyword": "langtag_unicode", "langtag_text": "langtag_scan", "langtag_fields": "langtag_registry",
    "langtag_canonical": "langtag_registry", "langtag_cldr": "langtag_likely",
}

# The functions that users call in another form: for example, `langtag::registry::write_canonical` takes more types than the proved
# function, and returns a Result. And the items that users do not have, such as `canonical`, which is a method for them. An example that
# uses one of them names it in the module `erased`.
REPLACED = set("""
    look_up tag_for_header write_canonical write_maximized write_minimized write_from_posix to_posix write_to_posix
    write_extensions_form write_locale_form write_with_keyword write_without_keyword Site suitable_for_header suitable_for_ranges
    write_suitable resolved_locale write_resolved_locale SetKeywordError iter_extension Parents InvalidSubtag validate filter_basic filter_extended
""".split())
HIDDEN = set("""
    put_part is_among_first Part Replacement Keys element_at is_empty_element listed_range locale_place split_wanted weight_of
    fault_at suggested_language suggested_region PreparedTag OwnedSite ParentTag Filtered PreparedForm RangeList
    best_among match_among suitable_among suitable_count best_for_accept_language distance parent nth_parent
    canonical extlang_form maximized minimized extensions_form locale_form
    keyword keywords attributes transform set_keyword remove_keyword
""".split())


def path_of(crate):
    """Returns the path of a crate's module in code, or None for other crates."""
    return next((module.path for module in MODULES if module.crate == crate), None)


def public_path_of(crate):
    """Returns the path under which users find the items of a crate: `langtag::registry`, or `langtag` for items at the root."""
    path = path_of((SHOWN_IN | EXPORTED_BY).get(crate, crate))
    name = path and path.rpartition("::")[2]
    return f"langtag::{name}" if name in PUBLIC else path and "langtag"
