#!/usr/bin/env python3
"""Plants faults in an erased file that a faulty eraser could make, and tests that the checker finds each of them.

    python3 tools/checker/test_wrong_erasures.py
"""
import importlib.util
import pathlib
import shutil
import subprocess
import sys
import tempfile

HERE = pathlib.Path(__file__).resolve().parent
sys.path.insert(0, str(HERE))

SCRIPT, CLASS, KINDS = "erased/place/script.rs", "erased/scan/class.rs", "../kinds.txt"
WRONG = {
    "a literal is another": (CLASS, "bytes.len() == 4", "bytes.len() == 5"),
    "an operator is turned": ("erased/scan/metered.rs", "self.reach = index + 1", "self.reach = index - 1"),
    "a comparison is turned": ("erased/tag/normal_lang_tag.rs", "if before == end {", "if before != end {"),
    "a condition is lost": (SCRIPT, "if !is_script(text.as_bytes()) {\n            return Err(InvalidScript(text));\n        }\n", ""),
    "a clause swallows the body": ("erased/tag/kind.rs", "matches!(self, Kind::Normal)", ""),
    "two parts change places": ("erased/tag/normal_lang_tag.rs", "self.part(self.ends.language, self.ends.script)", "self.part(self.ends.script, self.ends.language)"),
    "a field is lost": ("erased/text/replacement.rs", "    pub hyphen: &'static str,\n", ""),
    "a `?` is lost": ("erased/tag/text_of_parts.rs", "whole.try_push_str(language)?;", "let _ = whole.try_push_str(language);"),
    "allocation ends the program": ("erased/place/region.rs", "try_string(self.as_str())?", "String::from(self.as_str())"),
    "a growth is not asked for": ("erased/tag/text_of_parts.rs", "whole.try_push_str(", "whole.push_str("),
    "from_checked is public": (SCRIPT, "pub(crate) const fn from_checked", "pub const fn from_checked"),
    "a message is another": ("erased/place/variant.rs", '"invalid variant"', '"invalid variant "'),
    "a message has another variant": ("erased/registry/invalid_subtag.rs", "InvalidSubtag::Script(value)", "InvalidSubtag::Region(value)"),
    "a type is compared as another": ("erased/tag/lang_tag.rs", "by_text!(LangTag<'_>);", "by_text!(NormalLangTag<'_>);"),
    "a derive is lost": (SCRIPT, "PartialOrd, Ord, Hash)]\npub struct Script<", "PartialOrd, Ord)]\npub struct Script<"),
    "a derive is added": (SCRIPT, "PartialOrd, Ord, Hash)]\npub struct Script<", "PartialOrd, Ord, Hash, Default)]\npub struct Script<"),
    "an import is public": (SCRIPT, "use crate::erased::scan::{is_script,", "pub use crate::erased::scan::{is_script,"),
    "an import is added": (SCRIPT, "use core::fmt;\n", "use core::fmt;\nuse core::mem;\n"),
    "an attribute is lost": (CLASS, "#[must_use]\npub const fn is_script", "pub const fn is_script"),
    "a name is imported from elsewhere": (SCRIPT, "use crate::erased::scan::{is_script,", "use crate::erased::scan::{is_region as is_script,"),
    "a chain of conditions has an else": ("erased/extension/singleton.rs", "return Ok(singleton);\n            }\n", "return Ok(singleton);\n            } else { return Ok(Singleton { byte: 0 }); }\n"),
    "a feature turns an item off": (CLASS, "#[inline]\n#[must_use]\npub const fn is_script", '#[cfg(feature = "alloc")]\n#[inline]\n#[must_use]\npub const fn is_script'),
    "a feature is turned": (SCRIPT, '#[cfg(feature = "alloc")]\nimpl ScriptBuf', '#[cfg(not(feature = "alloc"))]\nimpl ScriptBuf'),
    "a feature stands before a statement": (SCRIPT, "        if !is_script", '        #[cfg(feature = "alloc")]\n        if !is_script'),
    "a feature stands before a field": ("erased/text/replacement.rs", "    pub hyphen", '    #[cfg(feature = "alloc")]\n    pub hyphen'),
    "an argument of a call in another form is another": (SCRIPT, "try_string(self.as_str())?", "try_string(self.as_str().trim())?"),
    "a function is no longer const": (SCRIPT, "pub(crate) const fn from_checked", "pub(crate) fn from_checked"),
    "a type may get no more members": ("erased/unicode/unicode_extension.rs", "#[non_exhaustive]\n", ""),
    "a variant may get more fields": ("erased/text/edit_error.rs", "    Memory(Alloc", "    #[non_exhaustive]\n    Memory(Alloc"),
    "a type has to be used": (SCRIPT, "pub struct Script<", "#[must_use]\npub struct Script<"),
    "a copy of an error is added": (SCRIPT, "#[derive(Debug, Clone, Copy, PartialEq, Eq, Hash)]\npub struct InvalidScript", "#[derive(Debug, Clone, Copy, PartialEq, Eq, Hash, Ord)]\npub struct InvalidScript"),
    "an import is lost": (SCRIPT, "use core::fmt;\n", ""),
    "an import moves into a body": (SCRIPT, "        if !is_script", "        use core::fmt;\n        if !is_script"),
    "an item is added": ("erased/tag/kind.rs", "matches!(self, Kind::Grandfathered)\n    }\n}\n", "matches!(self, Kind::Grandfathered)\n    }\n}\n\nimpl Drop for Held {\n    fn drop(&mut self) {}\n}\n"),
    "the last item is lost": ("erased/registry/invalid_subtag.rs", "impl core::error::Error for InvalidSubtag<'_> {}\n", ""),
    "a value becomes a tuple": ("erased/parent/stated.rs", "(script * 16777216 + region)", "(script * 16777216 + region,)"),
    "a file has another source": (SCRIPT, "langtag_place/src/script.rt", "langtag_place/src/region.rt"),
    "a call for C answers otherwise": ("../c/src/calls/compare.rs", "Ordering::Less => -1", "Ordering::Less => 1"),
    "bytes that are no tag are empty": ("erased/tag/lang_tag.rs", "return Err(InvalidLangTag(bytes));\n        };\n        Ok", "return Ok(LangTag::EMPTY);\n        };\n        Ok"),
    "an option without a value answers otherwise": ("erased/keyword/alphabet.rs", "rest.is_none_or(", "rest.is_some_and("),
    "the value of an option is not used": ("erased/keyword/alias.rs", ".unwrap_or(value)", ".and(Some(value)).unwrap_or(value)"),
    "a result is given to another function": ("erased/choice/rule_distance.rs", ".map_or(80, language_rule_distance)", ".map_or(80, script_rule_distance)"),
    "a table is another": ("erased/cldr/rows.rs", "place(&tables::SCRIPT_KEYS", "place(&tables::REGION_KEYS"),
    "a table is cut": ("erased/cldr/direction.rs", "&tables::RIGHT_TO_LEFT_KEYS", "&tables::RIGHT_TO_LEFT_KEYS[1..]"),
    "a result has another lifetime": ("erased/keyword/extension_form.rs", "-> &str {", "-> &'static str {"),
    "a closure has a statement": ("erased/locale/locale_fields.rs", "|regions| {\n        heir", "|regions| {\n        let fields = region_replaced(fields);\n        heir"),
    "an example is lost": (SCRIPT, 'assert!(Script::new("Latn").is_ok());\n', "\n"),
    "an assertion stays a comment": (SCRIPT, 'assert!(Script::new("Latn").is_ok());', 'Script::new("Latn").is_ok(); // true'),
    "an assertion compares a value with itself": (SCRIPT, 'assert!(Script::new("Latn").is_ok());', 'assert_eq!(Script::new("Latn"), Script::new("Latn"));'),
    "an assertion is always true": (SCRIPT, 'assert!(script == Script::new("LATN")?);', "assert!(script == script);"),
    "an assertion of two lines is always true": (SCRIPT, 'assert!(script == Script::new("LATN")?);', "assert_eq!(\n///     script,\n///     script\n/// );"),
    "an assertion is `true`": (SCRIPT, 'assert!(script == Script::new("LATN")?);', "assert!(true);"),
    "an example is not run": (SCRIPT, "/// ```\n", "/// ```ignore\n"),
    "an example is no example": ("erased/tag/kind.rs", "/// ```\n", "/// ~~~\n"),
    "a comment says otherwise": (SCRIPT, "/// Returns", "/// Never returns"),
    "a comment is lost": ("erased/text/edit_error.rs", "    /// Allocation failed.\n", ""),
    "a comment is torn": (SCRIPT, "/// and `LATN`.", "//! and `LATN`."),
    "a comment is added": (SCRIPT, 'f.write_str("invalid script")?;', 'f.write_str("invalid script")?; // Any text.'),
    "a link leads elsewhere": ("erased/scan/recogniser.rs", "rfc5646#section-2.1", "rfc5646#section-2.2"),
    "a comment in a comment hides code": (CLASS, "#[inline]\n#[must_use]\npub const fn is_script", "/* /* */\n#[inline]\n#[must_use]\npub const fn is_script"),
    "a folder is added": ("extra/mod.rs", None, "pub fn script(text: &str) -> crate::Script<'_> {\n    crate::Script::from_checked(text)\n}\n"),
    "a folder is added to the C library": ("../c/src/extra/mod.rs", None, "pub fn extra() {}\n"),
    "a file is added": ("erased/place/extra.rs", None, "pub fn extra() {}\n"),
    "a law has code": ("../../crates/langtag_parent/src/laws.rt", "{}\n", "{ other(1); }\n"),
    "no file has a kind": (KINDS, "\npath\n", "\nlost path\n    Nothing is lost.\n\npath\n"),
    "a kind is there twice": (KINDS, "\npath\n", "\npath\n    Paths differ.\n\npath\n"),
    "a kind has no reason": (KINDS, "    The parts that were found are not compared, since they follow from the text.\n", ""),
    "a form has two names": (KINDS, "\nskip\n", "\nskip\nskips\n"),
}

# These are refused whatever counts.txt says.
OF_NO_KIND = ("a derive is added", "an import is added", "an import is public", "an assertion stays a comment",
              "a feature stands before a field", "a feature stands before a statement", "a type has to be used", "a variant may get more fields")


def checker_module():
    spec = importlib.util.spec_from_file_location("checker", HERE / "__main__.py")
    module = importlib.util.module_from_spec(spec)
    spec.loader.exec_module(module)
    return module


def is_refused(checker, counts, folder, wrong, file, old, new):
    """Returns whether a fault is refused. `counts` are those of all files without it."""
    path = folder / file
    if old is None:
        return is_addition_refused(checker, folder, path, new)
    text = path.read_text(encoding="utf-8")
    if text.count(old) < 1:
        raise SystemExit(f"wrong erasures: {file} has no `{old}`")
    path.write_text(text.replace(old, new, 1), encoding="utf-8")
    if path.name == "kinds.txt":
        program = subprocess.run([sys.executable, path.parents[1] / "tools/checker"], capture_output=True, check=False)
        path.write_text(text, encoding="utf-8")
        return bool(program.returncode)
    run = checker.Checker(folder / "../../crates", folder).run(only=path)
    path.write_text(text, encoding="utf-8")
    run.counts = {**counts, **run.counts}
    faults = run.all_faults((HERE / "counts.txt").read_text(encoding="utf-8"))
    return bool(run.faults if wrong in OF_NO_KIND else faults)


def is_addition_refused(checker, folder, path, new):
    """Returns whether a new file is refused."""
    new_folder = not path.parent.exists()
    path.parent.mkdir(exist_ok=True)
    path.write_text(new, encoding="utf-8")
    run = checker.Checker(modules=folder).run(only=path)
    shutil.rmtree(path.parent) if new_folder else path.unlink()
    return bool(run.faults)


def main():
    checker, passed = checker_module(), []
    with tempfile.TemporaryDirectory() as name:
        folder = pathlib.Path(name) / "rust/src"
        for part in ("rust/src", "rust/c/src", "tools/checker"):
            shutil.copytree(checker.RUST.parent / part, pathlib.Path(name) / part)
        shutil.copy(checker.RUST / "kinds.txt", folder.parent)
        shutil.copytree(checker.SOURCES, pathlib.Path(name) / "crates")
        counts = checker.Checker(modules=folder).run().counts
        for wrong, (file, old, new) in WRONG.items():
            if not is_refused(checker, counts, folder, wrong, file, old, new):
                passed.append(wrong)
                print(f"wrong erasures: NOT REFUSED: {wrong} ({file})")
    print(f"wrong erasures: {len(WRONG) - len(passed)} of {len(WRONG)} refused")
    return bool(passed)


if __name__ == "__main__":
    sys.exit(main())
