//! The list of the types over a string: the borrowed type, the owned type, the error, the call that
//! borrows, and a description.

/// Passes this list to another macro, and that macro writes items for each type.
macro_rules! for_text_types {
    ($write:ident) => {
        $write! {
            PrimaryLanguage, PrimaryLanguageBuf, InvalidPrimaryLanguage, as_primary_language, "a primary language";
            ExtendedLangTag, ExtendedLangTagBuf, InvalidExtendedLangTag, as_extended_lang_tag, "an extended language subtag";
            LanguageExtension, LanguageExtensionBuf, InvalidLanguageExtension, as_language_extension, "a language extension";
            Language, LanguageBuf, InvalidLanguage, as_language, "a language";
            Script, ScriptBuf, InvalidScript, as_script, "a script";
            Region, RegionBuf, InvalidRegion, as_region, "a region";
            Variant, VariantBuf, InvalidVariant, as_variant, "a variant";
            Variants, VariantsBuf, InvalidVariants, as_variants, "variants";
            ExtensionSubtag, ExtensionSubtagBuf, InvalidExtensionSubtag, as_extension_subtag, "an extension subtag";
            Extension, ExtensionBuf, InvalidExtension, as_extension, "an extension";
            Extensions, ExtensionsBuf, InvalidExtensions, as_extensions, "extensions";
            PrivateUseSubtag, PrivateUseSubtagBuf, InvalidPrivateUseSubtag, as_private_use_subtag, "a private use subtag";
            PrivateUse, PrivateUseBuf, InvalidPrivateUse, as_private_use, "a private use part";
            NormalLangTag, NormalLangTagBuf, InvalidNormalLangTag, as_normal_lang_tag, "a normal language tag";
            LangTag, LangTagBuf, InvalidLangTag, as_lang_tag, "a language tag";
            LanguageRange, LanguageRangeBuf, InvalidLanguageRange, as_language_range, "a language range";
        }
    };
}
