//! Parts that are set in a tag, or removed from it.
use langtag::*;

use crate::tags::check_parts;

/// Sets the part with a name in a tag of any kind or in a normal tag. The text `none` removes the part. Returns `None` if the text is not a text of that part.
macro_rules! set {
    ($tag:ident, $name:ident, $text:ident) => {{
        let list = if $text == "none" { "" } else { $text };
        let set = match $name {
            "language" => $tag.set_language(Language::new($text).ok()?),
            "script" => $tag.set_script(unless_none($text, Script::new)?),
            "region" => $tag.set_region(unless_none($text, Region::new)?),
            "variants" => $tag.set_variants(Variants::new(list).ok()?),
            "extensions" => $tag.set_extensions(Extensions::new(list).ok()?),
            "private_use" => $tag.set_private_use(unless_none($text, PrivateUse::new)?),
            name => panic!("no part: {name}"),
        };
        set.map_err(EditError::from)
    }};
}

/// Returns the part that is set, which is no part for `none`, or `None` if the text is not a text of that part.
fn unless_none<'a, T, E>(text: &'a str, new: fn(&'a str) -> Result<T, E>) -> Option<Option<T>> {
    match text {
        "none" => Some(None),
        text => new(text).ok().map(Some),
    }
}

fn set(tag: &mut LangTagBuf, name: &str, text: &str) -> Option<Result<(), EditError>> {
    Some(set!(tag, name, text))
}

fn set_normal(tag: &mut NormalLangTagBuf, name: &str, text: &str) -> Option<Result<(), EditError>> {
    Some(set!(tag, name, text))
}

/// Returns the tag after a part was set. Its parts must equal the parts of its parsed text.
pub fn edit(text: &str, name: &str, given: &str) -> String {
    let Ok(tag) = LangTag::new(text) else {
        return "none".into();
    };
    let mut owned = tag.to_owned();
    let set = set(&mut owned, name, given);
    check_parts(&owned, LangTag::new(owned.as_str()).unwrap());
    if let Some(mut normal) = tag.as_normal().map(|tag| tag.to_owned()) {
        assert_eq!(set_normal(&mut normal, name, given), set);
        assert_eq!(normal.as_str(), owned.as_str());
        let is_longer = normal.len() > text.len();
        assert!(!is_longer || normal.clone().into_string().capacity() == owned.len());
    }
    match set {
        Some(Ok(())) => owned.into_string(),
        Some(Err(error)) => {
            assert_eq!((error, owned.as_str()), (EditError::NotNormal, text));
            "no parts".into()
        }
        None if tag.is_normal() => "refused".into(),
        None => "no parts".into(),
    }
}
