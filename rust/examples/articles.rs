//! Reads and writes the articles of a site as JSON, with the feature `serde`. Tags are in a list
//! and in an option, and are keys of a map. They need no attribute of serde. The owned types, such
//! as `LangTagBuf`, are read from any input. The borrowed types, such as `LangTag`, need
//! `#[serde(borrow)]`.
#[cfg(feature = "serde")]
fn main() -> Result<(), Box<dyn std::error::Error>> {
    use langtag::LangTagBuf;
    use serde::{Deserialize, Serialize};
    use std::collections::BTreeMap;

    #[derive(Serialize, Deserialize)]
    struct Article {
        language: LangTagBuf,
        original: Option<LangTagBuf>,
        translations: Vec<LangTagBuf>,
        titles: BTreeMap<LangTagBuf, String>,
    }

    let json = r#"{"language":"de-CH","original":null,"translations":["fr","zh-Hant"],"titles":{"fr":"Vélo","zh-Hant":"單車"}}"#;
    let article: Article = serde_json::from_str(json)?;
    assert_eq!(serde_json::to_string(&article)?, json);
    for tag in &article.translations {
        println!("{tag} {}", article.titles[tag]);
    }
    if let Err(error) = serde_json::from_str::<Article>(&json.replace("de-CH", "de_CH")) {
        println!("{error}");
    }
    Ok(())
}

#[cfg(not(feature = "serde"))]
fn main() {
    println!("The manifest of a release has the feature serde.");
}
