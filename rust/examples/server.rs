//! Chooses the language of a page: the parameter `lang`, else the header `Accept-Language`, else
//! the first language of the site. Sets `Content-Language` and `Vary`, and the direction of the
//! text. The tags come from a configuration, which the server reads again while it runs.
//!
//! ```sh
//! cargo run --example server
//! ```
use std::error::Error;
use std::sync::{Arc, RwLock};

use langtag::choice::Site;
use langtag::LangTagBuf;

/// The state that all requests share. A request keeps the site with which it began.
struct App {
    site: RwLock<Arc<Site<LangTagBuf>>>,
}

/// What a web framework gives a handler.
struct Request<'a> {
    query: &'a str,
    /// The header `Accept-Language`, whose bytes need not be UTF-8.
    accept_language: Option<&'a [u8]>,
}

struct Response {
    content_language: String,
    vary: &'static str,
    body: String,
}

fn load(config: &str) -> Result<Arc<Site<LangTagBuf>>, Box<dyn Error>> {
    let tags = config.split_whitespace().map(str::parse);
    let site = Site::new(tags.collect::<Result<Vec<LangTagBuf>, _>>()?);
    site.tags().first().ok_or("a site needs a language")?;
    for tag in site.tags() {
        tag.validate()?;
    }
    Ok(Arc::new(site))
}

impl App {
    fn reload(&self, config: &str) -> Result<(), Box<dyn Error>> {
        *self.site.write().unwrap() = load(config)?;
        Ok(())
    }

    fn handle(&self, request: &Request<'_>) -> Response {
        let site = self.site.read().unwrap().clone();
        let tag = choose(&site, request);
        let direction = if tag.is_right_to_left() { "rtl" } else { "ltr" };
        Response {
            content_language: tag.to_string(),
            vary: "Accept-Language",
            body: format!("<html lang={tag} dir={direction}>"),
        }
    }
}

fn choose<'s>(site: &'s Site<LangTagBuf>, request: &Request<'_>) -> &'s LangTagBuf {
    // `==` ignores case, so `?lang=ZH-hans` finds `zh-Hans`.
    let wanted = request.query.strip_prefix("lang=");
    let named = wanted.and_then(|wanted| site.tags().iter().find(|tag| *tag == wanted));
    let header = request
        .accept_language
        .map(|header| header.get(..1000).unwrap_or(header));
    let best = || site.best_for_header(header?);
    named.or_else(best).unwrap_or(&site.tags()[0])
}

fn main() -> Result<(), Box<dyn Error>> {
    let site = RwLock::new(load("en zh-Hans")?);
    let app = App { site };
    assert!(app.reload("en de_DE").is_err() && app.reload("en ger").is_err());
    app.reload("en zh-Hans zh-Hant ar")?;
    for (query, header, wanted) in [
        (
            "",
            Some("zh-TW,zh;q=0.9,en;q=0.8"),
            "<html lang=zh-Hant dir=ltr>",
        ),
        ("", Some("ar-EG"), "<html lang=ar dir=rtl>"),
        ("", Some("tlh"), "<html lang=en dir=ltr>"),
        ("", None, "<html lang=en dir=ltr>"),
        ("lang=ZH-hans", Some("fr"), "<html lang=zh-Hans dir=ltr>"),
    ] {
        let accept_language = header.map(str::as_bytes);
        let response = app.handle(&Request {
            query,
            accept_language,
        });
        assert_eq!(response.body, wanted);
        println!(
            "{} {} {}",
            response.content_language, response.vary, response.body
        );
    }
    Ok(())
}
