// Generated from crates/langtag_locale/src/locale_tables.rt. Do not edit.

//! The aliases of language identifiers of Unicode's CLDR 48.2, in tables (the notice:
//! LICENSE-UNICODE). Written by data/unicode/generate.py. Do not edit.

/// The languages that change with a variant: the language, the variant and the new language.
#[rustfmt::skip]
pub(crate) static VARIANT_LANGUAGES: [(&str, &str, &str); 9] = [
    ("aa", "saaho", "ssy"), ("art", "lojban", "jbo"), ("cel", "gaulish", "xtg"), ("hy", "arevmda", "hyw"),
    ("no", "bokmal", "nb"), ("no", "nynorsk", "nn"), ("zh", "guoyu", "zh"), ("zh", "hakka", "hak"),
    ("zh", "xiang", "hsn"),
];

/// The regions after `sgn`, each with its sign language.
#[rustfmt::skip]
pub(crate) static SIGN_LANGUAGES: [(&str, &str); 19] = [
    ("br", "bzs"), ("co", "csn"), ("de", "gsg"), ("dk", "dsl"), ("es", "ssp"), ("fr", "fsl"), ("gb", "bfi"),
    ("gr", "gss"), ("ie", "isg"), ("it", "ise"), ("jp", "jsl"), ("mx", "mfs"), ("ni", "ncs"), ("nl", "dse"),
    ("no", "nsl"), ("pt", "psr"), ("se", "swl"), ("us", "ase"), ("za", "sfs"),
];

/// The variants that are replaced together with a second variant: the variant, the second variant,
/// and the new variant.
#[rustfmt::skip]
pub(crate) static VARIANT_PAIRS: [(&str, &str, &str); 1] = [
    ("hepburn", "heploc", "alalc97"),
];

/// The variants that are replaced: the old variant and the new variant.
#[rustfmt::skip]
pub(crate) static VARIANT_ALIASES: [(&str, &str); 2] = [
    ("heploc", "alalc97"), ("polytoni", "polyton"),
];

/// The variants that are left out.
#[rustfmt::skip]
pub(crate) static DROPPED_VARIANTS: [&str; 9] = [
    "aaland", "arevela", "arevmda", "bokmal", "hakka", "lojban", "nynorsk", "saaho", "xiang",
];

/// The variants that stand for a region, each with its region.
#[rustfmt::skip]
pub(crate) static VARIANT_REGIONS: [(&str, &str); 1] = [
    ("aaland", "ax"),
];

/// The scripts that are replaced: the old script and the new script.
#[rustfmt::skip]
pub(crate) static SCRIPT_ALIASES: [(&str, &str); 1] = [
    ("qaai", "zinh"),
];

/// The regions that one of several regions replaces, each with those regions.
#[rustfmt::skip]
pub(crate) static REGION_HEIRS: [(&str, &str); 18] = [
    ("062", "034-143"), ("172", "ru-am-az-by-ge-kg-kz-md-tj-tm-ua-uz"), ("200", "cz-sk"), ("530", "cw-sx-bq"),
    ("532", "cw-sx-bq"), ("536", "sa-iq"), ("582", "fm-mh-mp-pw"),
    ("810", "ru-am-az-by-ee-ge-kz-kg-lv-lt-md-tj-tm-ua-uz"), ("830", "je-gg"), ("890", "rs-me-si-hr-mk-ba"),
    ("891", "rs-me"), ("an", "cw-sx-bq"), ("cs", "rs-me"), ("fq", "aq-tf"), ("nt", "sa-iq"), ("pc", "fm-mh-mp-pw"),
    ("su", "ru-am-az-by-ee-ge-kz-kg-lv-lt-md-tj-tm-ua-uz"), ("yu", "rs-me"),
];

/// The numbers of the variants that are replaced or left out: their bytes, and zeros up to eight
/// bytes.
#[rustfmt::skip]
pub(crate) static CHANGING_VARIANTS: [u64; 14] = [
    0x61616c616e640000, 0x61726576656c6100, 0x617265766d646100, 0x626f6b6d616c0000, 0x6761756c69736800,
    0x67756f7975000000, 0x68616b6b61000000, 0x6865706275726e00, 0x6865706c6f630000, 0x6c6f6a62616e0000,
    0x6e796e6f72736b00, 0x706f6c79746f6e69, 0x736161686f000000, 0x7869616e67000000,
];
