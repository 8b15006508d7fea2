//! Variants that occur twice among many (RFC 5646 sections 2.2.5 and 2.2.9). The rows ask for other repeats.
use langtag::NormalLangTag;

/// The number of variants, the variants that replace a numbered variant at an index, and the repeated variant.
type Variants = (u16, &'static [(u16, &'static str)], &'static str);

/// Tags with at most 143 bytes of variants, and with more; and then tags with at most one block of 1,152 variants, and with more.
const CASES: [Variants; 24] = [
    (1, &[], ""),
    (24, &[], ""),
    (24, &[(23, "A0000")], "A0000"),
    (25, &[], ""),
    (25, &[(24, "A0000")], "A0000"),
    (25, &[(24, "A0023")], "A0023"),
    (26, &[(25, "A0024")], "A0024"),
    (40, &[(39, "a0020")], "a0020"),
    (40, &[(38, "A0037"), (39, "A0020")], "A0037"),
    (40, &[(39, "b0020")], ""),
    (1_152, &[], ""),
    (1_152, &[(1_151, "A0000")], "A0000"),
    (1_153, &[(1_152, "A0000")], "A0000"),
    (1_154, &[(1_153, "A1152")], "A1152"),
    (2_305, &[(2_304, "A0000")], "A0000"),
    (2_306, &[(2_305, "A2304")], "A2304"),
    (8_300, &[], ""),
    (8_300, &[(4_000, "A0005")], "A0005"),
    (8_300, &[(5_000, "A0005")], "A0005"),
    (8_300, &[(8_299, "a4500")], "a4500"),
    (8_300, &[(8_299, "A8298")], "A8298"),
    (8_300, &[(8_000, "A5000"), (8_250, "A0010")], "A5000"),
    (8_300, &[(8_000, "A0010"), (8_250, "A5000")], "A0010"),
    (
        8_300,
        &[(7_000, "B6999"), (8_000, "A5000"), (8_250, "A0010")],
        "A5000",
    ),
];

/// Returns a tag with `count` numbered variants, `a0000`, `a0001` .., and other variants at some indices.
fn with_variants(count: u16, others: &[(u16, &str)]) -> String {
    let mut text = String::from("en");
    for index in 0..count {
        text.push('-');
        match others.iter().find(|other| other.0 == index) {
            Some((_, variant)) => text.push_str(variant),
            None => text.push_str(&format!("a{index:04}")),
        }
    }
    text
}

#[test]
fn a_repeat_among_few_or_many_variants() {
    for (count, others, repeated) in CASES {
        let text = with_variants(count, others);
        let tag = NormalLangTag::new(&text).unwrap();
        assert_eq!(tag.variants().iter().count(), usize::from(count));
        let found = tag
            .repeated_variant()
            .map_or("", |variant| variant.as_str());
        assert_eq!(found, repeated, "{count}");
    }
}
