//! Functions over bytes (RFC 5646 section 2.1): case, and recognisers over sources that were read before or that compute their bytes.
use std::cmp::Ordering;
use std::hash::Hasher;

use langtag::scan::{
    case_insensitive_cmp, case_insensitive_hash, into_smallcase, recognise, recognise_normal,
    ByteSource, Ends, Metered,
};

/// The text `en-x` with `-a` repeated many times after it. None of its bytes is stored.
#[derive(Default)]
struct PrivateSubtags {
    len: usize,
    reads: u128,
    reach: usize,
}

impl ByteSource for PrivateSubtags {
    fn len(&self) -> usize {
        self.len
    }

    fn reads(&self) -> u128 {
        self.reads
    }

    fn reach(&self) -> usize {
        self.reach
    }

    fn byte(&mut self, index: usize) -> u8 {
        self.reads += 1;
        self.reach = self.reach.max(index + 1);
        match index {
            0..=3 => b"en-x"[index],
            _ if index % 2 == 0 => b'-',
            _ => b'a',
        }
    }
}

#[test]
fn ten_thousand_private_subtags() {
    let len = 4 + 2 * 10_000;
    let wanted = Ends {
        language: 2,
        script: 2,
        region: 2,
        variants: 2,
        extensions: 2,
        whole: len,
    };
    let source = || PrivateSubtags {
        len,
        ..Default::default()
    };
    let mut whole = source();
    let ends = recognise(&mut whole).and_then(|found| found.ends());
    assert_eq!(ends, Some(wanted));
    assert_eq!((whole.reads(), whole.reach()), (len as u128, len));
    let mut normal = source();
    let ends = recognise_normal(&mut normal).and_then(|found| found.ends());
    assert_eq!(ends, Some(wanted));
    assert!(normal.reads() <= len as u128);
}

#[test]
fn a_source_that_was_read_before() {
    for (text, last, reads, reach) in [
        ("fr-FR", 3, 10, 5),
        ("i-notexist", 8, 9, 9),
        ("i-klingon-x", 10, 15, 11),
    ] {
        let mut source = Metered::new(text);
        for _ in 0..5 {
            source.byte(last);
        }
        assert_eq!(source.reads(), 5, "{text}");
        assert_eq!(recognise(&mut source).is_some(), text == "fr-FR", "{text}");
        assert_eq!((source.reads(), source.reach()), (reads, reach), "{text}");
    }
}

#[test]
fn letters_alone_are_folded() {
    for byte in 0..=u8::MAX {
        assert_eq!(into_smallcase(byte), byte.to_ascii_lowercase());
    }
}

#[test]
fn bytes_that_are_no_text_have_an_order() {
    assert_eq!(case_insensitive_cmp(b"\xff", b""), Ordering::Less);
}

/// A hasher that keeps the bytes of each call.
#[derive(Default)]
struct Calls(Vec<Vec<u8>>);

impl Hasher for Calls {
    fn write(&mut self, bytes: &[u8]) {
        self.0.push(bytes.to_vec());
    }

    fn finish(&self) -> u64 {
        0
    }
}

#[test]
fn a_hasher_is_fed_a_folded_byte_a_call() {
    for (text, folded) in [("Fr", "fr"), ("dE-AraB-lY", "de-arab-ly"), ("", "")] {
        let mut calls = Calls::default();
        case_insensitive_hash(text.as_bytes(), &mut calls);
        let wanted: Vec<Vec<u8>> = folded.bytes().map(|byte| vec![byte]).collect();
        assert_eq!(calls.0, wanted);
    }
}
