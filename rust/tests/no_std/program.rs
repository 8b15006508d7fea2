//! A program without std and without an allocator. It ends with 0 if all answers are right.
//!
//! `checks/rust` builds it, because cargo builds tests and examples with std.
#![no_std]
#![no_main]

use langtag::choice::best_for_header;
use langtag::registry::write_canonical;
use langtag::LangTag;

fn is_right() -> Option<bool> {
    let tag = LangTag::new("zh-Hant-TW").ok()?;
    let mut buffer = [0; 16];
    let form = write_canonical(LangTag::new("iw-BU").ok()?, &mut buffer).ok()?;
    let best = best_for_header("zh-TW,zh;q=0.9,en;q=0.8", &["en", "zh-Hans", "zh-Hant"]);
    Some(tag.script()? == "Hant" && form == "he-MM" && best == Some(2) && tag.is_valid())
}

#[no_mangle]
extern "C" fn main(_: i32, _: *const *const u8) -> i32 {
    i32::from(is_right() != Some(true))
}

#[panic_handler]
fn end(_: &core::panic::PanicInfo<'_>) -> ! {
    loop {}
}
